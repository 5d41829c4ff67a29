//! Tells cargo where the static library of the proved code lies: in the folder
//! that LAREMBAN_LIB names, or where the repository makes it.

use std::path::{Path, PathBuf};
use std::{env, fs};

/// A function that every library has since libraries have a version. Which one
/// it is, the crate asks at its first call.
const VERSION: &[u8] = b"laremban_version";

fn folder() -> PathBuf {
    let made = || Path::new(env!("CARGO_MANIFEST_DIR")).join("../../target/staticlib");
    env::var_os("LAREMBAN_LIB").map_or_else(made, PathBuf::from)
}

/// What is wrong with a library, as far as its bytes tell it.
fn fault(library: &Path) -> Option<&'static str> {
    match fs::read(library) {
        Err(_) => Some("is missing"),
        Ok(bytes) if bytes.windows(VERSION.len()).any(|part| part == VERSION) => None,
        Ok(_) => Some("is older than this crate"),
    }
}

fn main() {
    let folder = folder();
    let library = folder.join("liblaremban.a");
    println!("cargo::rerun-if-env-changed=LAREMBAN_LIB");
    println!("cargo::rerun-if-changed={}", library.display());
    println!("cargo::rustc-link-search=native={}", folder.display());
    // Where only the documentation is made, nothing is linked.
    let fault = fault(&library).filter(|_| env::var_os("DOCS_RS").is_none());
    if let Some(fault) = fault {
        println!(
            "cargo::error={} {fault}: run `tools/parcels` in the repository, which makes it, or set \
             LAREMBAN_LIB to the full path of a folder that has it",
            library.display()
        );
    }
}
