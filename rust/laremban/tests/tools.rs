//! Every tool tells its version, and does so through a symbolic link.
#![cfg(unix)]

use std::os::unix::fs::symlink;
use std::path::Path;
use std::process::{self, Command};
use std::{env, fs};

const TOOLS: &str = concat!(env!("CARGO_MANIFEST_DIR"), "/../../tools");

/// The names of the tools.
fn tools() -> Vec<String> {
    let entries = fs::read_dir(TOOLS).expect("a folder");
    let name = |entry: fs::DirEntry| entry.file_name().into_string().expect("a name");
    let names = entries.map(|entry| name(entry.expect("an entry")));
    names.filter(|name| name != "lib.sh").collect()
}

#[test]
fn versions_through_links() {
    // Outside the repository: `rt ci` takes no link below its top.
    let folder = env::temp_dir().join(format!("laremban-links-{}", process::id()));
    fs::create_dir_all(&folder).expect("a folder");
    let tools = tools();
    assert!(tools.len() >= 9, "{tools:?}");
    for tool in tools {
        // A link to a link, by another name.
        let (first, link) = (folder.join(&tool), folder.join(format!("my-{tool}")));
        symlink(Path::new(TOOLS).join(&tool), &first).expect("a link");
        symlink(&first, &link).expect("a link");
        let out = Command::new(&link)
            .arg("--version")
            .current_dir(&folder)
            .output()
            .expect("the tool");
        let told = String::from_utf8(out.stdout).expect("a text");
        let wanted = format!("my-{tool} (Laremban {}", env!("CARGO_PKG_VERSION"));
        assert!(out.status.success() && out.stderr.is_empty(), "{tool}");
        assert!(told.starts_with(&wanted) && told.ends_with(")\n"), "{told}");
        assert_eq!(told.lines().count(), 1);
    }
    fs::remove_dir_all(&folder).expect("the folder");
}
