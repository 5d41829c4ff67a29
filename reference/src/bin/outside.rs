//! `outside [SEED | FILE]` holds cases against the definitions of the crate
//! `paper`: those of a seed (1 when none is given), or those of a file in the
//! text format of `reference::cases`.
//!
//! Each case becomes a theorem in a temporary repository beside a copy of
//! `paper`, and the prover evaluates it. A case whose theorem is refused is a
//! difference between the definitions and the answer that stands in the case.
//! Where the prover runs out of steps, as on a lift of hundreds of darts, the
//! case is not decided: that is no difference, and counts for nothing.

use reference::antt::{self, Verdicts};
use reference::cases::{self, Case};
use reference::{draw, tally};
use std::path::{Path, PathBuf};
use std::process::{Command, ExitCode};
use std::time::Instant;
use std::{env, fs, io};

/// Two crates, so that two processors are used; so many cases a module.
const CRATES: usize = 2;
const CASES_A_MODULE: usize = 20;
/// The folders of a crate that the prover reads.
const PARTS: [&str; 3] = ["src", "specs", "proofs"];

/// The repository that this crate stands in.
fn repository() -> PathBuf {
    Path::new(env!("CARGO_MANIFEST_DIR")).join("..")
}

fn copy_folder(from: &Path, to: &Path) -> io::Result<()> {
    fs::create_dir_all(to)?;
    for entry in fs::read_dir(from)? {
        let entry = entry?;
        let target = to.join(entry.file_name());
        if entry.file_type()?.is_dir() {
            copy_folder(&entry.path(), &target)?;
        } else {
            fs::copy(entry.path(), target)?;
        }
    }
    Ok(())
}

/// One crate of theorems: the cases whose number leaves the remainder `part`.
fn write_crate(top: &Path, part: usize, cases: &[Case]) -> io::Result<()> {
    let name = format!("outside{part}");
    let folder = top.join("crates").join(&name);
    for part in PARTS {
        fs::create_dir_all(folder.join(part))?;
    }
    fs::write(folder.join("src/lib.rt"), "#![tactic(auto)]\n")?;
    fs::write(folder.join("specs/Lib.antt"), "pub mod Case\n")?;
    fs::write(folder.join("specs/Case.antt"), antt::CASE_MODULE)?;
    let own: Vec<(usize, &Case)> = cases
        .iter()
        .enumerate()
        .skip(part)
        .step_by(CRATES)
        .collect();
    let mut root = String::new();
    for (k, group) in own.chunks(CASES_A_MODULE).enumerate() {
        root.push_str(&format!("pub mod Rows{k}\n"));
        let file = folder.join(format!("proofs/Rows{k}.antt"));
        fs::write(file, antt::module(&name, group))?;
    }
    fs::write(folder.join("proofs/Lib.antt"), root)
}

fn write_repository(top: &Path, cases: &[Case]) -> io::Result<()> {
    // Without what the prover keeps beside them, which it may be writing just now.
    for part in PARTS {
        let inside = Path::new("crates/paper").join(part);
        copy_folder(&repository().join(&inside), &top.join(inside))?;
    }
    let mut list = String::from("paper:\n");
    for part in 0..CRATES {
        write_crate(top, part, cases)?;
        list.push_str(&format!("outside{part}: paper\n"));
    }
    fs::write(top.join("crates.txt"), list)?;
    Command::new("git")
        .args(["init", "-q"])
        .current_dir(top)
        .status()
        .map(|_| ())
}

/// Each crate of theorems was proved, or some of its cases are named.
fn is_whole(output: &str, found: &Verdicts) -> bool {
    let named = |part: usize| {
        let mut numbers = found.differ.iter().chain(&found.undecided);
        numbers.any(|n| n % CRATES == part)
    };
    let proved = |part: usize| output.contains(&format!("\noutside{part}: ok\n"));
    found.others.is_empty() && (0..CRATES).all(|part| proved(part) || named(part))
}

/// What `rt` says, called with these words in a folder.
fn rt(folder: &Path, words: &[&str]) -> Result<String, String> {
    let run = Command::new("rt").args(words).current_dir(folder).output();
    let run = run.map_err(|e| format!("rt: {e}"))?;
    Ok(format!(
        "{}{}",
        String::from_utf8_lossy(&run.stdout),
        String::from_utf8_lossy(&run.stderr)
    ))
}

/// Has the prover evaluate every case.
fn evaluate(cases: &[Case]) -> Result<Verdicts, String> {
    let top = env::temp_dir().join(format!("outside-{}", std::process::id()));
    write_repository(&top, cases).map_err(|e| format!("the temporary repository: {e}"))?;
    // With `paper` built before, no quick pass goes over all cases first.
    let text = rt(&top.join("crates/paper"), &["lib"])
        .and_then(|built| Ok(built + &rt(&top, &["all", "check"])?));
    let _ = fs::remove_dir_all(&top);
    let text = text?;
    let found = antt::verdicts(&text);
    if is_whole(&text, &found) {
        Ok(found)
    } else {
        Err(format!("rt all check failed beside the cases:\n{text}"))
    }
}

/// The cases of the argument, and whether the tally is to be enforced.
fn chosen() -> Result<(Vec<Case>, bool), String> {
    match env::args().nth(1) {
        None => Ok((draw::draw(1), true)),
        Some(word) => match word.parse() {
            Ok(seed) => Ok((draw::draw(seed), true)),
            Err(_) => {
                let text = fs::read_to_string(&word).map_err(|e| format!("{word}: {e}"))?;
                let cases = cases::parse_all(&text)?;
                if cases.is_empty() {
                    return Err(format!("{word} has no case"));
                }
                Ok((cases, false))
            }
        },
    }
}

/// The tally of cases; fails where it is to be enforced and lacks something.
fn tallied(cases: &[Case], enforced: bool) -> Result<tally::Tally, String> {
    let found = tally::tally(cases);
    let lacking = found.enforce();
    if enforced && !lacking.is_empty() {
        return Err(lacking.join("\n"));
    }
    Ok(found)
}

fn compare() -> Result<(), String> {
    let (cases, enforced) = chosen()?;
    print!("{}", tallied(&cases, enforced)?);
    let start = Instant::now();
    let Verdicts {
        differ, undecided, ..
    } = evaluate(&cases)?;
    for &number in &differ {
        println!("differs: {}", cases::write(&cases[number]));
    }
    for &number in &undecided {
        println!("not decided: {}", cases::write(&cases[number]));
    }
    let (all, seconds) = (cases.len(), start.elapsed().as_secs());
    println!(
        "outside: {all} cases, {} differences, {} not decided, {seconds} s",
        differ.len(),
        undecided.len()
    );
    if !differ.is_empty() {
        return Err("the definitions and the reference differ".into());
    }
    let numbered = cases.into_iter().enumerate();
    let decided = numbered.filter(|(number, _)| !undecided.contains(number));
    let decided: Vec<Case> = decided.map(|(_, case)| case).collect();
    tallied(&decided, enforced).map(|_| ())
}

fn main() -> ExitCode {
    match compare() {
        Ok(()) => ExitCode::SUCCESS,
        Err(message) => {
            eprintln!("outside: {message}");
            ExitCode::FAILURE
        }
    }
}
