//! `compare_runs COUNT [SEED]` holds so many drawn lists of commands, from a seed
//! on (1 when none is given), against the reference. Each list has a seed of its
//! own, so that `compare_runs 1 SEED` runs one that differs again.

use proved::met::Met;
use proved::runs::compare;
use reference::lists::list;
use reference::random::Random;
use std::process::ExitCode;
use std::time::{Duration, Instant};

/// How long it is silent at most, but for a list that takes longer.
const PAUSE: Duration = Duration::from_secs(5);

/// How many lists, and the seed of the first.
fn arguments() -> Option<(u64, u64)> {
    let mut words = std::env::args().skip(1);
    let count = words.next()?.parse().ok()?;
    let seed = words.next().map_or(Ok(1), |word| word.parse()).ok()?;
    words.next().is_none().then_some((count, seed))
}

/// Compares one list; whether it differs, which is told.
fn differs(seed: u64, met: &mut Met) -> bool {
    let random = &mut Random::new(!seed);
    match compare(random, &list(seed), met) {
        Ok(_) => false,
        Err(told) => {
            println!("seed {seed} differs\n{told}");
            true
        }
    }
}

fn main() -> ExitCode {
    let Some((count, first)) = arguments() else {
        eprintln!("usage: runs COUNT [SEED], both whole numbers");
        return ExitCode::FAILURE;
    };
    let met = &mut Met::default();
    let (mut differences, mut told) = (0, Instant::now());
    for at in 0..count {
        differences += usize::from(differs(first.wrapping_add(at), met));
        if told.elapsed() >= PAUSE {
            told = Instant::now();
            eprintln!("{} of {count} lists, {differences} differ", at + 1);
        }
    }
    let (lists, commands) = (met.lists, met.commands);
    println!("{lists} lists, {commands} commands, {differences} differences");
    match differences {
        0 => ExitCode::SUCCESS,
        _ => ExitCode::FAILURE,
    }
}
