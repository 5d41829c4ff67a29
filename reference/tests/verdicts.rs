//! What the prover says of the cases that it did not accept.

use reference::antt::{Verdicts, verdicts};

/// Two cases that differ, and between them one that took too many steps.
const MIXED: &str = "\
== paper
== outside0
./proofs/Rows0.antt:7:10: error: `case-0`: expected type `T (right (is_looseness (0 ∷ []) 2 0 0 7 2))`, but this has type `Unit {?ℓ0}`
  computed as far as they go, the two types are `⊥` (expected) and `Unit {?ℓ0}` (found)
  here `?ℓ0` is the level argument {ℓ} of `tt` (introduced at 7:10)
./proofs/Rows0.antt:9:1: error: `case-12`: in its elaboration (it was elaborating the text at 11:11–11:13): stopped at the step limit (50000000 steps a task, the default)
  of its 6263440 steps, 99% went to comparisons (unification) (antt's JSON report has the figures, under `steps.phases`): the cost is in comparing two terms or types
./proofs/Rows0.antt:15:10: error: `case-4`: as printed, the two types first differ where one has `T` (expected), at the start, and the other has `Unit` (found)
logic=not-proved
== outside1
logic=proved functions=0 sum=dac8208d650f15bf native=nat,char,string
== summary
paper: ok
outside0: failed (1)
outside1: ok
2 of 3 crates ok
";

#[test]
fn differences_and_undecided_cases_are_told_apart() {
    let wanted = Verdicts {
        differ: [0, 4].into(),
        undecided: [12].into(),
        others: vec![],
    };
    assert_eq!(verdicts(MIXED), wanted);
}

#[test]
fn a_case_that_differs_is_decided() {
    let again = MIXED.replace("`case-4`", "`case-12`");
    let found = verdicts(&again);
    assert_eq!(found.differ, [0, 12].into());
    assert!(found.undecided.is_empty());
}

#[test]
fn a_case_that_outgrew_the_memory_differs() {
    let line =
        "./proofs/Rows0.antt:9:1: error: `case-3`: in its elaboration: outgrew the memory limit (";
    let found = verdicts(line);
    assert!(found.undecided.is_empty() && found.others.is_empty());
    assert_eq!(found.differ, [3].into());
}

#[test]
fn errors_without_a_case_are_kept() {
    let line = "./specs/Case.antt:8:1: error: stopped at the step limit";
    let found = verdicts(&format!("{line}\n"));
    assert_eq!(found.others, [line]);
    assert!(found.differ.is_empty() && found.undecided.is_empty());
}

#[test]
fn nothing_is_found_where_all_is_proved() {
    let all = "== summary\npaper: ok\noutside0: ok\noutside1: ok\n3 of 3 crates ok\n";
    assert_eq!(verdicts(all), Verdicts::default());
}
