//! A right lifter and wrong ones, each with one mistake, are marked.

mod common;

use common::{marks, program};
use laremban_mark::exercise::Exercise;
use laremban_mark::lifting::Lifting;
use laremban_mark::marking::try_one;
use laremban_mark::sheet::Sheet;
use laremban_script::{Room, Run, Script};

/// The first four are those that document 01 names, as far as they are the
/// lift's.
const MISTAKES: [&str; 27] = [
    "cuts at own ends only",
    "links across to a neighbour that stops",
    "joins touching spans",
    "keeps touching solids apart",
    "cuts at walls only",
    "fills gaps",
    "goes to the last end",
    "leaves a cut open",
    "never links across",
    "looks at the other side across",
    "takes the link of axis i",
    "takes sides that are not covered",
    "numbers levels first",
    "numbers up before down",
    "loses the last dart",
    "forgets signs",
    "fails in dimension 4",
    "takes the cell one level above",
    "cuts in dimension 4 at own ends only",
    "cuts corners alone",
    "looks two parcels far",
    "reads seven spans",
    "sorts heights as words",
    "wraps at 16 bits",
    "forgets objects",
    "takes the object of the other side",
    "takes the object of the first span",
];

#[test]
fn a_right_lifter_passes_two_thousand_sheets() {
    let marks = marks(&Lifting, &program("lifter", ""), 1, 2_000);
    assert!(
        marks.all_right(),
        "{:?}",
        marks.first.map(|first| first.2.told)
    );
    assert!(
        marks
            .by_dimension
            .iter()
            .all(|of| (of.right, of.all) == (500, 500))
    );
}

/// The sheet that a script builds, and that tools/script takes without a refusal.
fn taken(script: &str) -> Sheet {
    let read = Script::read(script.as_bytes()).expect(script);
    let mut told = Vec::new();
    let run = Run::new(&read, Room::default());
    run.tell(&mut told).expect("a text");
    assert_eq!(
        (run.ended().number, run.ended().refused),
        (0, 0),
        "{script}"
    );
    assert!(script.ends_with("\nLIFT\n"), "{script}");
    Sheet::of_commands(&read.commands())
}

#[test]
fn each_mistake_is_found_and_told_by_a_small_sheet() {
    for mistake in MISTAKES {
        let program = program("lifter", mistake);
        let marks = marks(&Lifting, &program, 1, 200);
        let (_, dimension, wrong) = marks.first.expect(mistake);
        let sheet = taken(&Lifting.shown(&wrong.sheet));
        assert_eq!((&sheet, sheet.dimension), (&wrong.sheet, dimension));
        let most = if mistake == "cuts at walls only" {
            32
        } else {
            8
        };
        assert!(sheet.count() <= most, "{mistake}: {} darts", sheet.count());
        let again = try_one(&Lifting, &program, &sheet).expect("a program");
        assert_eq!(again.expect(mistake).told[0], wrong.told[0]);
    }
}

/// Other seeds find the first mistakes too.
#[test]
fn other_sheets_show_the_mistakes_as_well() {
    for seed in 2..5 {
        for mistake in &MISTAKES[..4] {
            let marks = marks(&Lifting, &program("lifter", mistake), seed, 60);
            let wrong = marks.by_dimension.iter().map(|of| of.all - of.right);
            assert!(wrong.sum::<usize>() > 3, "{mistake}, seed {seed}");
        }
    }
}
