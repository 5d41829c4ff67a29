//! A right program that replies to commands, and wrong ones, are marked.

mod common;

use common::{marks, program};
use laremban::{Refusal, hex, liftrun};
use laremban_mark::exercise::Exercise;
use laremban_mark::lists::list;
use laremban_mark::marking::try_one;
use laremban_mark::replying::Replying;
use std::collections::BTreeSet;

const MISTAKES: [&str; 19] = [
    "sews one dart alone",
    "refuses touching spans",
    "ADOPT takes spans along",
    "a refused span stays",
    "a row holds nine",
    "places are not compared",
    "places one dart alone",
    "NEW forgets the lifted map",
    "counts what is freed twice",
    "asks for room first",
    "asks for darts first",
    "takes no objects",
    "objects are not compared",
    "joins what touches",
    "joins on and on",
    "refuses every overlap",
    "refuses where all are another's",
    "a full row joins nothing",
    "keeps the old high end",
];

#[test]
fn a_right_program_passes() {
    let marks = marks(&Replying, &program("replier", ""), 1, 400);
    assert!(
        marks.all_right(),
        "{:?}",
        marks.first.map(|first| first.2.told)
    );
}

#[test]
fn each_mistake_is_found_and_told_by_a_short_list() {
    for mistake in MISTAKES {
        let program = program("replier", mistake);
        let marks = marks(&Replying, &program, 1, 200);
        let (_, _, wrong) = marks.first.expect(mistake);
        assert!(wrong.sheet.parts.len() <= 24, "{mistake}: {:?}", wrong.told);
        // What is shown is what `liftrun FILE` reads.
        let bytes = hex::bytes(&Replying.shown(&wrong.sheet)).expect("bytes");
        assert_eq!(bytes, wrong.sheet.bytes());
        let again = try_one(&Replying, &program, &wrong.sheet).expect("a program");
        assert_eq!(again.expect(mistake).told, wrong.told);
    }
}

#[test]
fn lists_meet_every_refusal_and_fit() {
    let mut met = BTreeSet::new();
    for at in 0..400 {
        let bytes = list(1, 1 + at % 4, at / 4).bytes();
        assert!(bytes.len() <= 2_048);
        let text = liftrun(&bytes);
        met.extend(
            text.lines()
                .map(|line| line.split(' ').next().map(str::to_string)),
        );
        // The number that a run ends by is no reply's where it is 23.
        met.extend(text.contains("end 23 ").then(|| Some("23".to_string())));
    }
    let missing: Vec<u8> = (0..=23)
        .filter(|number| !(6..=11).contains(number))
        .filter(|number| !met.contains(&Some(number.to_string())))
        .collect();
    assert_eq!(missing, [0; 0]);
    assert_eq!(Refusal::ALL.len(), 23);
}
