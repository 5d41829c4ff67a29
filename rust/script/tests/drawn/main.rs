//! Drawn scripts: words, bytes and words again, and reasons that agree with the
//! run.

mod draw;

use draw::Draw;
use laremban::{Refusal, hex};
use laremban_script::{Room, Run, Script, words_of_bytes};
use std::collections::BTreeSet;

/// Room for little, so that it is met.
const ROOM: Room = Room {
    plan: 12,
    lifted: 60,
};

fn read(text: &str) -> Script {
    Script::read(text.as_bytes()).expect("a script that can be read")
}

fn bytes(script: &Script) -> Vec<u8> {
    script.commands().bytes().to_vec()
}

fn told(script: &Script) -> String {
    let mut told = Vec::new();
    let ran = Run::new(script, ROOM).tell(&mut told);
    ran.expect("memory to write to");
    String::from_utf8(told).expect("a text")
}

#[test]
fn words_bytes_and_words_again() {
    for seed in 0..300 {
        let script = read(&Draw::new(seed).script(60));
        let made = bytes(&script);
        let words = words_of_bytes(&made);
        assert_eq!(bytes(&read(&words)), made, "seed {seed}");
        assert_eq!(words_of_bytes(&bytes(&read(&words))), words);
        assert_eq!(hex::bytes(&script.hex()), Ok(made));
    }
}

/// A command that comes needs a word.
#[test]
fn every_command_has_words() {
    let mut commands = 0;
    for byte in 0..=u8::MAX {
        let mut wanted = vec![byte];
        wanted.resize(16, 0);
        let read = laremban::decode(&wanted, 0);
        if read.command.is_ok() {
            wanted.truncate(read.next);
            assert_eq!(bytes(&read_words(&wanted)), wanted);
            commands += 1;
        }
    }
    assert!(commands >= 11, "only {commands} commands");
}

/// The script of bytes that are turned to words.
fn read_words(bytes: &[u8]) -> Script {
    read(&words_of_bytes(bytes))
}

#[test]
fn any_bytes_become_words_up_to_where_they_can_be_read() {
    let (mut draw, mut whole) = (Draw::new(1), 0);
    for _ in 0..3_000 {
        let many = draw.below(40);
        let drawn: Vec<u8> = (0..many)
            .map(|_| match draw.below(3) {
                0 => draw.below(256) as u8,
                _ => 0x10 + draw.below(11) as u8,
            })
            .collect();
        let words = words_of_bytes(&drawn);
        let again = bytes(&read(&words));
        assert!(drawn.starts_with(&again));
        assert_eq!(again == drawn, !words.contains('#'));
        whole += usize::from(again == drawn);
    }
    assert!((100..2_900).contains(&whole), "{whole} are whole");
}

/// Words that only an exact reason of a number has.
fn mark(number: u8) -> &'static str {
    match number {
        3 => " is out of range: ",
        4 => "there is no dart ",
        5 => ", which is not below hi, ",
        12 => ": NEW makes one",
        13 => "room for ",
        14 => " is linked to dart ",
        15 => "no pairing: ",
        16 => " disagree: dart ",
        17 => " is free along axis ",
        18 => ", a span of the top cell of dart ",
        19 => "the top cell of dart ",
        20 => ", and the lift has ",
        21 => ": LIFT comes first",
        22 => "the plan has dimension 5, ",
        _ => panic!("{number} can't be met in words"),
    }
}

/// The number and the words of a line that tells a refusal.
fn refusal(line: &str) -> Option<(u8, &str)> {
    let (_, rest) = line.split_once("refused by ")?;
    let (number, why) = rest.split_once(": ")?;
    let number = number.split(' ').next()?.parse().ok()?;
    Some((number, why))
}

#[test]
fn every_refusal_has_its_own_reason() {
    let mut met = BTreeSet::new();
    for seed in 0..400 {
        let text = told(&read(&Draw::new(seed).script(80)));
        for (number, why) in text.lines().filter_map(refusal) {
            let plain = Refusal::from_number(number).expect("a refusal").to_string();
            assert!(
                why.contains(mark(number)) && why != plain,
                "{number}: {why}"
            );
            met.insert(number);
        }
    }
    let wanted: BTreeSet<u8> = (3..=5).chain(12..=22).collect();
    assert_eq!(met, wanted);
}

#[test]
fn a_line_is_told_for_each_line_and_the_numbers_are_the_runs() {
    for seed in 0..100 {
        let script = read(&Draw::new(seed).script(60));
        let text = told(&script);
        let ended = Run::new(&script, ROOM).ended();
        for line in script.lines() {
            assert!(text.contains(&format!("{line}: ")));
        }
        let end = format!("{} accepted, {} refused.\n", ended.accepted, ended.refused);
        assert!(text.ends_with(&end));
        assert_eq!(ended.taken, script.commands().count_commands());
    }
}

/// Words that make more sense apart.
const RUBBISH: &[&str] = &[
    "NEW",
    "dart",
    "x",
    "SEW",
    "show",
    "cell",
    "pieces",
    "plan",
    "lifted",
    "names",
    "0",
    "-1",
    "65536",
    "9999999999999999999999",
    "+1",
    "-",
    "#",
    "\u{feff}",
    "é",
    "\0",
    "\r",
    "\n",
    "\n",
    "\n",
];

#[test]
fn rubbish_is_told_and_never_stops_the_program() {
    let mut draw = Draw::new(7);
    for _ in 0..2_000 {
        let many = draw.below(30);
        let text: Vec<&str> = (0..many)
            .map(|_| RUBBISH[draw.below(RUBBISH.len() as u64) as usize])
            .collect();
        let text = text.join(" ");
        match Script::read(text.as_bytes()) {
            Ok(script) => assert!(told(&script).ends_with(" refused.\n")),
            Err(faults) => {
                let (lines, first) = (text.split('\n').count(), faults.first);
                assert!(!first.is_empty() && first.len() + faults.more <= lines);
                assert!(first.iter().all(|fault| (1..=lines).contains(&fault.line)));
                assert!(first.iter().all(|fault| fault.told.contains("expected ")));
            }
        }
    }
}
