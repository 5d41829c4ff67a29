//! The text of cases: there and back, and what is wrong with a line.

use reference::cases::{Case, parse, parse_all, write};
use reference::draw::draw;

#[test]
fn every_case_survives_its_text() {
    for seed in 0..4 {
        let cases = draw(seed);
        let mut text = String::from("# drawn\n\n");
        for case in &cases {
            let line = write(case);
            assert!(!line.contains('\n'));
            assert_eq!(parse(&line).as_ref(), Ok(case), "{line}");
            text += &line;
            text.push('\n');
        }
        assert_eq!(parse_all(&text), Ok(cases));
    }
}

#[test]
fn every_answer_is_found_again() {
    for case in draw(11) {
        assert_eq!(case.again(), case);
    }
}

#[test]
fn a_line_may_be_written_by_hand() {
    let line = "looseness dart=0 links=0,1,0,0,0,0 dimension=1 number=0 ones=1 bits=1";
    assert_eq!(
        parse(line),
        Ok(Case::looseness(vec![0, 1, 0, 0, 0, 0], 1, 0))
    );
}

#[test]
fn wrong_lines_say_why() {
    let wrong = [
        ("", "no kind ''"),
        ("walk a=1", "no kind 'walk'"),
        ("prints bytes", "has no '='"),
        ("prints bytes= bytes=", "stands twice"),
        ("prints bytes=", "lacks the key 'text'"),
        ("prints bytes=1 text=", "hexadecimal"),
        ("prints bytes=é text=", "hexadecimal"),
        ("prints bytes= text= more=1", "no key 'more'"),
        ("tables lengths=1,2", "not 8"),
        ("row plan.links=1,,2", "'' is not a number"),
        ("row plan.links=65536", "'65536' is not a number"),
    ];
    for (line, part) in wrong {
        let said = parse(line).expect_err(line);
        assert!(said.contains(part), "{line}: {said}");
    }
    let said = parse_all("# fine\n\nwalk\n").expect_err("walk");
    assert!(said.starts_with("line 3:"), "{said}");
}

#[test]
fn wrong_maps_say_why() {
    let map = "run bytes= plan_capacity=0 lifted_capacity=0 reply_length=0 number=0 taken=0 \
        accepted=0 refused=0 replies= plan.dim=1 plan.count=1 plan.links=0 plan.places=0 \
        plan.rows=0 lifted.dim=0 lifted.count=0 lifted.links= lifted.places= lifted.rows= \
        lifted.objects=";
    assert!(
        parse(map)
            .expect_err("short")
            .contains("'plan' needs 1 darts")
    );
    let rows = map.replace("plan.rows=0", "plan.rows=2,1,2");
    assert!(
        parse(&rows)
            .expect_err("short")
            .contains("ends inside a row")
    );
    let object = map.replace("plan.rows=0", "plan.rows=1,0,1,65536");
    assert!(
        parse(&object)
            .expect_err("high")
            .contains("no object is 65536")
    );
}
