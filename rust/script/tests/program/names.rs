//! Lifted darts by their names.

use crate::told;
use laremban::DARTS;

/// What stands below the last line of a script that shows something, without the
/// line that tells how the run ended.
fn shown(script: &str, show: &str) -> Vec<String> {
    shown_in(DARTS, script, show)
}

/// The same with room for so many lifted darts.
fn shown_in(room: usize, script: &str, show: &str) -> Vec<String> {
    let room = room.to_string();
    let told = told(&["--lifted", &room], &format!("{script}\n{show}\n"));
    let mut lines = told.lines().map(str::to_string);
    let head = format!("{show}: ");
    let first = lines.find(|line| line.starts_with(&head));
    let mut shown: Vec<String> = first.into_iter().chain(lines).collect();
    shown.pop();
    shown
}

/// Two walls of different heights with a corner in common.
const WALLS: &str = "NEW 1\nDART x 4\nSEW 0 0 1\nSEW 0 2 3\nSEW 1 1 2\nSPAN 0 0 3\nSPAN 2 1 5";

#[test]
fn each_dart_has_its_name_and_each_link_its_case() {
    let shown = shown(&format!("{WALLS}\nLIFT"), "SHOW lifted names");
    assert_eq!(shown.len(), 23);
    assert_eq!(shown[0], "SHOW lifted names: dimension 2, 20 darts");
    assert_eq!(shown[1], "  dart  name             axis 0  axis 1  axis 2");
    assert_eq!(shown[7], "     5  (1, 0, 1, down)     4 c     6 d     . f");
    assert_eq!(shown[8], "     6  (1, 0, 1, up)       7 c     5 d    10 f");
    assert!(shown[22].ends_with(", e i = k + 1 = n, f i ≥ k + 2"));
}

#[test]
fn one_dart_is_told_in_words() {
    let wanted = "SHOW lifted names 8: (1, 1, 0, up)\n  \
        axis 0 a: leads to 2 = (0, 1, 0, up)\n    \
        case i < k: the plan dart's link along i, at the same level\n  \
        axis 1 b: leads to 4 = (1, 0, 0, up)\n    \
        case i = k ≥ 1: the same dart one level below\n  \
        axis 2 e: leads to itself\n    \
        case i = k + 1 = n: the other side of the height is not covered, so itself";
    let shown = shown(&format!("{WALLS}\nLIFT"), "SHOW lifted names 8");
    assert_eq!(shown.join("\n"), wanted);
}

/// Where some object is not 0, all are told.
#[test]
fn objects_are_told_where_there_are_any() {
    let owned = WALLS.replace("SPAN 2 1 5", "SPAN 2 1 5 101\nLIFT");
    let table = shown(&owned, "SHOW lifted names");
    assert_eq!(
        table[1],
        "  dart  name             axis 0  axis 1  axis 2  object"
    );
    assert_eq!(
        table[8],
        "     6  (1, 0, 1, up)       7 c     5 d    10 f       0"
    );
    assert_eq!(
        table[12],
        "    10  (2, 0, 1, up)      11 c    14 d     6 f     101"
    );
    let map = shown(&owned, "SHOW lifted");
    assert_eq!(map[1], "  dart  axis 0  axis 1  axis 2  place   object");
    assert_eq!(map[12], "    10      11      14       6  (0, 1)     101");
    let plan = shown(&owned, "SHOW plan");
    assert_eq!(plan[4], "     2       3       1  (0)    1..5 of 101");
    let one = |dart: usize| shown(&owned, &format!("SHOW lifted names {dart}")).swap_remove(0);
    assert_eq!(one(6), "SHOW lifted names 6: (1, 0, 1, up)");
    assert_eq!(one(10), "SHOW lifted names 10: (2, 0, 1, up) of object 101");
    // The plan's later objects are none of the lifted map's, and ADOPT takes none.
    for edit in ["CLEAR 2\nSPAN 2 1 5 9", "ADOPT", "NEW 1"] {
        let edited = format!("{owned}\n{edit}");
        assert_eq!(shown(&edited, "SHOW lifted names"), table, "{edit}");
        assert_eq!(shown(&edited, "SHOW lifted"), map, "{edit}");
    }
    let again = format!("{owned}\nADOPT\nSPAN 10 1990 2020\nLIFT");
    let head = "  dart  axis 0  axis 1  axis 2  axis 3  place";
    assert_eq!(shown(&again, "SHOW lifted")[1], head);
}

/// Whatever becomes of the plan, the lifted map is that of the last LIFT.
#[test]
fn names_are_those_of_the_plan_that_was_lifted() {
    let lifted = format!("{WALLS}\nLIFT");
    let wanted = shown(&lifted, "SHOW lifted names");
    let edits = [
        "CLEAR 0",
        "CLEAR 0\nSPAN 0 2 9\nDART\nDART",
        "UNSEW 1 1\nUNSEW 0 2",
        "UNSEW 1 1\nSEW 1 0 3",
        "NEW 3",
        "NEW 1\nDART x 2\nSEW 0 0 1\nSPAN 0 7 8",
        "ADOPT",
        "ADOPT\nSPAN 0 1 2\nCLEAR 0\nUNSEW 0 0",
        "NEW 2\nADOPT\nNEW 4\nDART",
        // A lift that is refused is none: there is no room for it.
        "SPAN 0 7 9\nLIFT",
    ];
    for edit in edits {
        let script = format!("{lifted}\n{edit}");
        assert_eq!(shown_in(20, &script, "SHOW lifted names"), wanted, "{edit}");
        // Also where they were asked for before.
        let script = format!("{lifted}\nSHOW lifted names 0\n{edit}\nSHOW plan");
        assert_eq!(shown_in(20, &script, "SHOW lifted names"), wanted, "{edit}");
    }
}

#[test]
fn a_further_lift_has_names_of_its_own() {
    let twice = format!("{WALLS}\nLIFT\nSHOW lifted names 0\nCLEAR 0\nLIFT");
    let first = &shown(&twice, "SHOW lifted names 0")[0];
    assert_eq!(first, "SHOW lifted names 0: (0, 0, 0, up)");
    let told = told(&[], &format!("{twice}\nSHOW lifted names 0\n"));
    assert!(told.contains("\nSHOW lifted names 0: (2, 0, 1, up)\n"));
    // The darts of a lift that was adopted are plan darts of the next.
    let time = format!("{WALLS}\nLIFT\nADOPT\nSPAN 10 1990 2020\nLIFT");
    let first = &shown(&time, "SHOW lifted names 0")[0];
    assert_eq!(first, "SHOW lifted names 0: (10, 0, 1990, up)");
}

/// Numbers as long as they can be, in the dimension with the most axes.
#[test]
fn a_page_is_wide_enough() {
    let far = "NEW 4\nDART x 16384\nSPAN 16383 -2147483648 -2147483647 65535\nLIFT";
    let spans = (0..1638).map(|dart| format!("SPAN {dart} -2147483648 -2147483647 65535\n"));
    let many = format!("NEW 4\nDART x 1638\n{}LIFT", spans.collect::<String>());
    for (script, rows) in [(far, 10), (&many, 16380)] {
        let shown = shown(script, "SHOW lifted names");
        assert_eq!(shown.len(), rows + 3);
        assert!(shown[2].contains(", 0, -2147483648, up)  "));
        let widest = shown.iter().map(|line| line.chars().count()).max();
        assert!(widest <= Some(100), "{widest:?}");
    }
}
