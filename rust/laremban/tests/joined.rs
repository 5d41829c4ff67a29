//! Spans that overlap: of one object they become one, of two they are refused.

use laremban::*;

/// A span by its ends and its object.
type Owned = (i32, i32, u16);
type Row = &'static [Owned];

fn spans(row: Row) -> Vec<Span> {
    let of = |&(lo, hi, object): &Owned| Span::new(lo, hi).of(object);
    row.iter().map(of).collect()
}

/// What is replied to spans of an edge, one after the other, and the tables that
/// they leave.
fn run_spans(row: &[Owned]) -> (Vec<Result<u16, Refused>>, PlanTables) {
    let mut list = Commands::new();
    list.new_plan(1).darts(2).sew(0, 0, 1);
    for &(lo, hi, object) in row {
        list.span_of(0, lo, hi, object);
    }
    let (mut plan, mut lifted) = (PlanTables::new(2), LiftedTables::new(0));
    let mut memory = list.reply_memory();
    let (p, l) = (&mut plan.lend(), &mut lifted.lend());
    let ended = run(list.bytes(), p, l, &mut memory);
    let replied = replies(&memory, ended).skip(4).collect();
    (replied, plan)
}

const THREE: Row = &[(0, 2, 7), (4, 6, 7), (8, 10, 7)];
const CHAIN: Row = &[(0, 3, 0), (3, 5, 0), (8, 9, 0)];

/// Spans that are all accepted, and the row that they leave.
#[test]
fn those_of_one_object_become_one() {
    let cases: [(Row, Row, Row); 9] = [
        (THREE, &[(1, 9, 7)], &[(0, 10, 7)]),
        (THREE, &[(5, 20, 7)], &[(0, 2, 7), (4, 20, 7)]),
        (THREE, &[(-5, 5, 7)], &[(-5, 6, 7), (8, 10, 7)]),
        // What only touches stays by itself, and so do those that the joined one touches.
        (
            THREE,
            &[(2, 4, 7)],
            &[(0, 2, 7), (2, 4, 7), (4, 6, 7), (8, 10, 7)],
        ),
        (CHAIN, &[(4, 8, 0)], &[(0, 3, 0), (3, 8, 0), (8, 9, 0)]),
        // E7.
        (&[(0, 3, 0), (3, 5, 0)], &[(2, 5, 0)], &[(0, 5, 0)]),
        // Within one, and over all of one.
        (THREE, &[(8, 9, 7)], THREE),
        (&[(1, 2, 9)], &[(0, 3, 9)], &[(0, 3, 9)]),
        // The outermost heights.
        (
            &[(i32::MIN, 0, 1)],
            &[(-1, i32::MAX, 1)],
            &[(i32::MIN, i32::MAX, 1)],
        ),
    ];
    for (before, new, after) in cases {
        let list = [before, new].concat();
        let (replied, mut plan) = run_spans(&list);
        assert!(replied.iter().all(|reply| *reply == Ok(2)), "{list:?}");
        let map = plan.map(1, 2);
        assert_eq!([map.row(0), map.row(1)], [spans(after), spans(after)]);
        // Numbers behind a row that became shorter are 0.
        let used = 1 + 3 * after.len();
        assert!(plan.spans[used..SPAN_NUMBERS].iter().all(|&n| n == 0));
        assert_eq!(check(&plan.plan(1, 2)), Ok(()));
    }
}

/// A row of eight.
const EIGHT: Row = &[
    (0, 1, 0),
    (2, 3, 0),
    (4, 5, 0),
    (6, 7, 0),
    (8, 9, 0),
    (10, 11, 0),
    (12, 13, 0),
    (14, 15, 0),
];

/// Spans of which the last is refused, and nothing is joined.
#[test]
fn another_object_is_refused_before_a_full_row() {
    let (overlaps, full) = (Refusal::SpanOverlaps, Refusal::RowFull);
    let cases: [(Row, Owned, Refusal); 6] = [
        (THREE, (1, 9, 8), overlaps),
        (&[(0, 2, 7), (2, 4, 9)], (1, 3, 7), overlaps),
        (&[(0, 2, 7), (2, 4, 0)], (1, 3, 0), overlaps),
        (EIGHT, (0, 2, 1), overlaps),
        (EIGHT, (15, 16, 0), full),
        (EIGHT, (1, 2, 1), full),
    ];
    for (before, new, refusal) in cases {
        let list = [before, &[new]].concat();
        let (replied, plan) = run_spans(&list);
        assert_eq!(replied.last(), Some(&Err(refusal.into())), "{list:?}");
        assert_eq!(plan.map(1, 2).row(1), spans(before));
    }
    // What is joined takes no room.
    let (replied, plan) = run_spans(&[EIGHT, &[(0, 2, 0), (2, 5, 0)]].concat());
    assert!(replied.iter().all(|reply| *reply == Ok(2)));
    assert_eq!(plan.map(1, 2).row(0).len(), 7);
}

/// Overlaps in tables are refused by 10, of one object or of two; those that
/// touch are not.
#[test]
fn the_check_joins_nothing() {
    let (_, mut plan) = run_spans(&[(0, 3, 7), (3, 5, 7)]);
    assert_eq!(check(&plan.plan(1, 2)), Ok(()));
    for object in [7, 8] {
        for row in [0, SPAN_NUMBERS] {
            plan.spans[row + 4..][..3].copy_from_slice(&[2, 5, object]);
        }
        let refused = check(&plan.plan(1, 2)).map_err(|refused| refused.refusal);
        assert_eq!(refused, Err(Refusal::BadRow));
    }
}
