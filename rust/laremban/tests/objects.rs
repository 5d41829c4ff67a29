//! Objects of spans, and those that lifted darts carry.

use laremban::*;

/// One edge with two spans that touch, of objects 7 and 9.
fn storeys() -> Commands {
    let mut list = Commands::new();
    list.new_plan(1).darts(2).sew(0, 0, 1);
    list.span_of(0, 0, 2, 7).span_of(0, 2, 5, 9);
    list
}

/// Runs a list in these tables. What is replied.
fn run_in(
    list: &Commands,
    plan: &mut PlanTables,
    lifted: &mut LiftedTables,
) -> Vec<Result<u16, Refused>> {
    let mut memory = list.reply_memory();
    let (p, l) = (&mut plan.lend(), &mut lifted.lend());
    let ended = run(list.bytes(), p, l, &mut memory);
    replies(&memory, ended).collect()
}

/// What the lifted darts of the edge carry: at 2 down is the lower storey's.
const CARRIED: [u16; 16] = [7, 7, 9, 9, 7, 7, 9, 9, 7, 7, 9, 9, 7, 7, 9, 9];

#[test]
fn a_lifted_dart_carries_the_object_on_its_side() {
    let (mut plan, mut lifted) = (PlanTables::new(2), LiftedTables::new(20));
    lifted.objects.fill(3);
    let replied = run_in(storeys().lift(), &mut plan, &mut lifted);
    assert_eq!(replied.last(), Some(&Ok(16)));
    assert_eq!(lifted.objects[..16], CARRIED);
    assert_eq!(lifted.objects[16..], [0; 4]);
    let map = lifted.map(2, 16);
    let alike = |dart: usize, axis| map.object(map.link(dart, axis)) == map.object(dart);
    assert!((0..16).all(|dart| alike(dart, 0) && alike(dart, 1)));
    assert!(!alike(5, 2));
}

#[test]
fn the_table_of_objects_counts_for_capacity() {
    let (mut plan, mut lifted) = (PlanTables::new(2), LiftedTables::new(16));
    lifted.objects = vec![3; 15];
    let replied = run_in(&storeys(), &mut plan, &mut lifted);
    assert!(replied.iter().all(Result::is_ok));
    // A run blanks it, and a lift that is refused leaves it.
    assert_eq!(lifted.objects, [0; 15]);
    lifted.objects.fill(3);
    let refused = lift(&mut plan.plan(1, 2), &mut lifted.lend());
    assert_eq!(refused, Err(Refusal::TooLarge.into()));
    assert_eq!(lifted.objects, [3; 15]);
    lifted.objects.push(3);
    assert_eq!(lift(&mut plan.plan(1, 2), &mut lifted.lend()), Ok(16));
    assert_eq!(lifted.objects, CARRIED);
}

#[test]
fn adopt_takes_no_objects_and_leaves_the_table() {
    let (mut plan, mut lifted) = (PlanTables::new(16), LiftedTables::new(48));
    let mut list = storeys();
    list.lift().adopt();
    assert!(
        run_in(&list, &mut plan, &mut lifted)
            .iter()
            .all(Result::is_ok)
    );
    assert_eq!(lifted.objects[..16], CARRIED);
    assert_eq!(plan.spans, [0; 16 * SPAN_NUMBERS]);
    list.span_of(0, 1990, 2020, 65_535).lift();
    let replied = run_in(&list, &mut plan, &mut lifted);
    assert_eq!(replied.last(), Some(&Ok(48)));
    assert_eq!(lifted.objects, [65_535; 48]);
}

#[test]
fn rows_are_equal_only_with_equal_objects() {
    let mut list = Commands::new();
    list.new_plan(1)
        .darts(2)
        .span_of(0, 0, 3, 1)
        .span_of(1, 0, 3, 2);
    list.sew(0, 0, 1).clear(1).span_of(1, 0, 3, 1).sew(0, 0, 1);
    let (mut plan, mut lifted) = (PlanTables::new(2), LiftedTables::new(0));
    let replied = run_in(&list, &mut plan, &mut lifted);
    assert_eq!(replied[5], Err(Refusal::PairDisagrees.into()));
    assert_eq!(replied.last(), Some(&Ok(2)));
    // The second row's only object.
    plan.spans[SPAN_NUMBERS + 3] = 2;
    let refused = check(&plan.plan(1, 2)).unwrap_err();
    assert_eq!(refused, Refused::new(Refusal::RowsDiffer, Some(0)));
}

#[test]
fn an_object_has_sixteen_bits() {
    let mut edge = PlanTables::new(1);
    for (count, object, wanted) in [
        (1, 65_535, Ok(())),
        (1, 65_536, Err(Refused::new(Refusal::BadRow, Some(0)))),
        (1, -1, Err(Refused::new(Refusal::BadRow, Some(0)))),
        // What is not in use is not looked at.
        (0, 65_536, Ok(())),
    ] {
        edge.spans[..4].copy_from_slice(&[count, 0, 3, object]);
        assert_eq!(check(&edge.plan(1, 1)), wanted, "{count} {object}");
    }
}
