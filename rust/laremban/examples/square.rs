//! A square parcel is built, lifted to a solid, and its cells are counted.
use laremban::{Commands, LiftedTables, PlanTables, Refused, Side, replies, run};

fn main() -> Result<(), Refused> {
    // Two darts for each side, one at either end.
    let mut list = Commands::new();
    list.new_plan(2).darts(8);
    for dart in [0, 2, 4, 6] {
        list.sew(0, dart, dart + 1);
    }
    for dart in [1, 3, 5, 7] {
        list.sew(1, dart, (dart + 1) % 8);
    }
    for (dart, x, y) in [(2, 8, 0), (4, 8, 6), (6, 0, 6)] {
        list.place(dart, 0, x).place(dart, 1, y);
    }
    list.span(0, 0, 3).lift();
    for axis in 0..=3 {
        list.count(Side::Lifted, axis);
    }
    let (mut plan, mut lifted) = (PlanTables::new(8), LiftedTables::new(48));
    let (plan, lifted) = (&mut plan.lend(), &mut lifted.lend());
    let mut memory = list.reply_memory();
    let ended = run(list.bytes(), plan, lifted, &mut memory);
    let values = replies(&memory, ended).collect::<Result<Vec<u16>, _>>()?;
    let told = &values[values.len() - 5..];
    println!("darts, corners, edges, faces, solids: {told:?}");
    Ok(())
}
