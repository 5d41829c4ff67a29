//! Lifts a sheet, and tells whose each solid is, where it stands and its volume.
use laremban_parcels::{Sheet, Solids, compare, lifting::lift, measure::Halves};

fn main() -> Result<(), Box<dyn std::error::Error>> {
    let sheet = Sheet::read(&std::fs::read("examples/street.parcels")?)?;
    let lifted = lift(&sheet)?;
    let solids = Solids::read(lifted.map())?;
    for (solid, owner) in solids.solids.iter().zip(compare(&sheet, &solids)?) {
        let ((lo, hi), volume) = (solid.heights, Halves(solid.doubled_volume));
        println!("{} {lo}..{hi}: {volume}", sheet.parcels[owner].name);
    }
    Ok(())
}
