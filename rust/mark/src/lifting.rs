//! The exercise of the course: the program reads a plan, and writes its lift.

use crate::apart;
use crate::differ::differences;
use crate::exercise::{Exercise, room};
use crate::sheet::Sheet;
use crate::sheets::sheet;
use crate::written::Written;
use laremban::text;

/// The exercise.
pub struct Lifting;

impl Exercise for Lifting {
    type Sheet = Sheet;

    fn sheet(&self, seed: u64, dimension: usize, number: usize) -> Sheet {
        sheet(seed, dimension, number)
    }

    fn input(&self, sheet: &Sheet) -> Vec<u8> {
        sheet.text().into_bytes()
    }

    fn most(&self, sheet: &Sheet) -> usize {
        let right = sheet.lifted().map(|lifted| text::write(lifted.map()));
        room(right.map_or(0, |text| text.len()))
    }

    fn judge(&self, sheet: &Sheet, written: &[u8]) -> Result<(), Vec<String>> {
        let Some(lifted) = sheet.lifted() else {
            return Err(vec!["the proved lift refuses this sheet".to_string()]);
        };
        let written = Written::read(written, sheet.dimension + 1);
        let written = written.map_err(|fault| vec![fault.to_string()])?;
        differences(&written, &lifted.map(), &sheet.names()).map_or(Ok(()), Err)
    }

    fn ways(&self) -> usize {
        apart::WAYS
    }

    fn smaller(&self, sheet: &Sheet, way: usize) -> Vec<Sheet> {
        apart::smaller(sheet, way)
    }

    fn is_fit(&self, sheet: &Sheet) -> bool {
        sheet.is_buildable()
    }

    fn shown(&self, sheet: &Sheet) -> String {
        sheet.script()
    }

    fn tool(&self) -> &'static str {
        "tools/script"
    }
}
