//! What a program is asked for, and how what it writes is judged.

/// An exercise: sheets, what a program reads of them, and what is right.
pub trait Exercise: Sync {
    /// What a program is tried on.
    type Sheet: Clone + Send;

    /// The sheet of a dimension with a number, small ones first.
    fn sheet(&self, seed: u64, dimension: usize, number: usize) -> Self::Sheet;

    /// What the program reads.
    fn input(&self, sheet: &Self::Sheet) -> Vec<u8>;

    /// No right answer has more bytes than this, however it is written.
    fn most(&self, sheet: &Self::Sheet) -> usize;

    /// What is wrong with what the program wrote, a line each.
    fn judge(&self, sheet: &Self::Sheet, written: &[u8]) -> Result<(), Vec<String>>;

    /// How many ways there are to take something away.
    fn ways(&self) -> usize;

    /// The sheets that are left where something is taken away, by each place in
    /// the sheet where that can be done.
    fn smaller(&self, sheet: &Self::Sheet, way: usize) -> Vec<Self::Sheet>;

    /// Whether a sheet that is left can be tried: not all that is left can be
    /// built.
    fn is_fit(&self, sheet: &Self::Sheet) -> bool;

    /// The sheet for a reader, a line each: all but comments, behind `#`, is
    /// what a tool takes.
    fn shown(&self, sheet: &Self::Sheet) -> String;

    /// The tool that takes it.
    fn tool(&self) -> &'static str;
}

/// An answer as long as it may be, with blanks and zeros besides.
pub fn room(right: usize) -> usize {
    4 * right + (1 << 16)
}
