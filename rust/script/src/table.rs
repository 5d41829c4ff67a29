//! Columns under one another.

/// Rows below their titles, each on a line of its own; nothing where there are
/// none. Columns of numbers end below each other, the others begin below each
/// other.
pub(crate) fn table(
    titles: Vec<String>,
    rows: impl Iterator<Item = Vec<String>>,
    is_number: impl Fn(usize) -> bool,
) -> String {
    let rows: Vec<Vec<String>> = [titles].into_iter().chain(rows).collect();
    if rows.len() == 1 {
        return String::new();
    }
    let width = |column: usize| rows.iter().map(|row| row[column].len()).max();
    let widths: Vec<usize> = (0..rows[0].len()).filter_map(width).collect();
    let mut told = String::new();
    for row in &rows {
        let cells = row.iter().zip(&widths).enumerate();
        let line: String = cells
            .map(|(column, (cell, &width))| match is_number(column) {
                true => format!("  {cell:>width$}"),
                false => format!("  {cell:<width$}"),
            })
            .collect();
        told.push('\n');
        told.push_str(line.trim_end());
    }
    told
}
