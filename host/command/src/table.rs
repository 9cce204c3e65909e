//! Tables for people: columns as wide as their widest cell, whose cells keep right.
use std::io::{self, Write};

/// Writes a table. The rows are gone through twice, for the widths and for the lines, so that a long one takes no room.
pub fn write<const N: usize>(
    out: &mut dyn Write,
    heads: [&str; N],
    rows: impl Iterator<Item = [String; N]> + Clone,
) -> io::Result<()> {
    let mut widths = heads.map(str::len);
    for row in rows.clone() {
        for (width, cell) in widths.iter_mut().zip(&row) {
            *width = (*width).max(cell.len());
        }
    }
    for row in std::iter::once(heads.map(String::from)).chain(rows) {
        let cells: Vec<String> = row.iter().zip(widths).map(|(cell, width)| format!("{cell:>width$}")).collect();
        writeln!(out, "{}", cells.join("  "))?;
    }
    Ok(())
}
