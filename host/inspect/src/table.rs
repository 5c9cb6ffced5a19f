//! Tables with every column aligned to the right.

/// Lines of cells. Each column is as wide as its widest cell, two spaces apart
/// from the one before.
#[derive(Default)]
pub struct Table {
    lines: Vec<Vec<String>>,
}

impl Table {
    /// A table that begins with a line of headings.
    pub fn new<T: ToString>(headings: impl IntoIterator<Item = T>) -> Table {
        let mut table = Table::default();
        table.line(headings);
        table
    }

    pub fn line<T: ToString>(&mut self, cells: impl IntoIterator<Item = T>) {
        self.lines
            .push(cells.into_iter().map(|cell| cell.to_string()).collect());
    }

    /// The lines, each ended by a line feed, with no space at its end.
    pub fn text(&self) -> String {
        let mut widths = Vec::new();
        for line in &self.lines {
            for (column, cell) in line.iter().enumerate() {
                if column == widths.len() {
                    widths.push(0);
                }
                widths[column] = widths[column].max(cell.chars().count());
            }
        }
        let mut text = String::new();
        for line in &self.lines {
            let cells = line
                .iter()
                .zip(&widths)
                .map(|(cell, &width)| format!("  {cell:>width$}"));
            text += cells.collect::<String>().trim_end();
            text.push('\n');
        }
        text
    }
}

#[cfg(test)]
mod tests {
    use super::*;

    #[test]
    fn columns_are_aligned_to_the_right() {
        let mut table = Table::new(["", "0", "1"]);
        table.line(["0", "3", "-2"]);
        table.line(["10", "-1073741823", "4"]);
        assert_eq!(
            table.text(),
            "                0   1\n   0            3  -2\n  10  -1073741823   4\n"
        );
    }

    #[test]
    fn letters_beyond_ascii_count_as_one() {
        let mut table = Table::new(["α·q + r", "S"]);
        table.line([-17, 5]);
        assert_eq!(table.text(), "  α·q + r  S\n      -17  5\n");
    }

    #[test]
    fn lines_of_different_lengths_and_none_at_all() {
        let mut table = Table::new(["a"]);
        table.line(["1", "22", "differs"]);
        table.line::<&str>([]);
        assert_eq!(table.text(), "  a\n  1  22  differs\n\n");
        assert_eq!(Table::default().text(), "");
    }
}
