//! The text of the challenge list.

use std::iter;
use std::ops::Range;

use dikdumar::Setting;

use crate::table::Table;
use crate::words::count;

/// Numbers to a line, where they are not s vectors of n.
const NUMBERS_TO_A_LINE: usize = 8;

/// The numbers of the list, a vector to a line where there are s·n, with a star at
/// each marked index.
pub fn text(list: &[u32], setting: Option<Setting>, marked: Range<usize>) -> String {
    let [vectors, columns] = setting.map_or([0, 0], |setting| [setting.vectors as usize, setting.columns as usize]);
    if !list.is_empty() && list.len() == vectors * columns {
        return lines(list, columns, marked, |line| format!("vector {line}:"));
    }
    let needed = format!(
        "  under this setting a list has {}\n",
        count(vectors * columns, "number")
    );
    let needed = if setting.is_some() { needed } else { String::new() };
    needed
        + &lines(list, NUMBERS_TO_A_LINE, marked, |line| {
            format!("from index {}:", line * NUMBERS_TO_A_LINE)
        })
}

fn lines(list: &[u32], length: usize, marked: Range<usize>, label: impl Fn(usize) -> String) -> String {
    let mut table = Table::default();
    let cells: Vec<String> = (0..)
        .zip(list)
        .map(|(index, number)| format!("{number}{}", if marked.contains(&index) { '*' } else { ' ' }))
        .collect();
    for (line, cells) in cells.chunks(length).enumerate() {
        table.line(iter::once(label(line)).chain(cells.iter().cloned()));
    }
    table.text()
}
