//! The text of a ticket: its matrices and claims, or its bare records.

use std::iter;

use dikdumar::Setting;

use crate::layout::{self, Layout, Part, RECORD};
use crate::table::Table;
use crate::words::{self, count, hex};

/// A ticket that has as many records as its setting asks for.
pub struct Ticket<'a> {
    pub setting: Setting,
    pub layout: &'a Layout,
    pub records: &'a [[u8; RECORD]],
    /// The records whose numbers get a star.
    pub marked: &'a [usize],
}

impl Ticket<'_> {
    /// The matrices, then the claims.
    pub fn text(&self) -> String {
        let mut text = String::new();
        for part in self.layout.parts() {
            let Part {
                name,
                rows,
                columns,
                first,
                ..
            } = part;
            text += &format!("\n{name}: {rows} by {columns}, from record {first}\n");
            text += &self.matrix(part);
        }
        text += &self.claims_heading();
        text += &self.claims();
        if !self.marked.is_empty() {
            text += "\n*: a record that the full check's answer names\n";
        }
        let is_residue = |record| words::signed(layout::value(record)).is_some();
        if !self.records.iter().all(is_residue) {
            text += "\nA number of 2147483647 or more is no residue; it is shown as it is stored.\n";
        }
        text
    }

    fn matrix(&self, part: Part) -> String {
        let headings = (0..part.columns).map(|column| format!("{column} "));
        let mut table = Table::new(iter::once(String::new()).chain(headings));
        for row in 0..part.rows {
            let cells = (0..part.columns).map(|column| self.cell(part, row, column));
            table.line(iter::once(row.to_string()).chain(cells));
        }
        table.text()
    }

    fn claims_heading(&self) -> String {
        let sum = "the exact sum of A(row, k)·B(k, column) over all k";
        match self.added() {
            None => format!("\nclaims: α·q + r beside S, {sum}\n"),
            Some(due) => {
                let bias = if self.layout.bias.is_some() { ", c the bias" } else { "" };
                let rounding = if self.rounds() { ", o the rounding number" } else { "" };
                format!("\nclaims: α·q + r beside {due}; S is {sum}{bias}{rounding}\n")
            }
        }
    }

    fn claims(&self) -> String {
        let Layout {
            bias,
            quotients,
            remainders,
            ..
        } = *self.layout;
        let headings = ["row", "column", "quotient ", "remainder ", "α·q + r", "S"];
        let bias_heading = bias.map(|_| "c ");
        let mut table = Table::new(headings.into_iter().chain(bias_heading).chain(self.added()));
        let shown = |number: Option<i128>| number.map_or("-".to_string(), |number| number.to_string());
        for row in 0..quotients.rows {
            for column in 0..quotients.columns {
                let claimed = self.claimed(row, column);
                let due = self.due(row, column);
                let mut line = vec![
                    row.to_string(),
                    column.to_string(),
                    self.cell(quotients, row, column),
                    self.cell(remainders, row, column),
                    shown(claimed),
                    shown(self.exact_sum(row, column)),
                ];
                line.extend(bias.map(|bias| self.cell(bias, row, column)));
                line.extend(self.added().map(|_| shown(due)));
                if claimed.is_some() && due.is_some() && claimed != due {
                    line.push("differs".to_string());
                }
                table.line(line);
            }
        }
        table.text()
    }

    /// What stands beside S, where anything is added to it.
    fn added(&self) -> Option<&'static str> {
        match (self.layout.bias.is_some(), self.rounds()) {
            (false, false) => None,
            (false, true) => Some("S + o"),
            (true, false) => Some("S + c"),
            (true, true) => Some("S + c + o"),
        }
    }

    /// The reader adds to a sum before it divides.
    fn rounds(&self) -> bool {
        self.setting.rounding > 0
    }

    /// The number at a row and column, with a star or with room for one.
    fn cell(&self, part: Part, row: usize, column: usize) -> String {
        let is_marked = self.marked.contains(&part.record(row, column));
        let star = if is_marked { '*' } else { ' ' };
        format!("{}{star}", part.number(self.value(part, row, column)))
    }

    /// α·q + r, where both are residues.
    fn claimed(&self, row: usize, column: usize) -> Option<i128> {
        let quotient = self.entry(self.layout.quotients, row, column)?;
        let remainder = self.value(self.layout.remainders, row, column);
        words::signed(remainder)?;
        Some(i128::from(self.setting.scale) * quotient + i128::from(remainder))
    }

    /// What α·q + r is compared with: S, with c added where there is a bias, and o.
    fn due(&self, row: usize, column: usize) -> Option<i128> {
        let bias = self.layout.bias.map_or(Some(0), |bias| self.entry(bias, row, column));
        Some(self.exact_sum(row, column)? + bias? + i128::from(self.setting.rounding))
    }

    /// S, where all of its factors are residues.
    fn exact_sum(&self, row: usize, column: usize) -> Option<i128> {
        let Layout { a, b, .. } = *self.layout;
        let product = |k| Some(self.entry(a, row, k)? * self.entry(b, k, column)?);
        (0..a.columns).map(product).sum()
    }

    /// The signed entry at a row and column, where the value is a residue.
    fn entry(&self, part: Part, row: usize, column: usize) -> Option<i128> {
        words::signed(self.value(part, row, column)).map(i128::from)
    }

    fn value(&self, part: Part, row: usize, column: usize) -> u32 {
        layout::value(&self.records[part.record(row, column)])
    }
}

/// Every record as it is stored, for a ticket of another length than the tables
/// need.
pub fn bare(ticket: &[u8]) -> String {
    let (records, rest) = layout::records(ticket);
    let mut text = String::new();
    for (number, record) in records.iter().enumerate() {
        let [kind, _, row, column, ..] = record;
        let (bytes, value) = (hex(record), words::value(layout::value(record)));
        text += &format!("  {number:>4}  {bytes}  kind {kind}, row {row}, column {column}, {value}\n");
    }
    if !rest.is_empty() {
        text += &format!("  and {}  {}\n", count(rest.len(), "byte"), hex(rest));
    }
    text
}

/// How many records are of each kind.
pub fn kinds(ticket: &[u8], layout: &Layout) -> String {
    let (records, _) = layout::records(ticket);
    let of_kind = |part: Part| records.iter().filter(|record| record[0] == part.kind).count();
    let others = records.len() - layout.parts().map(of_kind).sum::<usize>();
    let counts: Vec<String> = layout
        .parts()
        .map(|part| format!("{} {}", part.name, of_kind(part)))
        .collect();
    format!("  records by kind: {}, other {others}\n", counts.join(", "))
}
