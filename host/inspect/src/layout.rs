//! Where the records of a ticket stand: four matrices, or five with a bias, each
//! row by row.

use crate::terms::Terms;
use crate::words;

/// The bytes of a record.
pub const RECORD: usize = 8;

/// The kind of a remainder.
const REMAINDER: u8 = 4;

/// A part of a ticket: one of its matrices.
#[derive(Clone, Copy, Debug, PartialEq, Eq)]
pub struct Part {
    pub name: &'static str,
    /// The first byte of each of its records.
    pub kind: u8,
    pub rows: usize,
    pub columns: usize,
    /// The number of its first record.
    pub first: usize,
}

impl Part {
    fn records(&self) -> usize {
        self.rows * self.columns
    }

    /// The number that a value stands for in this part: a remainder is itself,
    /// everything else is signed. A value that is no residue is shown as it is.
    pub fn number(&self, value: u32) -> i64 {
        match words::signed(value) {
            Some(signed) if self.kind != REMAINDER => signed,
            _ => i64::from(value),
        }
    }

    /// The number of the record of this row and column.
    pub fn record(&self, row: usize, column: usize) -> usize {
        self.first + row * self.columns + column
    }
}

/// The parts of a ticket, in their order.
pub struct Layout {
    pub a: Part,
    pub b: Part,
    /// A plain ticket has none.
    pub bias: Option<Part>,
    pub quotients: Part,
    pub remainders: Part,
}

impl Layout {
    pub fn new(Terms { setting, bias_bound }: Terms) -> Layout {
        let [rows, inner, columns] = [setting.rows, setting.inner, setting.columns].map(|size| size as usize);
        let mut first = 0;
        let mut part = |name, kind, rows, columns| {
            let part = Part {
                name,
                kind,
                rows,
                columns,
                first,
            };
            first += part.records();
            part
        };
        Layout {
            a: part("A", 1, rows, inner),
            b: part("B", 2, inner, columns),
            bias: bias_bound.map(|_| part("bias", 5, rows, columns)),
            quotients: part("quotients", 3, rows, columns),
            remainders: part("remainders", REMAINDER, rows, columns),
        }
    }

    pub fn parts(&self) -> impl DoubleEndedIterator<Item = Part> {
        [self.a, self.b].into_iter().chain(self.claim_parts())
    }

    /// The parts that have a record for each claim, at its number.
    pub fn claim_parts(&self) -> impl DoubleEndedIterator<Item = Part> {
        self.bias.into_iter().chain([self.quotients, self.remainders])
    }

    /// How many records a ticket has.
    pub fn records(&self) -> usize {
        self.parts().map(|part| part.records()).sum()
    }

    /// The part, row and column of a record.
    pub fn locate(&self, record: usize) -> Option<(Part, usize, usize)> {
        let part = self
            .parts()
            .rev()
            .find(|part| part.records() > 0 && part.first <= record)?;
        let index = record - part.first;
        (index < part.records()).then_some((part, index / part.columns, index % part.columns))
    }
}

/// The value of a record.
pub fn value(record: &[u8; RECORD]) -> u32 {
    let [_, _, _, _, value @ ..] = *record;
    u32::from_le_bytes(value)
}

/// The whole records of a ticket, and the bytes after the last.
pub fn records(ticket: &[u8]) -> (&[[u8; RECORD]], &[u8]) {
    ticket.as_chunks()
}

#[cfg(test)]
mod tests {
    use super::*;
    use dikdumar::Setting;

    /// The layouts of a plain ticket and of a bias ticket.
    fn layouts(sizes: [u32; 3]) -> [Layout; 2] {
        let [rows, inner, columns] = sizes;
        let setting = Setting::from([rows, inner, columns, 1, 10, 8, 5, 0]);
        [None, Some(23)].map(|bias_bound| Layout::new(Terms { setting, bias_bound }))
    }

    #[test]
    fn each_record_is_located_where_its_part_has_it() {
        for layout in layouts([3, 4, 5]) {
            let mut record = 0;
            for part in layout.parts() {
                for row in 0..part.rows {
                    for column in 0..part.columns {
                        assert_eq!(part.record(row, column), record);
                        assert_eq!(layout.locate(record), Some((part, row, column)));
                        record += 1;
                    }
                }
            }
            assert_eq!(record, layout.records());
            assert_eq!(layout.locate(record), None);
        }
    }

    #[test]
    fn a_bias_stands_between_b_and_the_quotients() {
        let parts = layouts([3, 4, 5]).map(|layout| {
            let parts = layout.parts().map(|part| (part.name, part.kind, part.first));
            parts.collect::<Vec<_>>()
        });
        let [plain, with_bias] = parts;
        assert_eq!(
            plain,
            [("A", 1, 0), ("B", 2, 12), ("quotients", 3, 32), ("remainders", 4, 47)]
        );
        assert_eq!(
            with_bias,
            [
                ("A", 1, 0),
                ("B", 2, 12),
                ("bias", 5, 32),
                ("quotients", 3, 47),
                ("remainders", 4, 62)
            ]
        );
    }

    #[test]
    fn sizes_of_zero_leave_parts_without_records() {
        for layout in [[0, 0, 0], [0, 4, 5], [3, 0, 5], [3, 4, 0]]
            .into_iter()
            .flat_map(layouts)
        {
            assert_eq!(layout.locate(layout.records()), None);
            for record in 0..layout.records() {
                let (part, row, column) = layout.locate(record).expect("a record of the ticket");
                assert_eq!(part.record(row, column), record);
            }
        }
    }

    #[test]
    fn values_stand_for_numbers() {
        let [_, layout] = layouts([1, 1, 1]);
        let minus_two = value(&[3, 0, 0, 0, 0xFD, 0xFF, 0xFF, 0x7F]);
        assert_eq!(minus_two, 2_147_483_645);
        assert!(layout
            .parts()
            .map(|part| part.number(minus_two))
            .eq([-2, -2, -2, -2, 2_147_483_645]));
        assert_eq!(layout.a.number(1_073_741_823), 1_073_741_823);
        assert_eq!(layout.a.number(1_073_741_824), -1_073_741_823);
        assert_eq!(layout.a.number(2_147_483_647), 2_147_483_647);
        assert_eq!(layout.a.number(u32::MAX), 4_294_967_295);
    }
}
