//! "The ticket" and its reading. The bytes are first taken apart into records,
//! all of them; the records then become integers, or a refusal; the integers
//! become matrices.

use crate::answer::Refusal;
use crate::matrix::Matrix;
use crate::setting::{half_of_quotients, Terms};
use crate::{least_residue, to_signed, P};

/// The bytes of a record.
pub(crate) const RECORD: usize = 8;

/// The parts of a ticket, in their order. In a plain one the bias has no
/// records.
#[derive(Clone, Copy, Debug, PartialEq, Eq)]
pub(crate) enum Part {
    A,
    B,
    Bias,
    Quotients,
    Remainders,
}

impl Part {
    pub(crate) const ALL: [Part; 5] = [Part::A, Part::B, Part::Bias, Part::Quotients, Part::Remainders];

    /// "First A (kind 1, ℓ by m), then B (2, m by n), then quotients (3, ℓ by
    /// n), then remainders (4, ℓ by n)"; "A bias ticket has ℓ by n records of
    /// kind 5 between B and the quotients".
    pub(crate) fn kind(self) -> u8 {
        match self {
            Part::A => 1,
            Part::B => 2,
            Part::Bias => 5,
            Part::Quotients => 3,
            Part::Remainders => 4,
        }
    }

    /// Rows and columns of the part.
    pub(crate) fn shape(self, terms: &Terms) -> (u32, u32) {
        let setting = &terms.setting;
        match self {
            Part::A => (setting.rows, setting.inner),
            Part::B => (setting.inner, setting.columns),
            Part::Bias => terms.shape_of_bias(),
            Part::Quotients | Part::Remainders => (setting.rows, setting.columns),
        }
    }

    /// Every place of the part, "row by row".
    pub(crate) fn places(self, terms: &Terms) -> impl Iterator<Item = (u32, u32)> {
        let (rows, columns) = self.shape(terms);
        (0..rows).flat_map(move |row| (0..columns).map(move |column| (row, column)))
    }

    /// How many records the part has. Two numbers of 32 bits make a product of
    /// 64, so sums of a few of these are exact.
    pub(crate) fn count(self, terms: &Terms) -> u128 {
        let (rows, columns) = self.shape(terms);
        u128::from(rows) * u128::from(columns)
    }
}

/// "The length is 8(ℓm + mn + 2ℓn)", exact for any setting. With "ℓ by n records
/// of kind 5" it is 8(ℓm + mn + 3ℓn).
pub(crate) fn length(terms: &Terms) -> u128 {
    let records: u128 = Part::ALL.iter().map(|part| part.count(terms)).sum();
    RECORD as u128 * records
}

/// "Records of 8 bytes, no header: kind (1 byte), a zero byte, row, column (1
/// byte each, from 0), value (4 bytes)", with "all stored numbers
/// little-endian".
#[derive(Clone, Copy, Debug, PartialEq, Eq)]
pub(crate) struct Record {
    pub(crate) kind: u8,
    pub(crate) zero: u8,
    pub(crate) row: u8,
    pub(crate) column: u8,
    pub(crate) value: u32,
}

impl Record {
    fn decode(&[kind, zero, row, column, v0, v1, v2, v3]: &[u8; RECORD]) -> Record {
        Record {
            kind,
            zero,
            row,
            column,
            value: u32::from_le_bytes([v0, v1, v2, v3]),
        }
    }

    pub(crate) fn encode(&self) -> [u8; RECORD] {
        let [v0, v1, v2, v3] = self.value.to_le_bytes();
        [self.kind, self.zero, self.row, self.column, v0, v1, v2, v3]
    }

    /// The integer that the record holds at this place of the ticket, or the
    /// number of the test that it does not pass: "each by 5, 6 and its own
    /// range".
    fn integer(&self, terms: &Terms, part: Part, (row, column): (u32, u32)) -> Result<i128, u32> {
        let found = (self.kind, self.zero, u32::from(self.row), u32::from(self.column));
        if found != (part.kind(), 0, row, column) {
            Err(5)
        } else if i128::from(self.value) >= P {
            Err(6)
        } else {
            in_range(terms, part, self.value)
        }
    }
}

/// The integer of a least residue in this part, or the number of the test of the
/// part's range.
fn in_range(terms: &Terms, part: Part, value: u32) -> Result<i128, u32> {
    let setting = &terms.setting;
    let residue = i128::from(value);
    let entry = i128::from(to_signed(value));
    match part {
        // "An entry of A or B stands for a number from -T to T."
        Part::A | Part::B => {
            let t = i128::from(setting.bound);
            within(entry, -t, t).ok_or(7)
        }
        // "a bias entry beyond W as 18, with its record, where 7 would stand"
        Part::Bias => {
            let w = terms.greatest_bias();
            within(entry, -w, w).ok_or(18)
        }
        // "the shifted quotient q♯ = (q' + 2^(v-1)) mod p is below 2^v, and q =
        // q♯ - 2^(v-1)"
        Part::Quotients => {
            let half = half_of_quotients(setting.width);
            let shifted = least_residue(residue + half);
            within(shifted, 0, 2 * half - 1).map(|shifted| shifted - half).ok_or(8)
        }
        // "A remainder r is below α."
        Part::Remainders => within(residue, 0, i128::from(setting.scale) - 1).ok_or(9),
    }
}

fn within(x: i128, least: i128, greatest: i128) -> Option<i128> {
    (least..=greatest).contains(&x).then_some(x)
}

/// What a ticket says.
pub(crate) struct Ticket {
    pub(crate) a: Matrix,
    pub(crate) b: Matrix,
    /// What is added to each sum.
    pub(crate) bias: Matrix,
    /// αq + r - o in every place.
    pub(crate) claims: Matrix,
}

/// Reads a ticket by the tests 4 to 9 and 18, under terms that have passed 1 to
/// 3, 17 and 19.
pub(crate) fn read(terms: &Terms, bytes: &[u8]) -> Result<Ticket, Refusal> {
    if bytes.len() as u128 != length(terms) {
        return Err(Refusal { number: 4, place: 0 });
    }
    let (chunks, _) = bytes.as_chunks();
    let records: Vec<Record> = chunks.iter().map(Record::decode).collect();
    let integers = integers(terms, &records)?;

    let mut rest = integers.into_iter();
    let [a, b, bias, quotients, remainders] = Part::ALL.map(|part| {
        let (rows, columns) = part.shape(terms);
        let columns = columns as usize;
        Matrix::new(columns, rest.by_ref().take(rows as usize * columns).collect())
    });
    let alpha = i128::from(terms.setting.scale);
    let o = i128::from(terms.setting.rounding);
    let claims = quotients
        .entries()
        .zip(remainders.entries())
        .map(|(q, r)| alpha * q + r - o)
        .collect();
    Ok(Ticket {
        a,
        b,
        bias: added(terms, bias.entries().collect()),
        claims: Matrix::new(terms.setting.columns as usize, claims),
    })
}

/// The integers of all records: "Records are counted from 0 over the whole
/// ticket." The first one that is refused ends the collecting.
fn integers(terms: &Terms, records: &[Record]) -> Result<Vec<i128>, Refusal> {
    let expected = Part::ALL
        .into_iter()
        .flat_map(|part| part.places(terms).map(move |place| (part, place)));
    records
        .iter()
        .zip(expected)
        .enumerate()
        .map(|(index, (record, (part, place)))| {
            record
                .integer(terms, part, place)
                .map_err(|number| Refusal { number, place: index })
        })
        .collect()
}

/// What is added to each sum, ℓ by n: the entries of the bias or, where there
/// are none, 0.
pub(crate) fn added(terms: &Terms, mut bias: Vec<i128>) -> Matrix {
    let [rows, columns] = [terms.setting.rows, terms.setting.columns].map(|size| size as usize);
    bias.resize(rows * columns, 0);
    Matrix::new(columns, bias)
}
