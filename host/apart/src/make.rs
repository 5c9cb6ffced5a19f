//! Tickets, made from matrices: the one whose claims are true, and any other,
//! for those who test a checker.

use crate::setting::Terms;
use crate::ticket::{self, Part, Record, RECORD};
use crate::{residue_of, BiasSetting, Setting};

/// The numbers that a plain ticket holds, each part row by row. They may be any;
/// a checker is to be shown wrong ones too.
#[derive(Clone, Debug, PartialEq, Eq)]
pub struct Parts {
    pub a: Vec<i64>,
    pub b: Vec<i64>,
    pub quotients: Vec<i64>,
    pub remainders: Vec<i64>,
}

impl Parts {
    /// The parts of the ticket whose claims are true: "the quotient is the floor
    /// of (S + o) over α, the remainder of that division beside it".
    ///
    /// The entries are of at most 32 bits each. A scale of 0, which every check
    /// refuses, counts as 1 here.
    ///
    /// # Panics
    ///
    /// If `a` is not ℓ by m or `b` is not m by n.
    pub fn true_ones(setting: &Setting, a: &[i64], b: &[i64]) -> Parts {
        Parts::with_sums(setting, a, b, &sums(setting, a, b))
    }

    /// The parts whose claims are true of these sums, to which o is yet to be
    /// added.
    fn with_sums(setting: &Setting, a: &[i64], b: &[i64], sums: &[i128]) -> Parts {
        let alpha = i128::from(setting.scale.max(1));
        let o = i128::from(setting.rounding);
        Parts {
            a: a.to_vec(),
            b: b.to_vec(),
            // The divisor is positive, so Euclid's division is the one that
            // rounds down.
            quotients: sums.iter().map(|sum| (sum + o).div_euclid(alpha) as i64).collect(),
            remainders: sums.iter().map(|sum| (sum + o).rem_euclid(alpha) as i64).collect(),
        }
    }

    /// The ticket that holds these numbers as least residues.
    ///
    /// # Panics
    ///
    /// If a part is not of its size under the setting.
    pub fn ticket(&self, setting: &Setting) -> Vec<u8> {
        self.encode(&Terms::from(setting), &[])
    }

    /// The bytes of these numbers and of a bias, which is empty in a plain
    /// ticket.
    pub(crate) fn encode(&self, terms: &Terms, bias: &[i64]) -> Vec<u8> {
        let mut bytes = Vec::new();
        for part in Part::ALL {
            let entries = self.part(part, bias);
            assert_eq!(part.count(terms), entries.len() as u128, "the size of {part:?}");
            for ((row, column), &entry) in part.places(terms).zip(entries) {
                bytes.extend_from_slice(&record(part.kind(), row, column, residue(entry)));
            }
        }
        bytes
    }

    fn part<'a>(&'a self, part: Part, bias: &'a [i64]) -> &'a [i64] {
        match part {
            Part::A => &self.a,
            Part::B => &self.b,
            Part::Bias => bias,
            Part::Quotients => &self.quotients,
            Part::Remainders => &self.remainders,
        }
    }
}

/// The numbers that a bias ticket holds: those of a plain one, and the bias row
/// by row. They may be any here too.
#[derive(Clone, Debug, PartialEq, Eq)]
pub struct BiasParts {
    pub parts: Parts,
    pub bias: Vec<i64>,
}

impl BiasParts {
    /// The parts of the bias ticket whose claims are true: to S and o "a bias is
    /// added too where there is one".
    ///
    /// The entries are of at most 32 bits each. A scale of 0 counts as 1 here.
    ///
    /// # Panics
    ///
    /// If `a` is not ℓ by m, `b` is not m by n or `bias` is not ℓ by n.
    pub fn true_ones(setting: &BiasSetting, a: &[i64], b: &[i64], bias: &[i64]) -> BiasParts {
        let sums = bias_sums(setting, a, b, bias);
        BiasParts {
            parts: Parts::with_sums(&setting.setting, a, b, &sums),
            bias: bias.to_vec(),
        }
    }

    /// The bias ticket that holds these numbers as least residues.
    ///
    /// # Panics
    ///
    /// If a part is not of its size under the setting.
    pub fn ticket(&self, setting: &BiasSetting) -> Vec<u8> {
        self.parts.encode(&Terms::from(setting), &self.bias)
    }
}

/// The one ticket for A and B whose claims are true.
///
/// # Panics
///
/// If `a` is not ℓ by m or `b` is not m by n.
pub fn true_ticket(setting: &Setting, a: &[i64], b: &[i64]) -> Vec<u8> {
    Parts::true_ones(setting, a, b).ticket(setting)
}

/// The one bias ticket for A, B and a bias whose claims are true.
///
/// # Panics
///
/// If `a` is not ℓ by m, `b` is not m by n or `bias` is not ℓ by n.
pub fn true_bias_ticket(setting: &BiasSetting, a: &[i64], b: &[i64], bias: &[i64]) -> Vec<u8> {
    BiasParts::true_ones(setting, a, b, bias).ticket(setting)
}

/// Every S, row by row: "For row i, column j let S be the exact integer sum over
/// all k below m of A(i,k)·B(k,j)."
///
/// # Panics
///
/// If `a` is not ℓ by m or `b` is not m by n.
pub fn sums(setting: &Setting, a: &[i64], b: &[i64]) -> Vec<i128> {
    let [m, n] = [setting.inner, setting.columns].map(|size| size as usize);
    assert_eq!(a.len() as u128, u128::from(setting.rows) * m as u128, "the size of A");
    assert_eq!(b.len() as u128, m as u128 * n as u128, "the size of B");
    Part::Quotients
        .places(&Terms::from(setting))
        .map(|(i, j)| {
            let row = a.iter().skip(i as usize * m).take(m);
            let column = b.iter().skip(j as usize).step_by(n);
            row.zip(column).map(|(&x, &y)| i128::from(x) * i128::from(y)).sum()
        })
        .collect()
}

/// Every S + c, row by row: "The autumn reader adds a bias to each sum before
/// dividing."
///
/// # Panics
///
/// If `a` is not ℓ by m, `b` is not m by n or `bias` is not ℓ by n.
pub fn bias_sums(setting: &BiasSetting, a: &[i64], b: &[i64], bias: &[i64]) -> Vec<i128> {
    let sums = sums(&setting.setting, a, b);
    assert_eq!(sums.len(), bias.len(), "the size of the bias");
    sums.iter().zip(bias).map(|(sum, &c)| sum + i128::from(c)).collect()
}

/// The bytes of one record. Row and column beyond a byte lose their upper bits,
/// as only settings that are refused have such.
pub fn record(kind: u8, row: u32, column: u32, value: u32) -> [u8; RECORD] {
    Record {
        kind,
        zero: 0,
        row: row as u8,
        column: column as u8,
        value,
    }
    .encode()
}

/// The least residue of an entry.
pub fn residue(entry: i64) -> u32 {
    residue_of(i128::from(entry))
}

/// The length of a ticket in bytes, exact for any setting.
pub fn ticket_length(setting: &Setting) -> u128 {
    ticket::length(&Terms::from(setting))
}

/// The length of a bias ticket in bytes, exact for any setting.
pub fn bias_ticket_length(setting: &BiasSetting) -> u128 {
    ticket::length(&Terms::from(setting))
}
