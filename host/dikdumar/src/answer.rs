//! The answer of a check or of a writer.

/// The answer of a check or of a writer.
///
/// | number | meaning | place | row | products | given by |
/// |---|---|---|---|---|---|
/// | 0 | accepted | 0 | 0 | s(mn + ℓn + ℓm) | challenge check |
/// | 0 | accepted | 0 | 0 | ℓmn | full check, bias full check |
/// | 0 | written | 8(ℓm + mn + 2ℓn) | 0 | ℓmn | writer |
/// | 0 | accepted | 0 | 0 | s(mn + 2ℓn + ℓm) | bias challenge check |
/// | 0 | written | 8(ℓm + mn + 3ℓn) | 0 | ℓmn | bias writer |
/// | 0 | under way | 0 | 0 | 0 | run begin |
/// | 0 | under way | next t | next row | those so far | run step, run addition |
/// | 0 | complete | 0 | 0 | s(mn + ℓn + ℓm) | run step |
/// | 1 | ℓ, m, n or s outside its limits | 0 | 0 | 0 | challenge check, full check, writer, bias challenge check, bias full check, bias writer, run begin |
/// | 1 | ℓ, m, n or s outside its limits | 0 | 0 | 0 | run step, run addition |
/// | 2 | α, T or v outside its limits | 0 | 0 | 0 | challenge check, full check, writer, bias challenge check, bias full check, bias writer, run begin |
/// | 2 | α, T or v outside its limits | 0 | 0 | 0 | run step, run addition |
/// | 3 | the setting does not fit | 0 | 0 | 0 | challenge check, full check, writer, run begin |
/// | 3 | the setting does not fit | 0 | 0 | 0 | bias challenge check, bias full check, bias writer |
/// | 3 | the setting does not fit | 0 | 0 | 0 | run step, run addition |
/// | 4 | ticket's length not 8(ℓm + mn + 2ℓn) | 0 | 0 | 0 | challenge check, full check, run begin |
/// | 4 | ticket's length not 8(ℓm + mn + 3ℓn) | 0 | 0 | 0 | bias challenge check, bias full check |
/// | 4 | ticket's length not 8(ℓm + mn + 2ℓn) | 0 | 0 | 0 | run step |
/// | 5 | kind, zero byte, row or column unexpected | record | 0 | 0 | challenge check, full check, bias challenge check, bias full check, run begin |
/// | 5 | kind, zero byte, row or column unexpected | record | 0 | 0 | run step |
/// | 6 | value of p or more | record | 0 | 0 | challenge check, full check, bias challenge check, bias full check, run begin |
/// | 6 | value of p or more | record | 0 | 0 | run step |
/// | 7 | entry of A or B below -T or above T | record | 0 | 0 | challenge check, full check, bias challenge check, bias full check, run begin |
/// | 7 | entry of A or B below -T or above T | record | 0 | 0 | run step |
/// | 8 | quotient not from -2^(v-1) to 2^(v-1) - 1 | record | 0 | 0 | challenge check, full check, bias challenge check, bias full check, run begin |
/// | 8 | quotient not from -2^(v-1) to 2^(v-1) - 1 | record | 0 | 0 | run step |
/// | 9 | remainder of α or more | record | 0 | 0 | challenge check, full check, bias challenge check, bias full check, run begin |
/// | 9 | remainder of α or more | record | 0 | 0 | run step |
/// | 10 | list's length not s·n | 0 | 0 | 0 | challenge check, bias challenge check, run begin |
/// | 10 | list's length not s·n | 0 | 0 | 0 | run step |
/// | 10 | list's length not s·n, or the vector's not n | 0 | 0 | 0 | run addition |
/// | 11 | list number of p or more | index in the list | 0 | 0 | challenge check, bias challenge check, run begin |
/// | 11 | list number of p or more | index in the list | 0 | 0 | run step |
/// | 11 | list number of p or more | index in the list | 0 | 0 | run addition |
/// | 12 | caught: the two sides of a row differ | vector t | row i | t(mn + ℓn + ℓm) + mn + (i + 1)(n + m) | challenge check |
/// | 12 | caught: the two sides of a row differ | vector t | row i | t(mn + 2ℓn + ℓm) + mn + (i + 1)(2n + m) | bias challenge check |
/// | 12 | caught: the two sides of a row differ | vector t | row i | t(mn + ℓn + ℓm) + mn + (i + 1)(n + m) | run step |
/// | 13 | length of A not ℓm, or of B not mn | 0 for A, 1 for B | 0 | 0 | writer |
/// | 13 | length of A not ℓm, of B not mn, or of the bias not ℓn | 0 for A, 1 for B, 2 for the bias | 0 | 0 | bias writer |
/// | 14 | number of A or B below -T or above T | index in A, then B | 0 | 0 | writer, bias writer |
/// | 15 | output shorter than the ticket | 0 | 0 | 0 | writer |
/// | 15 | output shorter than the ticket | 0 | 0 | 0 | bias writer |
/// | 16 | untrue claim, at row i, column j | i·n + j | 0 | m(i·n + j + 1) | full check |
/// | 16 | untrue claim, at row i, column j | i·n + j | 0 | m(i·n + j + 1) | bias full check |
/// | 17 | W above 2^30 | 0 | 0 | 0 | bias challenge check, bias full check, bias writer |
/// | 18 | bias entry below -W or above W | record | 0 | 0 | bias challenge check, bias full check |
/// | 18 | number of the bias below -W or above W | index after A and B | 0 | 0 | bias writer |
/// | 19 | o not below α | 0 | 0 | 0 | challenge check, full check, writer, bias challenge check, bias full check, bias writer, run begin |
/// | 19 | o not below α | 0 | 0 | 0 | run step, run addition |
/// | 21 | a vector of zeros | vector t | 0 | 0 | challenge check, bias challenge check, run begin |
/// | 21 | a vector of zeros | vector t | 0 | 0 | run step |
/// | 21 | a vector of zeros | vector t | 0 | 0 | run addition |
/// | 22 | the run is caught or complete, or holds eight vectors | 0 | 0 | 0 | run addition |
#[repr(C)]
#[derive(Clone, Copy, Debug, PartialEq, Eq)]
pub struct Answer {
    /// What was found: 0 when the ticket is accepted, with the list where there
    /// is one, or is written; of a run also while it is under way.
    pub number: u32,
    /// Where it was found, or how long the written ticket is in bytes, or of a run
    /// under way the next vector. Records, list numbers, vectors, operands and
    /// claims count from 0; operands are counted on from A into B and from B into
    /// the bias, claims row by row.
    pub place: u32,
    /// The row at which the ticket was caught by a challenge check, from 0, or of
    /// a run under way the next row; else 0.
    pub row: u32,
    /// The products counted.
    pub products: u32,
}

impl Answer {
    /// The four numbers, in the order of the fields.
    pub fn numbers(&self) -> [u32; 4] {
        [self.number, self.place, self.row, self.products]
    }
}
