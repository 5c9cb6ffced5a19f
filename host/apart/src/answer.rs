//! The four numbers of an answer, and the refusals among them.

/// "An answer is four numbers: number, place, row, products."
#[derive(Clone, Copy, Debug, PartialEq, Eq)]
pub struct Answer {
    pub number: u32,
    pub place: u32,
    pub row: u32,
    pub products: u32,
}

impl From<[u32; 4]> for Answer {
    /// The answer of these numbers, in the order of the fields.
    fn from([number, place, row, products]: [u32; 4]) -> Answer {
        Answer {
            number,
            place,
            row,
            products,
        }
    }
}

/// A test that is not passed, and its place.
#[derive(Clone, Copy, Debug, PartialEq, Eq)]
pub(crate) struct Refusal {
    pub(crate) number: u32,
    pub(crate) place: usize,
}

impl From<Refusal> for Answer {
    /// "Row and products are 0 except for 12 and 16." The place is a record of
    /// the ticket, a vector of a list or an index of a list or of the operands,
    /// all of a length that is right, so nothing is lost.
    fn from(Refusal { number, place }: Refusal) -> Answer {
        Answer {
            number,
            place: place as u32,
            row: 0,
            products: 0,
        }
    }
}
