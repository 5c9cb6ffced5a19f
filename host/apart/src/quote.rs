//! "Quoting for a layer before it is built."

use crate::answer::Refusal;
use crate::setting::{widths, Terms};
use crate::{check, full, ticket, BiasSetting, Setting};

/// "From these, without operands, give the smallest v that fits, the ticket
/// length, and the products of an accepted full check and of an accepted
/// challenge check, for a plain or a bias ticket." Before them stands the number
/// of the refusal, or 0.
#[derive(Clone, Copy, Debug, PartialEq, Eq)]
pub struct Quote {
    pub number: u32,
    /// The smallest v that fits.
    pub width: u32,
    /// The ticket's length in bytes.
    pub length: u32,
    pub full_products: u32,
    pub challenge_products: u32,
}

impl From<[u32; 5]> for Quote {
    /// The quote of these numbers, in the order of the fields.
    fn from([number, width, length, full_products, challenge_products]: [u32; 5]) -> Quote {
        Quote {
            number,
            width,
            length,
            full_products,
            challenge_products,
        }
    }
}

impl Quote {
    /// The five numbers, in the order of the fields.
    pub fn numbers(&self) -> [u32; 5] {
        [
            self.number,
            self.width,
            self.length,
            self.full_products,
            self.challenge_products,
        ]
    }
}

impl From<Refusal> for Quote {
    /// "all figures are then 0"
    fn from(Refusal { number, .. }: Refusal) -> Quote {
        Quote::from([number, 0, 0, 0, 0])
    }
}

/// The quote for plain tickets: "It refuses limits with the earlier numbers, v
/// left unread, and with 20 when no v from 1 to 30 fits". The earlier numbers
/// keep their order, 1 and 2, and 19 "after 2".
pub fn quote_ticket(setting: &Setting) -> Quote {
    quote(&Terms::from(setting)).unwrap_or_else(Quote::from)
}

/// The same for bias tickets, with 17 "after 2" and 19 "after 2 and 17".
pub fn quote_bias_ticket(setting: &BiasSetting) -> Quote {
    quote(&Terms::from(setting)).unwrap_or_else(Quote::from)
}

/// "Products and length equal those that the accepting checks and the writer
/// later report."
fn quote(terms: &Terms) -> Result<Quote, Refusal> {
    terms.test_limits(None)?;
    Ok(Quote {
        number: 0,
        width: smallest_width(terms)?,
        // The sizes are within their limits, so nothing is lost.
        length: ticket::length(terms) as u32,
        full_products: full::products_of_all(&terms.setting),
        challenge_products: check::products_of_all(terms),
    })
}

/// "the smallest v that fits", or the refusal "with 20 when no v from 1 to 30
/// fits". Asked only within the limits.
fn smallest_width(terms: &Terms) -> Result<u32, Refusal> {
    widths()
        .find(|&width| terms.fits(width))
        .ok_or(Refusal { number: 20, place: 0 })
}

#[cfg(test)]
mod tests;
