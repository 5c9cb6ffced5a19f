//! "The full check takes setting and ticket."

use crate::answer::Refusal;
use crate::matrix::exact_sum;
use crate::setting::Terms;
use crate::ticket::{self, Part, Ticket};
use crate::{Answer, BiasSetting, Setting};

/// The answer to a setting and the bytes of a ticket, by the order "1, 2, 3, 4;
/// then record after record, each by 5, 6 and its own range; then 10, 11, 12
/// (16 in the full check, which takes no list)", with 19 "after 2".
pub fn full_check(setting: &Setting, ticket: &[u8]) -> Answer {
    decide(&Terms::from(setting), ticket).unwrap_or_else(Answer::from)
}

/// The same for a bias ticket, with 17 "after 2", 19 "after 2 and 17" and 18
/// "where 7 would stand".
pub fn bias_full_check(setting: &BiasSetting, ticket: &[u8]) -> Answer {
    decide(&Terms::from(setting), ticket).unwrap_or_else(Answer::from)
}

fn decide(terms: &Terms, ticket: &[u8]) -> Result<Answer, Refusal> {
    terms.test()?;
    let ticket = ticket::read(terms, ticket)?;
    Ok(compare(terms, &ticket))
}

/// "It computes each S and compares, row by row".
fn compare(terms: &Terms, ticket: &Ticket) -> Answer {
    let first_untrue = Part::Quotients.places(terms).find(|&(i, j)| !is_true(ticket, i, j));
    match first_untrue {
        Some((i, j)) => untrue(&terms.setting, i, j),
        None => accepted(&terms.setting),
    }
}

/// "The claim there is true when αq + r = S"; in a bias ticket "The claim is
/// true when αq + r = S + c, with c the bias entry". With αq + r - o for αq + r:
/// "True and false claims are judged with o from here on."
fn is_true(ticket: &Ticket, i: u32, j: u32) -> bool {
    let sum = exact_sum(&ticket.a, &ticket.b, i, j);
    ticket.claims.entry(i, j) == sum + ticket.bias.entry(i, j)
}

/// The products of every S, ℓmn. The sizes are within their limits here, so no
/// count comes near the end of `u32`.
pub(crate) fn products_of_all(setting: &Setting) -> u32 {
    setting.rows * setting.inner * setting.columns
}

/// "accepted is 0, 0, 0, ℓmn."
fn accepted(setting: &Setting) -> Answer {
    Answer {
        number: 0,
        place: 0,
        row: 0,
        products: products_of_all(setting),
    }
}

/// "The first untrue claim, at i, j, is number 16 with place i·n + j, row 0 and
/// products m(i·n + j + 1)."
fn untrue(setting: &Setting, i: u32, j: u32) -> Answer {
    let place = i * setting.columns + j;
    Answer {
        number: 16,
        place,
        row: 0,
        products: setting.inner * (place + 1),
    }
}

#[cfg(test)]
mod tests;

#[cfg(test)]
mod bias_tests;

#[cfg(test)]
mod rounding_tests;
