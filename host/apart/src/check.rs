//! "The challenge check".

use std::ops::Range;

use crate::answer::Refusal;
use crate::matrix::product;
use crate::setting::Terms;
use crate::ticket::{self, Ticket};
use crate::{least_residue, Answer, BiasSetting, Setting, P};

/// The answer to a setting, the bytes of a ticket and a list, by the order "1,
/// 2, 3, 4; then record after record, each by 5, 6 and its own range; then 10,
/// 11, 12", with 19 "after 2" and 21 "once every list number has passed 11".
pub fn challenge_check(setting: &Setting, ticket: &[u8], list: &[u32]) -> Answer {
    decide(&Terms::from(setting), ticket, list).unwrap_or_else(Answer::from)
}

/// The same for a bias ticket, with 17 "after 2", 19 "after 2 and 17" and 18
/// "where 7 would stand".
pub fn bias_challenge_check(setting: &BiasSetting, ticket: &[u8], list: &[u32]) -> Answer {
    decide(&Terms::from(setting), ticket, list).unwrap_or_else(Answer::from)
}

fn decide(terms: &Terms, ticket: &[u8], list: &[u32]) -> Result<Answer, Refusal> {
    terms.test()?;
    let ticket = ticket::read(terms, ticket)?;
    let vectors = read_list(&terms.setting, list)?;
    Ok(challenge(terms, &ticket, &vectors))
}

/// "The list holds s vectors of n least residues, the vectors one after
/// another."
pub(crate) fn read_list(setting: &Setting, list: &[u32]) -> Result<Vec<Vec<i128>>, Refusal> {
    read_vectors(setting, 0..setting.vectors, list)
}

/// The vectors whose t are these, from their numbers alone. The tests 10, 11 and
/// 21, in this order: "A vector all of whose numbers are zero is no challenge and
/// is to be turned away." Places are those of the list that holds these vectors
/// behind the ones of a lower t.
pub(crate) fn read_vectors(
    setting: &Setting,
    Range { start, end }: Range<u32>,
    numbers: &[u32],
) -> Result<Vec<Vec<i128>>, Refusal> {
    // All are small here.
    let [start, end, columns] = [start, end, setting.columns].map(|number| number as usize);
    if numbers.len() != (end - start) * columns {
        return Err(Refusal { number: 10, place: 0 });
    }
    let numbers: Vec<i128> = numbers.iter().copied().map(i128::from).collect();
    if let Some(index) = numbers.iter().position(|&number| number >= P) {
        let place = start * columns + index;
        return Err(Refusal { number: 11, place });
    }
    let vectors: Vec<Vec<i128>> = numbers.chunks(columns).map(<[i128]>::to_vec).collect();
    // "It refuses the first such vector as 21 with its t"
    match vectors.iter().position(|x| x.iter().all(|&number| number == 0)) {
        Some(index) => {
            let place = start + index;
            Err(Refusal { number: 21, place })
        }
        None => Ok(vectors),
    }
}

/// "For vector t, X: u = B·X mod p is computed; then for each row i, c = sum
/// over j of (αq + r)·X(j) mod p and the row of A times u mod p. Unequal:
/// caught, at the first t and, within it, the first row". The check "uses
/// αq + r - o for αq + r, and its products stay the same."
pub(crate) fn challenge(terms: &Terms, ticket: &Ticket, vectors: &[Vec<i128>]) -> Answer {
    vectors
        .iter()
        .enumerate()
        .find_map(|(t, x)| first_unequal(terms, ticket, x).map(|i| caught(terms, t as u32, i)))
        .unwrap_or_else(|| accepted(terms))
}

/// The first row whose two sides are unequal for X.
fn first_unequal(terms: &Terms, ticket: &Ticket, x: &[i128]) -> Option<u32> {
    let u = ticket.b.times(x);
    (0..terms.setting.rows).find(|&i| is_unequal(ticket, i, x, &u))
}

/// Whether the two sides of row i are unequal for X and u. For a bias ticket,
/// "the row's bias entries with X; their sum is added to the row of A times u";
/// for a plain one that sum is 0.
pub(crate) fn is_unequal(ticket: &Ticket, i: u32, x: &[i128], u: &[i128]) -> bool {
    let sum = product(ticket.a.row(i), u) + product(ticket.bias.row(i), x);
    product(ticket.claims.row(i), x) != least_residue(sum)
}

/// The products of one row: n "with X" and m of "the row of A times u"; for a
/// bias ticket "Each row of the challenge check makes n further products". The
/// sizes are within their limits here, so no count comes near the end of `u32`.
pub(crate) fn products_of_a_row(terms: &Terms) -> u32 {
    let Setting { inner, columns, .. } = terms.setting;
    match terms.bias_bound {
        Some(_) => 2 * columns + inner,
        None => columns + inner,
    }
}

/// The products of one vector with all its rows, mn + ℓn + ℓm, or mn + 2ℓn + ℓm
/// for a bias ticket.
pub(crate) fn products_of_a_vector(terms: &Terms) -> u32 {
    let Setting {
        rows, inner, columns, ..
    } = terms.setting;
    inner * columns + rows * products_of_a_row(terms)
}

/// The products of all s vectors, s(mn + ℓn + ℓm) in a plain ticket. A bias
/// ticket has its own products of a vector.
pub(crate) fn products_of_all(terms: &Terms) -> u32 {
    terms.setting.vectors * products_of_a_vector(terms)
}

/// "Accepted: 0, 0, 0, s(mn + ℓn + ℓm)."
pub(crate) fn accepted(terms: &Terms) -> Answer {
    Answer {
        number: 0,
        place: 0,
        row: 0,
        products: products_of_all(terms),
    }
}

/// "Caught in vector t, row i: products are t(mn + ℓn + ℓm) + mn + (i + 1)(n +
/// m)." A bias ticket has its own products of a vector and of a row.
pub(crate) fn caught(terms: &Terms, t: u32, i: u32) -> Answer {
    let Setting { inner, columns, .. } = terms.setting;
    Answer {
        number: 12,
        place: t,
        row: i,
        products: t * products_of_a_vector(terms) + inner * columns + (i + 1) * products_of_a_row(terms),
    }
}

#[cfg(test)]
mod tests;

#[cfg(test)]
mod bias_tests;

#[cfg(test)]
mod rounding_tests;

#[cfg(test)]
mod zeros_tests;
