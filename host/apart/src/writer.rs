//! "The writer takes the setting, A and B as signed 32-bit numbers and an
//! output." The call for bias tickets takes the bias as well.

use crate::answer::Refusal;
use crate::make::Parts;
use crate::matrix::{exact_sum, Matrix};
use crate::setting::Terms;
use crate::ticket::{self, added, Part};
use crate::{full, Answer, BiasSetting, Setting};

/// The signed numbers that a ticket is written for, each matrix row by row. For
/// a plain ticket the bias is empty.
struct Operands<'a> {
    a: &'a [i32],
    b: &'a [i32],
    bias: &'a [i32],
}

/// "It writes the one ticket whose claims are true, and answers 0, length, 0,
/// ℓmn. Output past that length is unchanged."
pub fn write_ticket(setting: &Setting, a: &[i32], b: &[i32], output: &mut [u8]) -> Answer {
    write(&Terms::from(setting), &Operands { a, b, bias: &[] }, output)
}

/// The same for a bias ticket, where c, the bias entry, is added to S.
pub fn write_bias_ticket(setting: &BiasSetting, a: &[i32], b: &[i32], bias: &[i32], output: &mut [u8]) -> Answer {
    write(&Terms::from(setting), &Operands { a, b, bias }, output)
}

/// The ticket is made only when every test is passed, and put into the output
/// only when it is made: "Every refusal changes no lent byte."
fn write(terms: &Terms, operands: &Operands, output: &mut [u8]) -> Answer {
    match test(terms, operands, output.len()) {
        Err(refusal) => Answer::from(refusal),
        Ok(()) => {
            let ticket = ticket_of(terms, operands);
            output[..ticket.len()].copy_from_slice(&ticket);
            Answer {
                number: 0,
                // The sizes are within their limits, so nothing is lost.
                place: ticket.len() as u32,
                row: 0,
                products: full::products_of_all(&terms.setting),
            }
        }
    }
}

/// "Writer: 1, 2, 3, 13, 14, 15; within 13 A precedes B, and the first index
/// decides 14." 19 stands "after 2"; for bias tickets 17 stands between these
/// two, and 18 is "following 14".
fn test(terms: &Terms, operands: &Operands, output_length: usize) -> Result<(), Refusal> {
    terms.test()?;
    test_lengths(terms, operands)?;
    test_bounds(terms, operands)?;
    // "output too short"
    if (output_length as u128) < ticket::length(terms) {
        return Err(Refusal { number: 15, place: 0 });
    }
    Ok(())
}

/// "operand length wrong", at "0 for A, 1 for B"; "a wrong bias length there is
/// 13, place 2". The empty bias of a plain ticket has the right length.
fn test_lengths(terms: &Terms, operands: &Operands) -> Result<(), Refusal> {
    let &Operands { a, b, bias } = operands;
    let lengths = [(Part::A, a), (Part::B, b), (Part::Bias, bias)];
    match lengths
        .iter()
        .position(|(part, entries)| entries.len() as u128 != part.count(terms))
    {
        Some(place) => Err(Refusal { number: 13, place }),
        None => Ok(()),
    }
}

/// "operand beyond T", at the "index in A then B"; "a bias entry beyond W as 18",
/// at "its index, counted on after A and B, following 14".
fn test_bounds(terms: &Terms, operands: &Operands) -> Result<(), Refusal> {
    let &Operands { a, b, bias } = operands;
    let t = i128::from(terms.setting.bound);
    if let Some(place) = a.iter().chain(b).position(|&operand| is_beyond(t, operand)) {
        return Err(Refusal { number: 14, place });
    }
    let w = terms.greatest_bias();
    if let Some(index) = bias.iter().position(|&entry| is_beyond(w, entry)) {
        let place = a.len() + b.len() + index;
        return Err(Refusal { number: 18, place });
    }
    Ok(())
}

/// Whether a number is not one from -`bound` to `bound`: "An entry of A or B
/// stands for a number from -T to T."
fn is_beyond(bound: i128, operand: i32) -> bool {
    let operand = i128::from(operand);
    operand < -bound || bound < operand
}

/// The bytes of the one ticket whose claims are true, from operands that have
/// passed every test.
fn ticket_of(terms: &Terms, operands: &Operands) -> Vec<u8> {
    let (quotients, remainders) = claims(terms, operands).into_iter().unzip();
    Parts {
        a: widened(operands.a),
        b: widened(operands.b),
        quotients,
        remainders,
    }
    .encode(terms, &widened::<i64>(operands.bias))
}

/// The true claims of the operands, row by row. A quotient is within 30 bits
/// here, and a remainder below α.
fn claims(terms: &Terms, operands: &Operands) -> Vec<(i64, i64)> {
    let setting = &terms.setting;
    let left = Matrix::new(setting.inner as usize, widened(operands.a));
    let right = Matrix::new(setting.columns as usize, widened(operands.b));
    let bias = added(terms, widened(operands.bias));
    Part::Quotients
        .places(terms)
        .map(|(i, j)| claim(setting, exact_sum(&left, &right, i, j) + bias.entry(i, j)))
        .map(|(quotient, remainder)| (quotient as i64, remainder as i64))
        .collect()
}

/// The same numbers in a wider type.
fn widened<T: From<i32>>(entries: &[i32]) -> Vec<T> {
    entries.iter().copied().map(T::from).collect()
}

/// The quotient and the remainder of a true claim: "the quotient is the floor of
/// (S + o) over α, the remainder of that division beside it; a bias is added too
/// where there is one." With a bias the sum is S + c.
fn claim(setting: &Setting, sum: i128) -> (i128, i128) {
    let alpha = i128::from(setting.scale);
    let rounded = sum + i128::from(setting.rounding);
    let quotient = floor(rounded, alpha);
    (quotient, rounded - alpha * quotient)
}

/// The floor of `sum` over `alpha`, which is positive: the largest whole number
/// whose product with `alpha` is not above `sum`.
fn floor(sum: i128, alpha: i128) -> i128 {
    // Rust rounds towards zero. Below zero that is one above the floor, unless
    // nothing is left.
    let towards_zero = sum / alpha;
    if towards_zero * alpha > sum {
        towards_zero - 1
    } else {
        towards_zero
    }
}

#[cfg(test)]
mod tests;

#[cfg(test)]
mod bias_tests;

#[cfg(test)]
mod rounding_tests;
