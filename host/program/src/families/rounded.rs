//! Tickets of readers that add o before they divide: "the quotient is the floor
//! of (S + o) over α, the remainder of that division beside it". They are true
//! with their o and false with another.

use apart::examples::{with_claims, K, ROUNDED_TICKET, TICKET};
use apart::make::{residue, Parts};
use apart::program::challenge_file;
use apart::Setting;

use crate::case::Case;
use crate::sample::{accepted, caught, largest_parts, refused, setting_bytes, Sample, P};

/// K with o = 5, byte by byte.
const SETTING: [u8; 20] = [2, 2, 2, 1, 10, 0, 0, 0, 8, 0, 0, 0, 5, 0, 0, 0, 5, 0, 0, 0];

const CHALLENGE: [u8; 8] = [1, 0, 0, 0, 2, 0, 0, 0];

pub fn cases() -> Vec<Case> {
    [
        marked_examples(),
        of_another_number(),
        single_claims(),
        three_vectors(),
        largest(),
    ]
    .concat()
}

/// The marked examples with o = 5: S + o is -12, 39, 28, 3, so the quotients are
/// -2, 3, 2, 0 and the remainders 8, 9, 8, 3.
fn marked_examples() -> Vec<Case> {
    let claims = |description: &str, quotients, remainders, list: &[u32]| {
        Case::new(
            format!("rounded, {description}"),
            &SETTING[..],
            with_claims(quotients, remainders),
            challenge_file(list),
        )
    };
    let rounded = Sample::rounded();
    let quotient = |value: i64| {
        let case = rounded.case(format!("rounded, case j: quotient {value}"));
        let ticket = rounded.with_value(8, residue(value));
        case.ticket(ticket).challenge(challenge_file(&[0, 5]))
    };
    vec![
        Case::new("rounded, case c", &SETTING[..], &ROUNDED_TICKET[..], &CHALLENGE[..]).states("0 0 0 12"),
        claims("case d", [-1, 3, 2, 0], [8, 9, 8, 3], &[0, 5]).states("0 0 0 12"),
        claims("case e", [-1, 3, 2, 0], [8, 9, 8, 3], &[1, 5]).states("12 0 0 8"),
        claims("case f, X = (1, p - 1)", [-1, 4, 2, 0], [8, 9, 8, 3], &[1, P - 1]).states("0 0 0 12"),
        claims("case f, X = (1, 1)", [-1, 4, 2, 0], [8, 9, 8, 3], &[1, 1]).states("12 0 0 8"),
        claims("case h", [-3, 3, 2, 0], [18, 9, 8, 3], &[1, 2]).states("9 12 0 0"),
        quotient(-16).states("0 0 0 12"),
        quotient(15).states("0 0 0 12"),
        quotient(-17).states("8 8 0 0"),
        quotient(16).states("8 8 0 0"),
        claims("the last quotient rounded down", [-2, 3, 2, -1], [8, 9, 8, 3], &[1, 2]).states("12 0 1 12"),
        claims("the last claim without o", [-2, 3, 2, -1], [8, 9, 8, 8], &[1, 2]).states("12 0 1 12"),
        claims(
            "the last quotient of S + o, and -2 is left of S",
            [-2, 3, 2, 0],
            [8, 9, 8, -2],
            &[1, 2],
        )
        .states("9 15 0 0"),
        // S - o is -22, 29, 18, -7.
        claims("o subtracted before dividing", [-3, 2, 1, -1], [8, 9, 8, 3], &[1, 2]).states("12 0 0 8"),
        // S + 2·o is -7, 44, 33, 8.
        claims("o added twice", [-1, 4, 3, 0], [3, 4, 3, 8], &[1, 2]).states("12 0 0 8"),
    ]
}

/// Every claim is off by the same, so it is caught in row 0, unless the numbers
/// of the vector sum to 0. Zeros are refused.
fn of_another_number() -> Vec<Case> {
    let case = |ticket: &[u8], rounding: u32, list: &[u32]| {
        let vectors = list.len() as u32 / 2;
        let setting = Setting { vectors, rounding, ..K };
        let name = if ticket == TICKET { "c" } else { "o = 5" };
        Case::new(
            format!("the ticket of {name} with o = {rounding}, X = {list:?}"),
            setting_bytes(&setting),
            ticket,
            challenge_file(list),
        )
    };
    let mut cases = Vec::new();
    for rounding in [0, 4, 6, 9] {
        cases.push(case(&ROUNDED_TICKET, rounding, &[1, 2]).states("12 0 0 8"));
    }
    for rounding in [1, 5, 9] {
        cases.push(case(&TICKET, rounding, &[1, 2]).states("12 0 0 8"));
    }
    for (ticket, rounding) in [(&ROUNDED_TICKET, 0), (&TICKET, 5)] {
        cases.push(case(ticket, rounding, &[0, 0]).states("21 0 0 0"));
        cases.push(case(ticket, rounding, &[1, P - 1]).states("0 0 0 12"));
        cases.push(case(ticket, rounding, &[1, P - 1, 0, 1]).states("12 1 0 20"));
    }
    cases
}

/// One claim of one product: α, o, the entries, the quotient and the remainder,
/// and the number. Record 3 holds the remainder.
fn single_claims() -> Vec<Case> {
    let claims = [
        // To the nearest.
        (10, 5, [17, -1], [-2, 8], 0),
        (10, 5, [17, -1], [-2, 3], 12),
        (10, 5, [17, -1], [-1, 8], 12),
        (10, 5, [4, 6], [2, 9], 0),
        (10, 5, [-4, 4], [-2, 9], 0),
        // Halves go up, below zero too.
        (10, 5, [5, 5], [3, 0], 0),
        (10, 5, [5, 5], [2, 5], 12),
        (10, 5, [5, 5], [2, 10], 9),
        (10, 5, [-3, 5], [-1, 0], 0),
        (10, 5, [-3, 5], [-2, 5], 12),
        (10, 5, [-3, 5], [-2, 10], 9),
        (10, 5, [5, 1], [1, 0], 0),
        (10, 5, [5, -1], [0, 0], 0),
        (10, 5, [0, 0], [0, 5], 0),
        // An odd scale has no halves.
        (7, 3, [1, 3], [0, 6], 0),
        (7, 3, [1, 4], [1, 0], 0),
        (7, 3, [-1, 3], [0, 0], 0),
        (7, 3, [-1, 4], [-1, 6], 0),
        // With α - 1 added the quotient is rounded up.
        (10, 9, [17, -1], [-1, 2], 0),
        (10, 9, [17, 1], [2, 6], 0),
        (10, 9, [10, -1], [-1, 9], 0),
        (2, 1, [1, 1], [1, 0], 0),
        (2, 1, [1, -1], [0, 0], 0),
    ];
    claims
        .into_iter()
        .map(|(scale, rounding, [a, b], [quotient, remainder], number)| {
            let setting = Setting::from([1, 1, 1, 1, scale, 17, 10, rounding]);
            let parts = Parts {
                a: vec![a],
                b: vec![b],
                quotients: vec![quotient],
                remainders: vec![remainder],
            };
            let sample = Sample {
                setting,
                ticket: parts.ticket(&setting),
                list: vec![1],
            };
            let sum = a * b;
            let case = sample.case(format!(
                "{sum} + {rounding} over {scale} is {quotient}, {remainder} left"
            ));
            case.states(match number {
                0 => accepted(&setting),
                12 => caught(&setting, 0, 0),
                _ => refused(number, 3),
            })
        })
        .collect()
}

/// The true ticket for o = 50, and each claim of it off by 1 in the first column
/// or in the last.
fn three_vectors() -> Vec<Case> {
    let sample = Sample::of_three_vectors_rounded(50);
    let setting = sample.setting;
    let other = Sample::of_three_vectors_rounded(49);
    let mut cases = vec![
        sample.case("three vectors, o = 50").states(accepted(&setting)),
        sample
            .case("three vectors, o = 50, the ticket of o = 49")
            .ticket(other.ticket)
            .states(caught(&setting, 0, 0)),
    ];
    // The remainders begin at record 12 + 20 + 15.
    for (row, column) in [(0, 4), (1, 0), (2, 4)] {
        let record = 47 + 5 * row + column;
        let remainder = sample.ticket[8 * record + 4];
        let case = sample.case(format!("three vectors, o = 50, the claim at {row}, {column}"));
        let case = case.ticket(sample.with_value(record, u32::from(remainder ^ 1)));
        cases.push(case.states(caught(&setting, 0, row as u32)));
    }
    cases
}

/// The largest setting with the greatest o that fits. With T in every entry of A
/// and B the quotients are 8,191, the greatest of their range.
fn largest() -> Vec<Case> {
    let largest = Sample::largest_rounded(49_153);
    let (setting, parts) = largest_parts(49_153);
    let bound = i64::from(setting.bound);
    let all = |a: i64, b: i64| {
        let parts = Parts::true_ones(&setting, &vec![a; parts.a.len()], &vec![b; parts.b.len()]);
        let case = largest.case(format!("the largest setting, o = 49153, entries {a} and {b}"));
        case.ticket(parts.ticket(&setting))
            .challenge(challenge_file(&[P - 1; 256]))
            .states("0 0 0 40960")
    };
    let mut false_parts = parts.clone();
    false_parts.remainders[1_023] ^= 1;
    vec![
        largest.case("the largest setting, o = 49153").states("0 0 0 40960"),
        all(bound, bound),
        all(bound, -bound),
        largest
            .case("the largest setting, o = 49153, the last claim")
            .ticket(false_parts.ticket(&setting))
            .states("12 0 31 5120"),
        largest
            .case("the largest setting, the ticket of o = 49153 with o = 0")
            .setting(setting_bytes(&Setting { rounding: 0, ..setting }))
            .states("12 0 0 2144"),
    ]
}

#[cfg(test)]
mod tests {
    use super::*;

    #[test]
    fn the_bytes_are_those_that_are_made() {
        let rounded = Sample::rounded();
        assert_eq!(setting_bytes(&rounded.setting), SETTING);
        assert_eq!(rounded.ticket, ROUNDED_TICKET);
        assert_eq!(challenge_file(&rounded.list), CHALLENGE);
    }
}
