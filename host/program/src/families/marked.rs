//! Each example of the table of numbers and each marked example that the program
//! answers, all stated. Case g is of the full check.

use apart::examples::{with_claims, B, K, TICKET};
use apart::make::residue;
use apart::program::challenge_file;
use apart::{true_ticket, Setting};

use crate::case::{Case, Entry};
use crate::sample::{setting_bytes, Sample, P};

/// The files of case c, byte by byte.
const SETTING: [u8; 20] = [2, 2, 2, 1, 10, 0, 0, 0, 8, 0, 0, 0, 5, 0, 0, 0, 0, 0, 0, 0];

const CHALLENGE: [u8; 8] = [1, 0, 0, 0, 2, 0, 0, 0];

pub fn cases() -> Vec<Case> {
    [table(), marked_examples()].concat()
}

fn table() -> Vec<Case> {
    let c = Sample::of_c();
    let setting = |description: &str, setting: Setting| c.case(description).setting(setting_bytes(&setting));
    let ticket = |description: &str, ticket: Vec<u8>| c.case(description).ticket(ticket);
    let list = |description: &str, list: &[u32]| c.case(description).challenge(challenge_file(list));
    vec![
        setting("number 1: K with n = 33", Setting { columns: 33, ..K }).states("1 0 0 0"),
        setting("number 2: K with α = 1", Setting { scale: 1, ..K }).states("2 0 0 0"),
        setting("number 3: K with v = 4", Setting { width: 4, ..K }).states("3 0 0 0"),
        ticket("number 4: K, 0 bytes", Vec::new()).states("4 0 0 0"),
        ticket("number 5: record 0 begins 02", c.with_byte(0, 0x02)).states("5 0 0 0"),
        ticket("number 6: FF FF FF 7F in record 0", c.with_value(0, P)).states("6 0 0 0"),
        ticket("number 7: entry -9 in record 0", c.with_value(0, P - 9)).states("7 0 0 0"),
        ticket("number 8: quotient 16 in record 8", c.with_value(8, 16)).states("8 8 0 0"),
        ticket("number 9: 10 in record 12", c.with_value(12, 10)).states("9 12 0 0"),
        list("number 10: K, 3 numbers", &[1, 2, 3]).states("10 0 0 0"),
        list("number 11: p at index 1", &[1, P]).states("11 1 0 0"),
        claims("number 12: case e", [-1, 3, 2, -1], [3, 4, 3, 8], &[1, 5]).states("12 0 0 8"),
    ]
}

fn marked_examples() -> Vec<Case> {
    let c = Sample::of_c();
    let quotient = |description: &str, value: i64, list: &[u32]| {
        let ticket = c.with_value(8, residue(value));
        c.case(description).ticket(ticket).challenge(challenge_file(list))
    };
    let of_i = c
        .case("case i: T = 9")
        .setting(setting_bytes(&Setting { bound: 9, ..K }));
    let entry = c.case("case i: entry -8").ticket(true_ticket(&K, &[-8, -2, 5, 4], &B));
    vec![
        Case::new("case c", &SETTING[..], &TICKET[..], &CHALLENGE[..]).states("0 0 0 12"),
        claims("case d", [-1, 3, 2, -1], [3, 4, 3, 8], &[0, 5]).states("0 0 0 12"),
        claims("case e", [-1, 3, 2, -1], [3, 4, 3, 8], &[1, 5]).states("12 0 0 8"),
        claims("case f, X = (1, p - 1)", [-1, 4, 2, -1], [3, 4, 3, 8], &[1, P - 1]).states("0 0 0 12"),
        claims("case f, X = (1, 1)", [-1, 4, 2, -1], [3, 4, 3, 8], &[1, 1]).states("12 0 0 8"),
        claims("case h", [-3, 3, 2, -1], [13, 4, 3, 8], &[1, 2]).states("9 12 0 0"),
        of_i.states("3 0 0 0"),
        entry.states("0 0 0 12"),
        // The claim is untrue, and column 0 of the first list is 0.
        quotient("case j: quotient -16, X = (0, 5)", -16, &[0, 5]).states("0 0 0 12"),
        quotient("case j: quotient -16, X = (1, 2)", -16, &[1, 2]).states("12 0 0 8"),
        quotient("case j: quotient 15, X = (0, 5)", 15, &[0, 5]).states("0 0 0 12"),
        quotient("case j: quotient 15, X = (1, 2)", 15, &[1, 2]).states("12 0 0 8"),
        quotient("case j: quotient -17", -17, &[0, 5]).states("8 8 0 0"),
        of_k(14, true).states("0 0 0 8"),
        of_k(14, false).states("4 0 0 0"),
        of_k(15, true).states("3 0 0 0"),
    ]
}

/// The ticket of K with these claims.
fn claims(description: &str, quotients: [i64; 4], remainders: [i64; 4], list: &[u32]) -> Case {
    Case::new(
        description,
        &SETTING[..],
        with_claims(quotients, remainders),
        challenge_file(list),
    )
}

/// Case k, where mn + ℓn + ℓm = 2 + 4 + 2, with a true ticket or none.
fn of_k(width: u32, with_ticket: bool) -> Case {
    let setting = Setting {
        inner: 1,
        scale: 65_536,
        bound: 1,
        width,
        ..K
    };
    let ticket = if with_ticket {
        Entry::from(true_ticket(&setting, &[1, -1], &[-1, 1]))
    } else {
        Entry::Missing
    };
    let rest = if with_ticket { "" } else { ", no ticket" };
    Case::new(
        format!("case k: v = {width}{rest}"),
        setting_bytes(&setting),
        ticket,
        &CHALLENGE[..],
    )
}

#[cfg(test)]
mod tests {
    use super::*;

    #[test]
    fn the_bytes_are_those_that_are_made() {
        let c = Sample::of_c();
        assert_eq!(setting_bytes(&c.setting), SETTING);
        assert_eq!(c.ticket, TICKET);
        assert_eq!(challenge_file(&c.list), CHALLENGE);
    }
}
