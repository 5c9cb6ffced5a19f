//! Case g and every example of the table that concerns the full check, then
//! what they leave out: every place of an untrue claim, the order of the tests,
//! the ends of the ranges, and a second way to find the answer.

use super::*;
use crate::challenge_check;
use crate::examples::{with_claims, A, B, K};
use crate::make::{residue, true_ticket, Parts};

const QUOTIENTS: [i64; 4] = [-2, 3, 2, -1];
const REMAINDERS: [i64; 4] = [3, 4, 3, 8];

fn answer(number: u32, place: u32, row: u32, products: u32) -> Answer {
    Answer::from([number, place, row, products])
}

fn refused(number: u32, place: u32) -> Answer {
    answer(number, place, 0, 0)
}

fn check(ticket: &[u8]) -> Answer {
    full_check(&K, ticket)
}

/// The true ticket with another value in one record.
fn with_value(index: usize, value: u32) -> Vec<u8> {
    let mut ticket = true_ticket(&K, &A, &B);
    ticket[8 * index + 4..8 * index + 8].copy_from_slice(&value.to_le_bytes());
    ticket
}

#[test]
fn the_true_ticket() {
    // ℓmn = 8.
    assert_eq!(check(&true_ticket(&K, &A, &B)), answer(0, 0, 0, 8));
    assert_eq!(check(&with_claims(QUOTIENTS, REMAINDERS)), answer(0, 0, 0, 8));
}

#[test]
fn example_g() {
    let ticket_of_d = with_claims([-1, 3, 2, -1], REMAINDERS);
    assert_eq!(check(&ticket_of_d), answer(16, 0, 0, 2));
}

#[test]
fn the_ticket_of_f() {
    let ticket = with_claims([-1, 4, 2, -1], REMAINDERS);
    assert_eq!(check(&ticket), answer(16, 0, 0, 2));
}

#[test]
fn example_h() {
    // The sum balances: 10·(-3) + 13 = -17.
    let ticket = with_claims([-3, 3, 2, -1], [13, 4, 3, 8]);
    assert_eq!(check(&ticket), refused(9, 12));
    // And 10·(-1) - 7 = -17.
    let ticket = with_claims([-1, 3, 2, -1], [-7, 4, 3, 8]);
    assert_eq!(check(&ticket), refused(9, 12));
}

#[test]
fn example_i() {
    assert_eq!(full_check(&Setting { bound: 9, ..K }, &[]), refused(3, 0));
    assert_eq!(check(&true_ticket(&K, &[-8, -2, 5, 4], &B)), answer(0, 0, 0, 8));
}

#[test]
fn example_j() {
    // Within the range, and then untrue.
    assert_eq!(check(&with_value(8, residue(-16))), answer(16, 0, 0, 2));
    assert_eq!(check(&with_value(8, 15)), answer(16, 0, 0, 2));
    assert_eq!(check(&with_value(8, residue(-17))), refused(8, 8));
}

#[test]
fn example_k() {
    let setting = Setting {
        inner: 1,
        scale: 65_536,
        bound: 1,
        width: 14,
        ..K
    };
    assert_eq!(full_check(&setting, &[]), refused(4, 0));
    assert_eq!(full_check(&Setting { width: 15, ..setting }, &[]), refused(3, 0));
}

#[test]
fn numbers_1_to_3() {
    let ticket = true_ticket(&K, &A, &B);
    assert_eq!(full_check(&Setting { columns: 33, ..K }, &ticket), refused(1, 0));
    assert_eq!(full_check(&Setting { scale: 1, ..K }, &ticket), refused(2, 0));
    assert_eq!(full_check(&Setting { width: 4, ..K }, &ticket), refused(3, 0));
    // Before each of them stands the one with the lower number.
    let beyond_all = Setting {
        vectors: 9,
        scale: 1,
        width: 4,
        ..K
    };
    assert_eq!(full_check(&beyond_all, &[]), refused(1, 0));
    assert_eq!(
        full_check(
            &Setting {
                vectors: 1,
                ..beyond_all
            },
            &[]
        ),
        refused(2, 0)
    );
}

#[test]
fn number_4() {
    assert_eq!(check(&[]), refused(4, 0));
    let mut ticket = true_ticket(&K, &A, &B);
    assert_eq!(check(&ticket[..127]), refused(4, 0));
    ticket.push(0);
    assert_eq!(check(&ticket), refused(4, 0));
}

#[test]
fn numbers_5_to_9() {
    let mut other_kind = true_ticket(&K, &A, &B);
    other_kind[0] = 0x02;
    assert_eq!(check(&other_kind), refused(5, 0));
    let mut p_in_record_0 = true_ticket(&K, &A, &B);
    p_in_record_0[4..8].copy_from_slice(&[0xFF, 0xFF, 0xFF, 0x7F]);
    assert_eq!(check(&p_in_record_0), refused(6, 0));
    assert_eq!(check(&with_value(0, residue(-9))), refused(7, 0));
    assert_eq!(check(&with_value(8, 16)), refused(8, 8));
    assert_eq!(check(&with_value(12, 10)), refused(9, 12));
}

#[test]
fn an_untrue_claim_in_every_place() {
    for place in 0..4 {
        for step in [-1, 1] {
            let expected = answer(16, place as u32, 0, 2 * (place as u32 + 1));
            let mut quotients = QUOTIENTS;
            quotients[place] += step;
            assert_eq!(check(&with_claims(quotients, REMAINDERS)), expected);
            let mut remainders = REMAINDERS;
            remainders[place] += step;
            assert_eq!(check(&with_claims(QUOTIENTS, remainders)), expected);
        }
    }
}

#[test]
fn the_first_untrue_claim_decides() {
    // Row 0, column 1 is place 1, before row 1, column 0 at place 2.
    assert_eq!(check(&with_claims([-2, 4, 3, -1], REMAINDERS)), answer(16, 1, 0, 4));
    assert_eq!(check(&with_claims([-2, 3, 2, 0], [3, 4, 2, 8])), answer(16, 2, 0, 6));
}

#[test]
fn every_record_is_read_before_a_claim_is_compared() {
    // The claim at place 0 is untrue, and the last record is out of range.
    let ticket = with_claims([-1, 3, 2, -1], [3, 4, 3, 10]);
    assert_eq!(check(&ticket), refused(9, 15));
    let mut ticket = with_claims([-1, 3, 2, -1], REMAINDERS);
    ticket[8 * 15 + 1] = 1;
    assert_eq!(check(&ticket), refused(5, 15));
}

#[test]
fn sizes_that_differ() {
    // A = (1), (2) and B = (3, 4, 5): S = 3, 4, 5 and 6, 8, 10.
    let two_by_three = Setting {
        inner: 1,
        columns: 3,
        ..K
    };
    let right = Parts {
        a: vec![1, 2],
        b: vec![3, 4, 5],
        quotients: vec![0, 0, 0, 0, 0, 1],
        remainders: vec![3, 4, 5, 6, 8, 0],
    };
    assert_eq!(
        full_check(&two_by_three, &right.ticket(&two_by_three)),
        answer(0, 0, 0, 6)
    );
    // Row 1, column 0: i·n + j = 3, and 1·(3 + 1) products.
    let mut wrong = right.clone();
    wrong.remainders[3] = 7;
    assert_eq!(
        full_check(&two_by_three, &wrong.ticket(&two_by_three)),
        answer(16, 3, 0, 4)
    );
    // Row 0, column 2 as well: i·n + j = 2.
    wrong.remainders[2] = 4;
    assert_eq!(
        full_check(&two_by_three, &wrong.ticket(&two_by_three)),
        answer(16, 2, 0, 3)
    );

    // A = (1, -2, 3) and B = (4, -5), (6, 7), (-8, 1): S = 4 - 12 - 24 = -32 and
    // -5 - 14 + 3 = -16. For v = 6 they fit: 3·64 + 9 = 201 is below 32·10.
    let three_inner = Setting {
        rows: 1,
        inner: 3,
        width: 6,
        ..K
    };
    let right = Parts {
        a: vec![1, -2, 3],
        b: vec![4, -5, 6, 7, -8, 1],
        quotients: vec![-4, -2],
        remainders: vec![8, 4],
    };
    assert_eq!(
        full_check(&three_inner, &right.ticket(&three_inner)),
        answer(0, 0, 0, 6)
    );
    let mut wrong = right.clone();
    wrong.quotients[1] = -1;
    assert_eq!(
        full_check(&three_inner, &wrong.ticket(&three_inner)),
        answer(16, 1, 0, 6)
    );
    // Rounded towards zero: -3 with a remainder of -2 is out of range, and with
    // one of 2 untrue.
    let mut wrong = right.clone();
    wrong.quotients[0] = -3;
    wrong.remainders[0] = 2;
    assert_eq!(
        full_check(&three_inner, &wrong.ticket(&three_inner)),
        answer(16, 0, 0, 3)
    );
    wrong.remainders[0] = -2;
    assert_eq!(full_check(&three_inner, &wrong.ticket(&three_inner)), refused(9, 11));
}

#[test]
fn the_greatest_sums() {
    // 32767² = 1073676289 = 32767·32767, and 2^15·32767 is above it by one more
    // than α - 1 = 32766.
    let setting = Setting {
        rows: 1,
        inner: 1,
        columns: 1,
        scale: 32_767,
        bound: 32_767,
        width: 16,
        ..K
    };
    let parts = |b, quotient, remainder| Parts {
        a: vec![32_767],
        b: vec![b],
        quotients: vec![quotient],
        remainders: vec![remainder],
    };
    let check = |parts: Parts| full_check(&setting, &parts.ticket(&setting));
    assert_eq!(check(parts(32_767, 32_767, 0)), answer(0, 0, 0, 1));
    assert_eq!(check(parts(-32_767, -32_767, 0)), answer(0, 0, 0, 1));
    assert_eq!(check(parts(-32_767, -32_768, 32_766)), answer(16, 0, 0, 1));
    assert_eq!(check(parts(-32_768, -32_768, 0)), refused(7, 1));
    assert_eq!(check(parts(32_767, 32_768, 0)), refused(8, 2));
}

#[test]
fn every_number_at_its_greatest() {
    let setting = Setting::from([u32::MAX; 8]);
    assert_eq!(full_check(&setting, &[]), refused(1, 0));
    assert_eq!(full_check(&setting, &[0; 1000]), refused(1, 0));
    let within_sizes = Setting::from([32, 64, 32, 8, u32::MAX, u32::MAX, u32::MAX, u32::MAX]);
    assert_eq!(full_check(&within_sizes, &[]), refused(2, 0));
    for (index, number) in [1, 1, 1, 1, 2, 2, 2, 19].into_iter().enumerate() {
        let mut numbers = K.numbers();
        numbers[index] = u32::MAX;
        assert_eq!(full_check(&Setting::from(numbers), &[]), refused(number, 0));
    }
}

/// With the vectors (1, 0) and (0, 1) the challenge check compares every column
/// on its own, so the two checks accept the same tickets.
#[test]
fn the_challenge_check_with_units_accepts_the_same() {
    let setting = Setting { vectors: 2, ..K };
    let units = [1, 0, 0, 1];
    for pick in 0..3_usize.pow(4) {
        let steps = [1, 3, 9, 27].map(|unit| pick / unit % 3);
        let quotients = [0, 1, 2, 3].map(|place| QUOTIENTS[place] + steps[place] as i64);
        let ticket = with_claims(quotients, REMAINDERS);
        let expected = match steps.iter().position(|&step| step > 0) {
            Some(place) => answer(16, place as u32, 0, 2 * (place as u32 + 1)),
            None => answer(0, 0, 0, 8),
        };
        assert_eq!(full_check(&setting, &ticket), expected);
        let by_units = challenge_check(&setting, &ticket, &units).number;
        assert_eq!(by_units, if expected.number == 0 { 0 } else { 12 });
    }
}
