//! The full check of bias tickets: the examples under K with a bias, worked out
//! by hand, the numbers 17 and 18, then what they leave out: every place of an
//! untrue claim, the order of the tests, the ends of the ranges, tickets of the
//! other form, and a second way to find the answer.

use super::*;
use crate::bias_challenge_check;
use crate::examples::{with_bias_and_claims, A, B, BIAS, BIAS_TICKET, K, K_WITH_BIAS, TICKET};
use crate::make::{residue, true_bias_ticket, true_ticket, BiasParts, Parts};

const QUOTIENTS: [i64; 4] = [-3, 5, 0, 0];
const REMAINDERS: [i64; 4] = [9, 7, 0, 3];

fn answer(number: u32, place: u32, row: u32, products: u32) -> Answer {
    Answer::from([number, place, row, products])
}

fn refused(number: u32, place: u32) -> Answer {
    answer(number, place, 0, 0)
}

fn check(ticket: &[u8]) -> Answer {
    bias_full_check(&K_WITH_BIAS, ticket)
}

/// The answer to a setting alone: no bytes. One that fits gives 4.
fn check_setting(setting: Setting, bias_bound: u32) -> Answer {
    bias_full_check(&BiasSetting { setting, bias_bound }, &[])
}

/// The true ticket with another value in one record.
fn with_value(index: usize, value: u32) -> Vec<u8> {
    let mut ticket = BIAS_TICKET.to_vec();
    ticket[8 * index + 4..8 * index + 8].copy_from_slice(&value.to_le_bytes());
    ticket
}

#[test]
fn the_true_ticket() {
    // ℓmn = 8, as without a bias.
    assert_eq!(check(&BIAS_TICKET), answer(0, 0, 0, 8));
    assert_eq!(
        check(&true_bias_ticket(&K_WITH_BIAS, &A, &B, &BIAS)),
        answer(0, 0, 0, 8)
    );
    assert_eq!(
        check(&with_bias_and_claims(BIAS, QUOTIENTS, REMAINDERS)),
        answer(0, 0, 0, 8)
    );
}

#[test]
fn false_only_through_the_bias_in_the_last_column() {
    let ticket = with_bias_and_claims([-4, 23, -23, 6], QUOTIENTS, REMAINDERS);
    assert_eq!(check(&ticket), answer(16, 3, 0, 8));
    let ticket = with_bias_and_claims([-4, 22, -23, 5], QUOTIENTS, REMAINDERS);
    assert_eq!(check(&ticket), answer(16, 1, 0, 4));
}

#[test]
fn an_untrue_claim_in_every_place() {
    for place in 0..4 {
        let expected = answer(16, place as u32, 0, 2 * (place as u32 + 1));
        for step in [-1, 1] {
            let mut quotients = QUOTIENTS;
            quotients[place] += step;
            assert_eq!(check(&with_bias_and_claims(BIAS, quotients, REMAINDERS)), expected);
        }
        // One nearer to 0, and so within the range.
        let mut bias = BIAS;
        bias[place] -= bias[place].signum();
        assert_eq!(check(&with_bias_and_claims(bias, QUOTIENTS, REMAINDERS)), expected);
    }
}

#[test]
fn the_first_untrue_claim_decides() {
    assert_eq!(
        check(&with_bias_and_claims([-4, 22, -22, 4], QUOTIENTS, REMAINDERS)),
        answer(16, 1, 0, 4)
    );
    assert_eq!(
        check(&with_bias_and_claims([-4, 23, -22, 4], QUOTIENTS, REMAINDERS)),
        answer(16, 2, 0, 6)
    );
}

#[test]
fn the_bias_left_out_or_taken_away() {
    // The claims of the plain ticket, and those with S - c: -13, 11, 46, -7.
    let left_out = with_bias_and_claims(BIAS, [-2, 3, 2, -1], [3, 4, 3, 8]);
    assert_eq!(check(&left_out), answer(16, 0, 0, 2));
    let taken_away = with_bias_and_claims(BIAS, [-2, 1, 4, -1], [7, 1, 6, 3]);
    assert_eq!(check(&taken_away), answer(16, 0, 0, 2));
    let of_zeros = with_bias_and_claims([0; 4], [-2, 3, 2, -1], [3, 4, 3, 8]);
    assert_eq!(check(&of_zeros), answer(0, 0, 0, 8));
}

#[test]
fn rounding_towards_zero_is_out_of_range_or_untrue() {
    // -21 = 10·(-2) - 1.
    let ticket = with_bias_and_claims(BIAS, [-2, 5, 0, 0], [-1, 7, 0, 3]);
    assert_eq!(check(&ticket), refused(9, 16));
    let ticket = with_bias_and_claims(BIAS, [-2, 5, 0, 0], [1, 7, 0, 3]);
    assert_eq!(check(&ticket), answer(16, 0, 0, 2));
    // 10·(-4) + 19 = -21.
    let ticket = with_bias_and_claims(BIAS, [-4, 5, 0, 0], [19, 7, 0, 3]);
    assert_eq!(check(&ticket), refused(9, 16));
}

#[test]
fn the_quotients_at_the_ends_of_their_range() {
    // S = 128 and c = 23 make 151 = 10·15 + 1; S = -128 and c = -23 make -151 =
    // 10·(-16) + 9. 15 and -16 are the ends of the range.
    let ends = BiasParts::true_ones(&K_WITH_BIAS, &[8; 4], &[8, -8, 8, -8], &[23, -23, 23, -23]);
    assert_eq!(ends.parts.quotients, [15, -16, 15, -16]);
    assert_eq!(ends.parts.remainders, [1, 9, 1, 9]);
    assert_eq!(check(&ends.ticket(&K_WITH_BIAS)), answer(0, 0, 0, 8));
}

#[test]
fn number_17() {
    for beyond in [(1 << 30) + 1, 1 << 31, u32::MAX] {
        assert_eq!(check_setting(K, beyond), refused(17, 0));
        assert_eq!(check_setting(Setting { rows: 0, ..K }, beyond), refused(1, 0));
        assert_eq!(check_setting(Setting { scale: 1, ..K }, beyond), refused(2, 0));
        assert_eq!(check_setting(Setting { width: 4, ..K }, beyond), refused(17, 0));
    }
}

#[test]
fn the_edge_of_fitting() {
    assert_eq!(check_setting(K, 23), refused(4, 0));
    assert_eq!(check_setting(K, 24), refused(3, 0));
    assert_eq!(check_setting(K, 1 << 30), refused(3, 0));
    assert_eq!(check_setting(Setting { width: 4, ..K }, 0), refused(3, 0));
}

#[test]
fn number_18() {
    for index in 8..12 {
        for beyond in [24, -24, 1_073_741_823, -1_073_741_823] {
            assert_eq!(check(&with_value(index, residue(beyond))), refused(18, index as u32));
        }
    }
    // Both ends pass the range, and then the claim is untrue.
    assert_eq!(check(&with_value(8, 23)), answer(16, 0, 0, 2));
    assert_eq!(check(&with_value(8, residue(-23))), answer(16, 0, 0, 2));
}

#[test]
fn the_former_numbers_in_this_call() {
    assert_eq!(check(&[]), refused(4, 0));
    assert_eq!(check(&[0; 168]), refused(4, 0));
    let mut kind_of_quotients = BIAS_TICKET;
    kind_of_quotients[8 * 8] = 3;
    assert_eq!(check(&kind_of_quotients), refused(5, 8));
    assert_eq!(check(&with_value(8, 2_147_483_647)), refused(6, 8));
    assert_eq!(check(&with_value(0, residue(-9))), refused(7, 0));
    assert_eq!(check(&with_value(12, 16)), refused(8, 12));
    assert_eq!(check(&with_value(16, 10)), refused(9, 16));
}

#[test]
fn every_record_is_read_before_a_claim_is_compared() {
    // The claim at place 0 is untrue, and a later record is out of range.
    let ticket = with_bias_and_claims([-4, 23, -23, 24], [-1, 5, 0, 0], REMAINDERS);
    assert_eq!(check(&ticket), refused(18, 11));
    let ticket = with_bias_and_claims([-3, 23, -23, 5], QUOTIENTS, [9, 7, 0, 10]);
    assert_eq!(check(&ticket), refused(9, 19));
}

#[test]
fn tickets_of_the_other_form() {
    assert_eq!(check(&TICKET), refused(4, 0));
    assert_eq!(full_check(&K, &BIAS_TICKET), refused(4, 0));
    // ℓ = n = 2: m = 2 with a bias and m = 3 without have 20 records each, and
    // record 2 is in row 1, column 0 or in row 0, column 2.
    let plain = Setting {
        inner: 3,
        width: 6,
        ..K
    };
    let ticket = true_ticket(&plain, &[1; 6], &[1; 6]);
    assert_eq!(ticket.len(), BIAS_TICKET.len());
    assert_eq!(full_check(&plain, &ticket), answer(0, 0, 0, 12));
    assert_eq!(check(&ticket), refused(5, 2));
    assert_eq!(full_check(&plain, &BIAS_TICKET), refused(5, 2));
}

#[test]
fn sizes_that_differ() {
    // A = (1, -2, 3), B = (4, -5), (6, 7), (-8, 1) and the bias (-100, 110): S +
    // c = -132 and 94. For v = 6 they fit: 3·64 + 119 + 9 = 320 = 32·10.
    let setting = BiasSetting::from([1, 3, 2, 1, 10, 8, 6, 0, 119]);
    let right = BiasParts {
        parts: Parts {
            a: vec![1, -2, 3],
            b: vec![4, -5, 6, 7, -8, 1],
            quotients: vec![-14, 9],
            remainders: vec![8, 4],
        },
        bias: vec![-100, 110],
    };
    let answer_to = |parts: &BiasParts| bias_full_check(&setting, &parts.ticket(&setting));
    assert_eq!(answer_to(&right), answer(0, 0, 0, 6));
    let mut wrong = right.clone();
    wrong.bias[1] = 111;
    assert_eq!(answer_to(&wrong), answer(16, 1, 0, 6));
    wrong.bias[0] = -99;
    assert_eq!(answer_to(&wrong), answer(16, 0, 0, 3));
    // 3 of A and 6 of B stand before the bias.
    wrong.bias[1] = 120;
    assert_eq!(answer_to(&wrong), refused(18, 10));
}

#[test]
fn every_number_at_its_greatest() {
    let answer_to = |numbers| bias_full_check(&BiasSetting::from(numbers), &[]);
    assert_eq!(answer_to([u32::MAX; 9]), refused(1, 0));
    for (index, number) in [1, 1, 1, 1, 2, 2, 2, 19, 17].into_iter().enumerate() {
        let mut numbers = K_WITH_BIAS.numbers();
        numbers[index] = u32::MAX;
        assert_eq!(answer_to(numbers), refused(number, 0));
    }
}

/// With the vectors (1, 0) and (0, 1) the challenge check compares every column
/// on its own, so the two checks accept the same tickets.
#[test]
fn the_challenge_check_with_units_accepts_the_same() {
    let setting = BiasSetting {
        setting: Setting { vectors: 2, ..K },
        ..K_WITH_BIAS
    };
    let units = [1, 0, 0, 1];
    for pick in 0..3_usize.pow(4) {
        let steps = [1, 3, 9, 27].map(|unit| pick / unit % 3);
        let bias = [0, 1, 2, 3].map(|place| BIAS[place] - BIAS[place].signum() * steps[place] as i64);
        let ticket = with_bias_and_claims(bias, QUOTIENTS, REMAINDERS);
        let expected = match steps.iter().position(|&step| step > 0) {
            Some(place) => answer(16, place as u32, 0, 2 * (place as u32 + 1)),
            None => answer(0, 0, 0, 8),
        };
        assert_eq!(bias_full_check(&setting, &ticket), expected);
        let by_units = bias_challenge_check(&setting, &ticket, &units).number;
        assert_eq!(by_units, if expected.number == 0 { 0 } else { 12 });
    }
}
