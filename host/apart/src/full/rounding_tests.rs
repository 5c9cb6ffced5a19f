//! The full check with a rounding number: the examples under K with o = 5,
//! worked out by hand, the number 19, then what they leave out: every other o,
//! every place of an untrue claim, the order of the tests, the fit at its edge, a
//! bias beside o, and two other ways to find the answer.

use super::*;
use crate::challenge_check;
use crate::examples::{
    with_bias_and_claims, with_claims, A, B, K, K_WITH_BIAS, K_WITH_BIAS_AND_ROUNDING, K_WITH_ROUNDING, ROUNDED_BIAS,
    ROUNDED_BIAS_TICKET, ROUNDED_TICKET, TICKET,
};
use crate::make::{true_ticket, BiasParts, Parts};

const QUOTIENTS: [i64; 4] = [-2, 3, 2, 0];
const REMAINDERS: [i64; 4] = [8, 9, 8, 3];

fn answer(number: u32, place: u32, row: u32, products: u32) -> Answer {
    Answer::from([number, place, row, products])
}

fn refused(number: u32, place: u32) -> Answer {
    answer(number, place, 0, 0)
}

/// The answer to a ticket of K with o = 5.
fn check(ticket: &[u8]) -> Answer {
    full_check(&K_WITH_ROUNDING, ticket)
}

/// The answer to a setting alone: no bytes. One that fits gives 4.
fn check_setting(setting: Setting) -> Answer {
    full_check(&setting, &[])
}

/// The same in the call for bias tickets.
fn check_bias_setting(setting: Setting, bias_bound: u32) -> Answer {
    bias_full_check(&BiasSetting { setting, bias_bound }, &[])
}

#[test]
fn the_true_ticket() {
    assert_eq!(check(&ROUNDED_TICKET), answer(0, 0, 0, 8));
    assert_eq!(check(&true_ticket(&K_WITH_ROUNDING, &A, &B)), answer(0, 0, 0, 8));
    assert_eq!(check(&with_claims(QUOTIENTS, REMAINDERS)), answer(0, 0, 0, 8));
}

#[test]
fn true_with_o_and_false_without_and_the_reverse() {
    assert_eq!(full_check(&K, &ROUNDED_TICKET), answer(16, 0, 0, 2));
    assert_eq!(full_check(&K, &TICKET), answer(0, 0, 0, 8));
    assert_eq!(check(&TICKET), answer(16, 0, 0, 2));
}

#[test]
fn every_o_below_the_scale_accepts_its_own_ticket_alone() {
    for o in 0..10 {
        let ticket = true_ticket(&Setting { rounding: o, ..K }, &A, &B);
        for rounding in 0..10 {
            let expected = if rounding == o {
                answer(0, 0, 0, 8)
            } else {
                answer(16, 0, 0, 2)
            };
            assert_eq!(full_check(&Setting { rounding, ..K }, &ticket), expected);
        }
    }
}

#[test]
fn an_untrue_claim_in_every_place() {
    for place in 0..4 {
        let expected = answer(16, place as u32, 0, 2 * (place as u32 + 1));
        for step in [-1, 1] {
            let mut quotients = QUOTIENTS;
            quotients[place] += step;
            assert_eq!(check(&with_claims(quotients, REMAINDERS)), expected);
        }
        let mut remainders = REMAINDERS;
        remainders[place] -= 1;
        assert_eq!(check(&with_claims(QUOTIENTS, remainders)), expected);
        // Without o in this place, with it in the others.
        let mut quotients = QUOTIENTS;
        let mut remainders = REMAINDERS;
        quotients[place] = [-2, 3, 2, -1][place];
        remainders[place] = [3, 4, 3, 8][place];
        assert_eq!(check(&with_claims(quotients, remainders)), expected);
    }
}

#[test]
fn o_taken_away_or_added_to_one_of_the_two() {
    // The claims with S - 5: -22, 29, 18, -7.
    let taken_away = with_claims([-3, 2, 1, -1], [8, 9, 8, 3]);
    assert_eq!(check(&taken_away), answer(16, 0, 0, 2));
    // The quotients of S + 5 with the remainders of S, and the reverse.
    assert_eq!(check(&with_claims(QUOTIENTS, [3, 4, 3, 8])), answer(16, 0, 0, 2));
    assert_eq!(check(&with_claims([-2, 3, 2, -1], REMAINDERS)), answer(16, 3, 0, 8));
    // The sums balance: 10·(-3) + 18 - 5 = -17 and 10·(-1) - 2 - 5 = -17.
    assert_eq!(check(&with_claims([-3, 3, 2, 0], [18, 9, 8, 3])), refused(9, 12));
    assert_eq!(check(&with_claims([-1, 3, 2, 0], [-2, 9, 8, 3])), refused(9, 12));
}

#[test]
fn one_sum_over_10_with_5_added() {
    // S = 5·b, and 25 + 5 = 10·3: halves are rounded up.
    let setting = Setting::from([1, 1, 1, 1, 10, 8, 5, 5]);
    let answer_to = |b, quotient, remainder| {
        let parts = Parts {
            a: vec![5],
            b: vec![b],
            quotients: vec![quotient],
            remainders: vec![remainder],
        };
        full_check(&setting, &parts.ticket(&setting)).number
    };
    assert_eq!(answer_to(5, 3, 0), 0);
    assert_eq!(answer_to(5, 2, 5), 16);
    assert_eq!(answer_to(-5, -2, 0), 0);
    assert_eq!(answer_to(-5, -3, 5), 16);
    assert_eq!(answer_to(-1, 0, 0), 0);
    assert_eq!(answer_to(-1, -1, 5), 16);
    assert_eq!(answer_to(0, 0, 5), 0);
    assert_eq!(answer_to(0, 0, 0), 16);
}

#[test]
fn number_19() {
    for rounding in [0, 1, 5, 9] {
        assert_eq!(check_setting(Setting { rounding, ..K }), refused(4, 0));
        assert_eq!(check_bias_setting(Setting { rounding, ..K }, 14), refused(4, 0));
    }
    for rounding in [10, 11, 65_536, 2_147_483_647, 1 << 31, u32::MAX] {
        let wrong = Setting { rounding, ..K };
        assert_eq!(check_setting(wrong), refused(19, 0));
        assert_eq!(full_check(&wrong, &ROUNDED_TICKET), refused(19, 0));
        assert_eq!(check_bias_setting(wrong, 23), refused(19, 0));
        // After 1, 2 and 17, and before 3.
        assert_eq!(check_setting(Setting { rows: 0, ..wrong }), refused(1, 0));
        assert_eq!(check_setting(Setting { scale: 1, ..wrong }), refused(2, 0));
        assert_eq!(check_setting(Setting { width: 4, ..wrong }), refused(19, 0));
        assert_eq!(
            check_bias_setting(Setting { scale: 1, ..wrong }, u32::MAX),
            refused(2, 0)
        );
        assert_eq!(check_bias_setting(wrong, (1 << 30) + 1), refused(17, 0));
        assert_eq!(check_bias_setting(wrong, 1 << 30), refused(19, 0));
    }
}

#[test]
fn the_edge_of_fitting() {
    // For v = 2 the first condition is m·T² + o - 1 ≤ α, and m·T² is 128.
    let number = |rounding| {
        let setting = Setting {
            scale: 190,
            width: 2,
            ..K
        };
        check_setting(Setting { rounding, ..setting }).number
    };
    assert_eq!([0, 62, 63, 64, 189, 190].map(number), [4, 4, 4, 3, 3, 19]);
    // 2·64 + W + o + 9 ≤ 160.
    let number = |(rounding, bias_bound)| check_bias_setting(Setting { rounding, ..K }, bias_bound).number;
    assert_eq!([(0, 23), (5, 18), (9, 14)].map(number), [4; 3]);
    assert_eq!([(0, 24), (5, 19), (6, 18), (9, 15)].map(number), [3; 4]);
}

#[test]
fn the_quotients_at_the_ends_of_their_range() {
    // v = 2, α = 190 and o = 63: S = 128 makes 191 = 190 + 1, and S = -128 makes
    // -65 = -190 + 125. 1 is the greatest quotient, and one more is out of range.
    let setting = Setting::from([1, 2, 2, 1, 190, 8, 2, 63]);
    let mut parts = Parts {
        a: vec![8, 8],
        b: vec![8, -8, 8, -8],
        quotients: vec![1, -1],
        remainders: vec![1, 125],
    };
    assert_eq!(parts, Parts::true_ones(&setting, &parts.a, &parts.b));
    assert_eq!(full_check(&setting, &parts.ticket(&setting)), answer(0, 0, 0, 4));
    parts.quotients[0] = 2;
    assert_eq!(full_check(&setting, &parts.ticket(&setting)), refused(8, 6));
    // With a bias: 128 + 18 + 5 = 10·15 + 1, and -128 - 18 + 5 = 10·(-15) + 9.
    let setting = K_WITH_BIAS_AND_ROUNDING;
    let ends = BiasParts::true_ones(&setting, &[8; 4], &[8, -8, 8, -8], &[18, -18, 18, -18]);
    assert_eq!(ends.parts.quotients, [15, -15, 15, -15]);
    assert_eq!(ends.parts.remainders, [1, 9, 1, 9]);
    assert_eq!(bias_full_check(&setting, &ends.ticket(&setting)), answer(0, 0, 0, 8));
}

#[test]
fn a_bias_beside_o() {
    let check = |ticket: &[u8]| bias_full_check(&K_WITH_BIAS_AND_ROUNDING, ticket);
    assert_eq!(check(&ROUNDED_BIAS_TICKET), answer(0, 0, 0, 8));
    assert_eq!(bias_full_check(&K_WITH_BIAS, &ROUNDED_BIAS_TICKET), answer(16, 0, 0, 2));
    // S + c = -21, 52, 5, 3 without o.
    let without = with_bias_and_claims(ROUNDED_BIAS, [-3, 5, 0, 0], [9, 2, 5, 3]);
    assert_eq!(bias_full_check(&K_WITH_BIAS, &without), answer(0, 0, 0, 8));
    assert_eq!(check(&without), answer(16, 0, 0, 2));
    // S + 5, the bias left out.
    let left_out = with_bias_and_claims(ROUNDED_BIAS, QUOTIENTS, REMAINDERS);
    assert_eq!(check(&left_out), answer(16, 0, 0, 2));
    let of_zeros = with_bias_and_claims([0; 4], QUOTIENTS, REMAINDERS);
    assert_eq!(check(&of_zeros), answer(0, 0, 0, 8));
    // False through the bias, or through the remainder, in the last place only.
    let ticket = with_bias_and_claims([-4, 18, -18, 4], [-2, 5, 1, 0], [4, 7, 0, 8]);
    assert_eq!(check(&ticket), answer(16, 3, 0, 8));
    let ticket = with_bias_and_claims(ROUNDED_BIAS, [-2, 5, 1, 0], [4, 7, 0, 7]);
    assert_eq!(check(&ticket), answer(16, 3, 0, 8));
}

#[test]
fn every_number_at_its_greatest() {
    let max = u32::MAX;
    let answer_to = |numbers: [u32; 8]| check_setting(Setting::from(numbers));
    assert_eq!(answer_to([32, 64, 32, 8, 65_536, 32_767, 30, max]), refused(19, 0));
    assert_eq!(answer_to([32, 64, 32, 8, 65_536, 32_767, 30, 65_535]), refused(3, 0));
    for (index, number) in [1, 1, 1, 1, 2, 2, 2, 19].into_iter().enumerate() {
        let mut numbers = K_WITH_ROUNDING.numbers();
        numbers[index] = max;
        assert_eq!(answer_to(numbers), refused(number, 0));
    }
}

/// A claim with o is true when the same claim with a bias of o is true without,
/// and the full check counts no products of a bias, so the answers are the same.
#[test]
fn a_bias_of_o_gives_the_same_answers() {
    for o in 0..10 {
        let with_rounding = Setting { rounding: o, ..K };
        let with_bias = BiasSetting {
            setting: K,
            bias_bound: o,
        };
        for pick in 0..3_usize.pow(4) {
            let steps = [1, 3, 9, 27].map(|unit| pick / unit % 3);
            let mut parts = Parts::true_ones(&with_rounding, &A, &B);
            for (quotient, step) in parts.quotients.iter_mut().zip(steps) {
                *quotient += step as i64;
            }
            let expected = match steps.iter().position(|&step| step > 0) {
                Some(place) => answer(16, place as u32, 0, 2 * (place as u32 + 1)),
                None => answer(0, 0, 0, 8),
            };
            assert_eq!(full_check(&with_rounding, &parts.ticket(&with_rounding)), expected);
            let of_bias = BiasParts {
                parts,
                bias: vec![i64::from(o); 4],
            };
            assert_eq!(bias_full_check(&with_bias, &of_bias.ticket(&with_bias)), expected);
        }
    }
}

/// With the vectors (1, 0) and (0, 1) the challenge check compares every column
/// on its own, so the two checks accept the same tickets.
#[test]
fn the_challenge_check_with_units_accepts_the_same() {
    let units = [1, 0, 0, 1];
    for rounding in 0..10 {
        let setting = Setting {
            vectors: 2,
            rounding,
            ..K
        };
        for o in 0..10 {
            for place in 0..4 {
                // The claims of one o in one place, and of 5 in the others.
                let mut parts = Parts::true_ones(&K_WITH_ROUNDING, &A, &B);
                let other = Parts::true_ones(&Setting { rounding: o, ..K }, &A, &B);
                parts.quotients[place] = other.quotients[place];
                parts.remainders[place] = other.remainders[place];
                let ticket = parts.ticket(&setting);
                let is_true = rounding == 5 && o == 5;
                let number = full_check(&setting, &ticket).number;
                assert_eq!(number, if is_true { 0 } else { 16 });
                let by_units = challenge_check(&setting, &ticket, &units).number;
                assert_eq!(by_units, if is_true { 0 } else { 12 });
            }
        }
    }
}
