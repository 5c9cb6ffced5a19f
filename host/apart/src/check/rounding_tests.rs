//! The challenge check with a rounding number: the examples under K with o = 5,
//! worked out by hand, the number 19, then what they leave out: every other o,
//! the order of the tests, the fit at its edge, the products, a bias beside o,
//! and a second way to find the answer.

use super::*;
use crate::examples::{
    with_bias_and_claims, with_claims, A, B, BIAS_TICKET, K, K_WITH_BIAS, K_WITH_BIAS_AND_ROUNDING, K_WITH_ROUNDING,
    ROUNDED_BIAS, ROUNDED_BIAS_TICKET, ROUNDED_TICKET, TICKET,
};
use crate::make::{bias_ticket_length, sums, ticket_length, true_bias_ticket, true_ticket, BiasParts, Parts};

const P32: u32 = 2_147_483_647;
const QUOTIENTS: [i64; 4] = [-2, 3, 2, 0];
const REMAINDERS: [i64; 4] = [8, 9, 8, 3];

fn answer(number: u32, place: u32, row: u32, products: u32) -> Answer {
    Answer::from([number, place, row, products])
}

fn refused(number: u32, place: u32) -> Answer {
    answer(number, place, 0, 0)
}

/// The answer to a ticket of K with o = 5 and X = (1, 2).
fn check(ticket: &[u8]) -> Answer {
    challenge_check(&K_WITH_ROUNDING, ticket, &[1, 2])
}

/// The answer to a setting alone: no bytes, no list. One that fits gives 4.
fn check_setting(setting: Setting) -> Answer {
    challenge_check(&setting, &[], &[])
}

/// The same in the call for bias tickets.
fn check_bias_setting(setting: Setting, bias_bound: u32) -> Answer {
    bias_challenge_check(&BiasSetting { setting, bias_bound }, &[], &[])
}

#[test]
fn the_numbers_of_a_setting() {
    let setting = Setting::from([1, 2, 3, 4, 5, 6, 7, 8]);
    assert_eq!([setting.width, setting.rounding], [7, 8]);
    assert_eq!(setting.numbers(), [1, 2, 3, 4, 5, 6, 7, 8]);
    assert_eq!(Setting::from([2, 2, 2, 1, 10, 8, 5, 5]), K_WITH_ROUNDING);
    // Seven numbers, and o = 0.
    assert_eq!(Setting::from([2, 2, 2, 1, 10, 8, 5]), K);
    assert_eq!(Setting::from([1, 2, 3, 4, 5, 6, 7]).numbers(), [1, 2, 3, 4, 5, 6, 7, 0]);
    // o before W.
    assert_eq!(
        BiasSetting::from([2, 2, 2, 1, 10, 8, 5, 5, 18]),
        K_WITH_BIAS_AND_ROUNDING
    );
    assert_eq!(K_WITH_BIAS_AND_ROUNDING.numbers(), [2, 2, 2, 1, 10, 8, 5, 5, 18]);
}

#[test]
fn the_sums_and_the_claims() {
    // -17 + 5 = 10·(-2) + 8, 34 + 5 = 10·3 + 9, 23 + 5 = 10·2 + 8 and -2 + 5 = 3.
    let parts = Parts::true_ones(&K_WITH_ROUNDING, &A, &B);
    assert_eq!(parts.quotients, QUOTIENTS);
    assert_eq!(parts.remainders, REMAINDERS);
    assert_eq!(true_ticket(&K_WITH_ROUNDING, &A, &B), ROUNDED_TICKET);
    assert_eq!(with_claims(QUOTIENTS, REMAINDERS), ROUNDED_TICKET);
    // S itself knows no o.
    assert_eq!(sums(&K_WITH_ROUNDING, &A, &B), [-17, 34, 23, -2]);
}

#[test]
fn the_true_ticket() {
    let Ok(ticket) = ticket::read(&Terms::from(&K_WITH_ROUNDING), &ROUNDED_TICKET) else {
        panic!("the ticket is not read");
    };
    // αq + r - o is S, so both sides are those of example c: 51 and 19.
    let claims: Vec<i128> = ticket.claims.entries().collect();
    assert_eq!(claims, [-17, 34, 23, -2]);
    let x = [1, 2];
    assert_eq!(ticket.a.times(&ticket.b.times(&x)), [51, 19]);
    assert_eq!(ticket.claims.times(&x), [51, 19]);
    assert_eq!(check(&ROUNDED_TICKET), answer(0, 0, 0, 12));
    for list in [[1, 0], [0, 1], [P32 - 1, 7], [P32 - 1, P32 - 1]] {
        assert_eq!(
            challenge_check(&K_WITH_ROUNDING, &ROUNDED_TICKET, &list),
            answer(0, 0, 0, 12)
        );
    }
    assert_eq!(
        challenge_check(&K_WITH_ROUNDING, &ROUNDED_TICKET, &[0, 0]),
        refused(21, 0)
    );
}

#[test]
fn true_with_o_and_false_without_and_the_reverse() {
    assert_eq!(challenge_check(&K, &ROUNDED_TICKET, &[1, 2]), answer(12, 0, 0, 8));
    assert_eq!(challenge_check(&K, &TICKET, &[1, 2]), answer(0, 0, 0, 12));
    assert_eq!(check(&TICKET), answer(12, 0, 0, 8));
    // Each column is out by the same 5, so X = (1, -1) accepts, (1, 0) and (0, 1)
    // don't.
    for (setting, ticket) in [(K, ROUNDED_TICKET), (K_WITH_ROUNDING, TICKET)] {
        let answer_to = |list| challenge_check(&setting, &ticket, list);
        assert_eq!(answer_to(&[1, P32 - 1]), answer(0, 0, 0, 12));
        assert_eq!(answer_to(&[1, 0]), answer(12, 0, 0, 8));
        assert_eq!(answer_to(&[0, 1]), answer(12, 0, 0, 8));
    }
}

#[test]
fn every_o_below_the_scale_accepts_its_own_ticket_alone() {
    for o in 0..10 {
        let ticket = true_ticket(&Setting { rounding: o, ..K }, &A, &B);
        for rounding in 0..10 {
            let expected = if rounding == o {
                answer(0, 0, 0, 12)
            } else {
                answer(12, 0, 0, 8)
            };
            assert_eq!(challenge_check(&Setting { rounding, ..K }, &ticket, &[1, 2]), expected);
        }
    }
}

#[test]
fn o_taken_away_or_added_to_one_of_the_two() {
    // The claims with S - 5: -22, 29, 18, -7.
    let taken_away = with_claims([-3, 2, 1, -1], [8, 9, 8, 3]);
    assert_eq!(check(&taken_away), answer(12, 0, 0, 8));
    // The quotients of S + 5 with the remainders of S, and the reverse.
    assert_eq!(check(&with_claims(QUOTIENTS, [3, 4, 3, 8])), answer(12, 0, 0, 8));
    assert_eq!(check(&with_claims([-2, 3, 2, -1], REMAINDERS)), answer(12, 0, 1, 12));
    // A remainder of S - αq, which is -2 for the last: out of range.
    assert_eq!(check(&with_claims(QUOTIENTS, [3, 4, 3, -2])), refused(9, 15));
}

#[test]
fn the_ranges_know_no_o() {
    // The sums balance: 10·(-3) + 18 - 5 = -17 and 10·(-1) - 2 - 5 = -17.
    assert_eq!(check(&with_claims([-3, 3, 2, 0], [18, 9, 8, 3])), refused(9, 12));
    assert_eq!(check(&with_claims([-1, 3, 2, 0], [-2, 9, 8, 3])), refused(9, 12));
    assert_eq!(check(&with_claims(QUOTIENTS, [10, 9, 8, 3])), refused(9, 12));
    assert_eq!(check(&with_claims([-17, 3, 2, 0], REMAINDERS)), refused(8, 8));
    assert_eq!(check(&with_claims([16, 3, 2, 0], REMAINDERS)), refused(8, 8));
    // Within the range, and then caught.
    assert_eq!(check(&with_claims([-16, 3, 2, 0], REMAINDERS)), answer(12, 0, 0, 8));
    assert_eq!(check(&with_claims([15, 3, 2, 0], [9, 9, 8, 3])), answer(12, 0, 0, 8));
}

#[test]
fn the_length_knows_no_o() {
    for rounding in [0, 5, u32::MAX] {
        assert_eq!(ticket_length(&Setting { rounding, ..K }), 128);
        let setting = Setting { rounding, ..K };
        let setting = BiasSetting { setting, ..K_WITH_BIAS };
        assert_eq!(bias_ticket_length(&setting), 160);
    }
}

#[test]
fn caught_in_a_later_vector_and_row() {
    let setting = Setting {
        vectors: 3,
        ..K_WITH_ROUNDING
    };
    let ticket = with_claims([-2, 3, 2, 1], REMAINDERS);
    // Column 1 of the first two vectors is 0. The products are those without o.
    let answer_to = |list| challenge_check(&setting, &ticket, list);
    assert_eq!(answer_to(&[1, 0, 2, 0, 3, 4]), answer(12, 2, 1, 2 * 12 + 4 + 2 * 4));
    assert_eq!(answer_to(&[1, 0, 2, 0, 3, 0]), answer(0, 0, 0, 36));
    assert_eq!(answer_to(&[0, 1, 2, 0, 3, 0]), answer(12, 0, 1, 12));
}

#[test]
fn number_19() {
    for rounding in [0, 1, 5, 9] {
        assert_eq!(check_setting(Setting { rounding, ..K }), refused(4, 0));
        assert_eq!(check_bias_setting(Setting { rounding, ..K }, 14), refused(4, 0));
    }
    for rounding in [10, 11, 65_535, 65_536, P32, 1 << 31, u32::MAX - 9, u32::MAX] {
        let setting = Setting { rounding, ..K };
        assert_eq!(check_setting(setting), refused(19, 0));
        assert_eq!(challenge_check(&setting, &ROUNDED_TICKET, &[1, 2]), refused(19, 0));
        assert_eq!(check_bias_setting(setting, 0), refused(19, 0));
    }
    // The least and the greatest scale.
    for scale in [2, 65_536] {
        let setting = Setting {
            inner: 1,
            scale,
            bound: 1,
            width: 14,
            ..K
        };
        let number = |rounding| check_setting(Setting { rounding, ..setting }).number;
        assert_eq!([0, 1, scale / 2, scale - 1].map(number), [4; 4]);
        assert_eq!([scale, scale + 1, u32::MAX].map(number), [19; 3]);
    }
}

#[test]
fn number_19_stands_after_2_and_17_and_before_3() {
    for rounding in [10, u32::MAX] {
        let wrong = Setting { rounding, ..K };
        assert_eq!(check_setting(Setting { columns: 33, ..wrong }), refused(1, 0));
        // 0 and 1 are no scales, and nothing or little is below them.
        assert_eq!(check_setting(Setting { scale: 0, ..wrong }), refused(2, 0));
        assert_eq!(check_setting(Setting { scale: 1, ..wrong }), refused(2, 0));
        assert_eq!(check_setting(Setting { bound: 0, ..wrong }), refused(2, 0));
        assert_eq!(check_setting(Setting { width: 31, ..wrong }), refused(2, 0));
        assert_eq!(check_setting(Setting { width: 4, ..wrong }), refused(19, 0));
        assert_eq!(check_setting(Setting { bound: 32_767, ..wrong }), refused(19, 0));

        assert_eq!(
            check_bias_setting(Setting { vectors: 9, ..wrong }, u32::MAX),
            refused(1, 0)
        );
        assert_eq!(
            check_bias_setting(Setting { scale: 1, ..wrong }, u32::MAX),
            refused(2, 0)
        );
        assert_eq!(check_bias_setting(wrong, u32::MAX), refused(17, 0));
        assert_eq!(check_bias_setting(wrong, (1 << 30) + 1), refused(17, 0));
        assert_eq!(check_bias_setting(wrong, 1 << 30), refused(19, 0));
        assert_eq!(check_bias_setting(Setting { width: 4, ..wrong }, 23), refused(19, 0));
    }
    let below = Setting { rounding: 9, ..K };
    assert_eq!(check_setting(Setting { width: 4, ..below }), refused(3, 0));
    assert_eq!(check_bias_setting(below, 1 << 30), refused(3, 0));
}

#[test]
fn the_edge_of_fitting() {
    // For v = 2 the first condition is m·T² + o - 1 ≤ α, and m·T² is 128.
    let number = |scale, rounding| {
        let setting = Setting { scale, width: 2, ..K };
        check_setting(Setting { rounding, ..setting }).number
    };
    assert_eq!([0, 1].map(|o| number(127, o)), [4, 3]);
    assert_eq!([0, 1, 2].map(|o| number(128, o)), [4, 4, 3]);
    assert_eq!([63, 64, 65, 189, 190].map(|o| number(190, o)), [4, 3, 3, 3, 19]);
    // α = 65536 and v = 14: 23169² + 2816 + 65535 = 536870912 = 2^13·65536.
    let widest = Setting {
        inner: 1,
        scale: 65_536,
        bound: 23_169,
        width: 14,
        ..K
    };
    let number = |rounding| check_setting(Setting { rounding, ..widest }).number;
    assert_eq!([0, 2815, 2816, 2817, 65_535].map(number), [4, 4, 4, 3, 3]);
}

#[test]
fn the_edge_of_fitting_with_the_greatest_o() {
    // For v = 2 and o = α - 1 the first condition is m·T² ≤ 2.
    for scale in [2, 3, 10, 65_536] {
        let two = Setting {
            scale,
            bound: 1,
            width: 2,
            rounding: scale - 1,
            ..K
        };
        assert_eq!(check_setting(two), refused(4, 0));
        let three = Setting { inner: 3, ..two };
        assert_eq!(check_setting(three), refused(3, 0));
        let less = Setting {
            rounding: scale - 2,
            ..three
        };
        assert_eq!(check_setting(less), refused(4, 0));
    }
    // For v = 1 it is m·T² + o ≤ 1.
    let narrowest = Setting {
        inner: 1,
        bound: 1,
        width: 1,
        ..K
    };
    assert_eq!(check_setting(narrowest), refused(4, 0));
    assert_eq!(
        check_setting(Setting {
            rounding: 1,
            ..narrowest
        }),
        refused(3, 0)
    );
}

#[test]
fn the_edge_of_fitting_with_a_bias() {
    // 2·64 + W + o + 9 ≤ 160.
    let number = |(rounding, bias_bound)| check_bias_setting(Setting { rounding, ..K }, bias_bound).number;
    assert_eq!([(0, 23), (1, 22), (5, 18), (9, 14)].map(number), [4; 4]);
    assert_eq!([(0, 24), (1, 23), (5, 19), (6, 18), (9, 15)].map(number), [3; 5]);
}

#[test]
fn the_second_condition_knows_no_o() {
    // 2^15·65535 = 2147450880 is below p by 32767.
    let setting = Setting {
        scale: 65_535,
        width: 15,
        rounding: 65_534,
        ..K
    };
    assert_eq!(check_setting(setting), refused(4, 0));
    assert_eq!(check_setting(Setting { width: 16, ..setting }), refused(3, 0));
}

#[test]
fn the_greatest_o() {
    // With o = 65535, S = 1, 0 and -1 become 65536, 65535 and 65534. They fit: 1
    // + 65535 + 65535 is below 2^13·65536.
    let setting = Setting::from([1, 1, 1, 1, 65_536, 1, 14, 65_535]);
    let answer_to = |a, quotient, remainder| {
        let parts = Parts {
            a: vec![a],
            b: vec![1],
            quotients: vec![quotient],
            remainders: vec![remainder],
        };
        challenge_check(&setting, &parts.ticket(&setting), &[P32 - 1])
    };
    assert_eq!(answer_to(1, 1, 0), answer(0, 0, 0, 3));
    assert_eq!(answer_to(0, 0, 65_535), answer(0, 0, 0, 3));
    assert_eq!(answer_to(-1, 0, 65_534), answer(0, 0, 0, 3));
    assert_eq!(answer_to(1, 0, 65_535), answer(12, 0, 0, 3));
    assert_eq!(answer_to(-1, -1, 65_535), answer(12, 0, 0, 3));
    // -2^29 - 65535, the least that a claim can be.
    assert_eq!(answer_to(-1, -8192, 0), answer(12, 0, 0, 3));
}

#[test]
fn a_bias_beside_o() {
    let check = |ticket: &[u8]| bias_challenge_check(&K_WITH_BIAS_AND_ROUNDING, ticket, &[1, 2]);
    let parts = BiasParts::true_ones(&K_WITH_BIAS_AND_ROUNDING, &A, &B, &ROUNDED_BIAS);
    assert_eq!(parts.parts.quotients, [-2, 5, 1, 0]);
    assert_eq!(parts.parts.remainders, [4, 7, 0, 8]);
    assert_eq!(parts.ticket(&K_WITH_BIAS_AND_ROUNDING), ROUNDED_BIAS_TICKET);
    assert_eq!(check(&ROUNDED_BIAS_TICKET), answer(0, 0, 0, 16));
    // Without o it is false: every claim is 5 more than S + c.
    assert_eq!(
        bias_challenge_check(&K_WITH_BIAS, &ROUNDED_BIAS_TICKET, &[1, 2]),
        answer(12, 0, 0, 10)
    );
    // And the reverse: S + c = -21, 52, 5, 3 without o.
    let without = with_bias_and_claims(ROUNDED_BIAS, [-3, 5, 0, 0], [9, 2, 5, 3]);
    assert_eq!(
        bias_challenge_check(&K_WITH_BIAS, &without, &[1, 2]),
        answer(0, 0, 0, 16)
    );
    assert_eq!(check(&without), answer(12, 0, 0, 10));
    // The bias left out: S + 5.
    let left_out = with_bias_and_claims(ROUNDED_BIAS, QUOTIENTS, REMAINDERS);
    assert_eq!(check(&left_out), answer(12, 0, 0, 10));
    let of_zeros = with_bias_and_claims([0; 4], QUOTIENTS, REMAINDERS);
    assert_eq!(check(&of_zeros), answer(0, 0, 0, 16));
    // The range of the bias knows no o: 23 of the other ticket is beyond 18.
    assert_eq!(check(&BIAS_TICKET), refused(18, 9));
    // False in the last place only.
    let ticket = with_bias_and_claims(ROUNDED_BIAS, [-2, 5, 1, 0], [4, 7, 0, 9]);
    assert_eq!(check(&ticket), answer(12, 0, 1, 16));
}

#[test]
fn every_number_at_its_greatest() {
    let answer_to = |numbers: [u32; 8]| check_setting(Setting::from(numbers));
    assert_eq!(answer_to([u32::MAX; 8]), refused(1, 0));
    let max = u32::MAX;
    assert_eq!(answer_to([32, 64, 32, 8, max, max, max, max]), refused(2, 0));
    // Within every limit.
    assert_eq!(answer_to([32, 64, 32, 8, 65_536, 32_767, 30, max]), refused(19, 0));
    assert_eq!(answer_to([32, 64, 32, 8, 65_536, 32_767, 30, 65_535]), refused(3, 0));
    for (index, number) in [1, 1, 1, 1, 2, 2, 2, 19].into_iter().enumerate() {
        let mut numbers = K_WITH_ROUNDING.numbers();
        numbers[index] = max;
        assert_eq!(answer_to(numbers), refused(number, 0));
    }
}

#[test]
fn the_greatest_sums_with_a_bias_beside_o() {
    for o in 1..10 {
        // S = 128 and c = W, or S = -128 and c = -W, at the edge of fitting.
        let w = 23 - i64::from(o);
        let of = |rounding| BiasSetting {
            setting: Setting { rounding, ..K },
            bias_bound: 23 - o,
        };
        let ticket = true_bias_ticket(&of(o), &[8; 4], &[8, -8, 8, -8], &[w, -w, w, -w]);
        assert_eq!(bias_challenge_check(&of(o), &ticket, &[1, 2]), answer(0, 0, 0, 16));
        assert_eq!(bias_challenge_check(&of(o - 1), &ticket, &[1, 2]), answer(12, 0, 0, 10));
    }
}

/// Row i is caught exactly when the sum over j of (αq + r - o - S)·X(j) is not 0
/// modulo p, so the exact sums give every answer a second way, but for lists
/// with a vector of zeros, which are refused. With a bias of 0 the answers are
/// the same, but for n more products in each row.
#[test]
fn the_exact_sums_give_the_same_answers() {
    let numbers = [0, 1, 2, P32 - 1];
    for o in [0, 1, 4, 5, 9] {
        let setting = Setting {
            vectors: 2,
            rounding: o,
            ..K
        };
        let with_bias = BiasSetting { setting, bias_bound: 0 };
        for other in [0, 5, 9] {
            let mut parts = Parts::true_ones(&Setting { rounding: other, ..K }, &A, &B);
            parts.quotients[other as usize % 4] += 1;
            let differences: Vec<i128> = (0..4)
                .map(|k| i128::from(10 * parts.quotients[k] + parts.remainders[k] - i64::from(o)))
                .zip(sums(&setting, &A, &B))
                .map(|(claim, sum)| claim - sum)
                .collect();
            let ticket = parts.ticket(&setting);
            let bias_ticket = BiasParts {
                parts,
                bias: vec![0; 4],
            }
            .ticket(&with_bias);
            for pick in 0..4_usize.pow(4) {
                let list = [1, 4, 16, 64].map(|unit| numbers[pick / unit % 4]);
                let of_zeros = list.chunks(2).position(|x| x == [0, 0]);
                let unequal = (0..4).map(|step| (step / 2, step % 2)).find(|&(t, i)| {
                    let of_column = |j: usize| differences[2 * i + j] * i128::from(list[2 * t + j]);
                    (of_column(0) + of_column(1)) % P != 0
                });
                let second_way = |of_vector, of_row| match (of_zeros, unequal) {
                    (Some(t), _) => refused(21, t as u32),
                    (None, Some((t, i))) => answer(
                        12,
                        t as u32,
                        i as u32,
                        t as u32 * of_vector + 4 + (i as u32 + 1) * of_row,
                    ),
                    (None, None) => answer(0, 0, 0, 2 * of_vector),
                };
                assert_eq!(challenge_check(&setting, &ticket, &list), second_way(12, 4));
                assert_eq!(bias_challenge_check(&with_bias, &bias_ticket, &list), second_way(16, 6));
            }
        }
    }
}
