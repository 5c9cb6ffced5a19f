//! The challenge check and a vector of zeros, in the calls for plain and for
//! bias tickets: the number 21, the zeros that are no such vector, the order of
//! the tests, false tickets, and a second way to find the answer.

use super::*;
use crate::examples::{with_bias_and_claims, with_claims, BIAS, BIAS_TICKET, K, K_WITH_BIAS, TICKET};
use crate::examples::{K_WITH_BIAS_AND_ROUNDING, K_WITH_ROUNDING, ROUNDED_BIAS_TICKET, ROUNDED_TICKET};
use crate::make::{true_bias_ticket, true_ticket, BiasParts, Parts};

const P32: u32 = 2_147_483_647;

fn answer(number: u32, place: u32, row: u32, products: u32) -> Answer {
    Answer::from([number, place, row, products])
}

fn refused(number: u32, place: u32) -> Answer {
    answer(number, place, 0, 0)
}

/// 21 for vector t, in the plain and in the bias call.
fn of_zeros(t: u32) -> [Answer; 2] {
    [refused(21, t); 2]
}

/// The answers to a plain and a bias ticket of K with s vectors and a list.
fn answers(plain: &[u8], bias: &[u8], vectors: u32, list: &[u32]) -> [Answer; 2] {
    let setting = Setting { vectors, ..K };
    let with_bias = BiasSetting { setting, ..K_WITH_BIAS };
    [
        challenge_check(&setting, plain, list),
        bias_challenge_check(&with_bias, bias, list),
    ]
}

/// The answers to the true tickets with these vectors.
fn of_true(vectors: &[[u32; 2]]) -> [Answer; 2] {
    answers(&TICKET, &BIAS_TICKET, vectors.len() as u32, &vectors.concat())
}

/// The answers to false ones, with 1 more in the first quotient as in case d.
fn of_false(vectors: &[[u32; 2]]) -> [Answer; 2] {
    let plain = with_claims([-1, 3, 2, -1], [3, 4, 3, 8]);
    let bias = with_bias_and_claims(BIAS, [-2, 5, 0, 0], [9, 7, 0, 3]);
    answers(&plain, &bias, vectors.len() as u32, &vectors.concat())
}

/// mn + ℓn + ℓm = 12 and mn + 2ℓn + ℓm = 16 in each vector.
fn accepted_with(vectors: u32) -> [Answer; 2] {
    [answer(0, 0, 0, 12 * vectors), answer(0, 0, 0, 16 * vectors)]
}

#[test]
fn number_21() {
    assert_eq!(of_true(&[[0, 0]]), of_zeros(0));
    assert_eq!(of_true(&[[0, 0], [1, 2]]), of_zeros(0));
    assert_eq!(of_true(&[[1, 2], [0, 0]]), of_zeros(1));
    assert_eq!(of_true(&[[1, 2], [0, 0], [0, 0]]), of_zeros(1));
    assert_eq!(of_true(&[[0, 0]; 8]), of_zeros(0));
    // The place is the vector's and not a number's.
    let mut last = [[1, 2]; 8];
    last[7] = [0, 0];
    assert_eq!(of_true(&last), of_zeros(7));
    assert_eq!(of_false(&last), of_zeros(7));
}

#[test]
fn the_first_of_several() {
    for chosen in 0_u32..1 << 8 {
        let vectors = [0, 1, 2, 3, 4, 5, 6, 7].map(|t| if chosen >> t & 1 == 1 { [0, 0] } else { [0, 5] });
        let expected = match chosen {
            0 => accepted_with(8),
            _ => of_zeros(chosen.trailing_zeros()),
        };
        assert_eq!(of_true(&vectors), expected);
        assert_eq!(of_false(&vectors), expected);
    }
}

#[test]
fn one_zero_among_others() {
    assert_eq!(of_true(&[[0, 5]]), accepted_with(1));
    assert_eq!(of_true(&[[5, 0]]), accepted_with(1));
    // Two zeros in a row, of two vectors.
    assert_eq!(of_true(&[[1, 0], [0, 1]]), accepted_with(2));
    // A column of zeros.
    assert_eq!(of_true(&[[0, 1], [0, 2], [0, P32 - 1]]), accepted_with(3));
    assert_eq!(of_true(&[[1, 0], [2, 0], [P32 - 1, 0]]), accepted_with(3));
    // The sum of the numbers is 0 modulo p.
    assert_eq!(of_true(&[[1, P32 - 1]]), accepted_with(1));
}

#[test]
fn example_d() {
    // X = (0, 5) is a challenge, if a weak one.
    assert_eq!(of_false(&[[0, 5]]), accepted_with(1));
    assert_eq!(of_false(&[[1, 5]]), [answer(12, 0, 0, 8), answer(12, 0, 0, 10)]);
    assert_eq!(of_false(&[[0, 5], [0, 0]]), of_zeros(1));
}

#[test]
fn false_tickets_are_no_longer_accepted_with_zeros() {
    for vectors in 1..=8 {
        assert_eq!(of_false(&vec![[0, 0]; vectors]), of_zeros(0));
    }
}

#[test]
fn number_21_stands_before_12() {
    let caught = [answer(12, 0, 0, 8), answer(12, 0, 0, 10)];
    assert_eq!(of_false(&[[1, 5], [1, 5]]), caught);
    assert_eq!(of_false(&[[1, 5], [0, 0]]), of_zeros(1));
    assert_eq!(of_false(&[[0, 0], [1, 5]]), of_zeros(0));
    assert_eq!(of_false(&[[1, 5], [0, 5], [0, 0]]), of_zeros(2));
}

#[test]
fn number_11_stands_before_21() {
    let beyond = |index| [refused(11, index); 2];
    for number in [P32, P32 + 1, 2 * P32, u32::MAX] {
        // Behind the zeros, before them, on both sides.
        assert_eq!(of_true(&[[0, 0], [number, 1]]), beyond(2));
        assert_eq!(of_true(&[[0, 0], [1, number]]), beyond(3));
        assert_eq!(of_true(&[[number, 1], [0, 0]]), beyond(0));
        assert_eq!(of_true(&[[0, 0], [1, 2], [0, 0], [0, number]]), beyond(7));
        assert_eq!(of_true(&[[1, number], [0, 0], [number, 1]]), beyond(1));
        assert_eq!(of_false(&[[0, 0], [1, number]]), beyond(3));
        // p and 2p leave 0, and are no zeros.
        assert_eq!(of_true(&[[0, number]]), beyond(1));
        assert_eq!(of_true(&[[number, 0]]), beyond(0));
        assert_eq!(of_true(&[[number, number]]), beyond(0));
    }
}

#[test]
fn number_10_stands_before_21() {
    for vectors in 1..=8 {
        for length in 0..=20 {
            let expected = if length == 2 * vectors as usize {
                of_zeros(0)
            } else {
                [refused(10, 0); 2]
            };
            assert_eq!(answers(&TICKET, &BIAS_TICKET, vectors, &vec![0; length]), expected);
        }
    }
    // And with a number of 11 as well.
    assert_eq!(answers(&TICKET, &BIAS_TICKET, 2, &[0, 0, P32]), [refused(10, 0); 2]);
}

#[test]
fn the_tests_of_the_setting_and_the_ticket_stand_before_21() {
    let zeros = [0, 0];
    for (wrong, number) in [
        (Setting { columns: 33, ..K }, 1),
        (Setting { scale: 1, ..K }, 2),
        (Setting { rounding: 10, ..K }, 19),
        (Setting { width: 4, ..K }, 3),
    ] {
        assert_eq!(challenge_check(&wrong, &TICKET, &zeros), refused(number, 0));
        let wrong = BiasSetting {
            setting: wrong,
            ..K_WITH_BIAS
        };
        assert_eq!(bias_challenge_check(&wrong, &BIAS_TICKET, &zeros), refused(number, 0));
    }
    let wrong = BiasSetting {
        bias_bound: u32::MAX,
        ..K_WITH_BIAS
    };
    assert_eq!(bias_challenge_check(&wrong, &BIAS_TICKET, &zeros), refused(17, 0));

    assert_eq!(answers(&[], &[], 1, &zeros), [refused(4, 0); 2]);
    // A kind of 0 in the first record, and p in the last one.
    let with_kind = |ticket: &[u8]| [&[0], &ticket[1..]].concat();
    assert_eq!(
        answers(&with_kind(&TICKET), &with_kind(&BIAS_TICKET), 1, &zeros),
        [refused(5, 0); 2]
    );
    let with_p = |ticket: &[u8]| [&ticket[..ticket.len() - 4], &P32.to_le_bytes()].concat();
    assert_eq!(
        answers(&with_p(&TICKET), &with_p(&BIAS_TICKET), 1, &zeros),
        [refused(6, 15), refused(6, 19)]
    );
    // The ranges: -9 first in A, quotient 16, remainder 10, bias 24.
    let parts = |a, quotient, remainder| Parts {
        a: vec![a, -2, 5, 4],
        b: vec![-1, 6, 7, -8],
        quotients: vec![quotient, 3, 2, -1],
        remainders: vec![remainder, 4, 3, 8],
    };
    for (parts, number, plain_record, bias_record) in [
        (parts(-9, -2, 3), 7, 0, 0),
        (parts(3, 16, 3), 8, 8, 12),
        (parts(3, -2, 10), 9, 12, 16),
    ] {
        let plain = parts.ticket(&K);
        let bias = BiasParts {
            parts,
            bias: vec![0; 4],
        }
        .ticket(&K_WITH_BIAS);
        assert_eq!(
            answers(&plain, &bias, 1, &zeros),
            [refused(number, plain_record), refused(number, bias_record)]
        );
    }
    let ticket = with_bias_and_claims([-4, 24, -23, 5], [-3, 5, 0, 0], [9, 7, 0, 3]);
    assert_eq!(bias_challenge_check(&K_WITH_BIAS, &ticket, &zeros), refused(18, 9));
}

#[test]
fn one_column() {
    // S = 4 and S + c = 5, and a quotient of 1 makes the claims 14 and 15.
    let setting = Setting {
        rows: 1,
        inner: 1,
        columns: 1,
        ..K
    };
    let with_bias = BiasSetting { setting, ..K_WITH_BIAS };
    let answers = |quotient, vectors, list: &[u32]| {
        let parts = |remainder| Parts {
            a: vec![2],
            b: vec![2],
            quotients: vec![quotient],
            remainders: vec![remainder],
        };
        let plain = Setting { vectors, ..setting };
        let bias = BiasSetting {
            setting: plain,
            ..with_bias
        };
        let bias_parts = BiasParts {
            parts: parts(5),
            bias: vec![1],
        };
        [
            challenge_check(&plain, &parts(4).ticket(&plain), list),
            bias_challenge_check(&bias, &bias_parts.ticket(&bias), list),
        ]
    };
    // "so with one column none"
    for number in [1, 2, 10, 65_536, 1 << 30, P32 - 2, P32 - 1] {
        assert_eq!(answers(0, 1, &[number]), [answer(0, 0, 0, 3), answer(0, 0, 0, 4)]);
        assert_eq!(answers(1, 1, &[number]), [answer(12, 0, 0, 3), answer(12, 0, 0, 4)]);
        for quotient in [0, 1] {
            assert_eq!(answers(quotient, 2, &[number, 0]), of_zeros(1));
            assert_eq!(answers(quotient, 2, &[0, number]), of_zeros(0));
        }
    }
    for quotient in [0, 1] {
        assert_eq!(answers(quotient, 1, &[0]), of_zeros(0));
        assert_eq!(answers(quotient, 1, &[P32]), [refused(11, 0); 2]);
        assert_eq!(answers(quotient, 8, &[1, 2, 3, 4, 5, 6, 7, 0]), of_zeros(7));
    }
}

#[test]
fn zeros_beside_a_rounding_number() {
    for (list, number) in [([0, 0], 21), ([0, 5], 0), ([5, 0], 0)] {
        let plain = challenge_check(&K_WITH_ROUNDING, &ROUNDED_TICKET, &list);
        let bias = bias_challenge_check(&K_WITH_BIAS_AND_ROUNDING, &ROUNDED_BIAS_TICKET, &list);
        assert_eq!([plain.number, bias.number], [number; 2]);
        // Without o they are false, in every column.
        let plain = challenge_check(&K, &ROUNDED_TICKET, &list);
        let bias = bias_challenge_check(&K_WITH_BIAS, &ROUNDED_BIAS_TICKET, &list);
        let number = if number == 0 { 12 } else { number };
        assert_eq!([plain.number, bias.number], [number; 2]);
    }
}

#[test]
fn the_largest_list() {
    // S = 64 and c = 32 everywhere; 64 + 32 + 9 is below 160.
    let with_bias = BiasSetting::from([32, 64, 32, 8, 10, 1, 5, 0, 32]);
    let plain = with_bias.setting;
    let ticket = true_ticket(&plain, &[1; 2048], &[1; 2048]);
    let bias_ticket = true_bias_ticket(&with_bias, &[1; 2048], &[1; 2048], &[32; 1024]);
    let answers = |list: &[u32]| {
        [
            challenge_check(&plain, &ticket, list),
            bias_challenge_check(&with_bias, &bias_ticket, list),
        ]
    };
    // In each vector one number only that is not 0, in the same column.
    for j in 0..32 {
        let mut list = [0; 256];
        for t in 0..8 {
            list[32 * t + j] = P32 - 1;
        }
        assert_eq!(answers(&list), [answer(0, 0, 0, 40_960), answer(0, 0, 0, 49_152)]);
        for t in 0..8 {
            let mut without = list;
            without[32 * t + j] = 0;
            assert_eq!(answers(&without), of_zeros(t as u32));
        }
    }
}

/// A vector's numbers are none below 0, so it is one of zeros when their exact
/// sum is 0. "True tickets pass with every list that is still well formed."
#[test]
fn every_list_of_six_in_each_shape() {
    let numbers = [0, 1, P32 - 1, P32];
    for n in [1, 2, 3, 6] {
        let s = 6 / n;
        let with_bias = BiasSetting::from([1, 1, n, s, 10, 8, 5, 0, 23]);
        let plain = with_bias.setting;
        let row = &[3, -4, 5, -6, 7, -8][..n as usize];
        let ticket = true_ticket(&plain, &[-7], row);
        let bias_ticket = true_bias_ticket(&with_bias, &[-7], row, row);
        for pick in 0..4_usize.pow(6) {
            let list = [1, 4, 16, 64, 256, 1024].map(|unit| numbers[pick / unit % 4]);
            let mut sums = list.chunks(n as usize).map(|x| x.iter().copied().map(u64::from).sum());
            let expected = if let Some(index) = list.iter().position(|&number| number == P32) {
                [refused(11, index as u32); 2]
            } else if let Some(t) = sums.position(|sum: u64| sum == 0) {
                of_zeros(t as u32)
            } else {
                [answer(0, 0, 0, s * (2 * n + 1)), answer(0, 0, 0, s * (3 * n + 1))]
            };
            assert_eq!(challenge_check(&plain, &ticket, &list), expected[0]);
            assert_eq!(bias_challenge_check(&with_bias, &bias_ticket, &list), expected[1]);
        }
    }
}
