//! The challenge check of bias tickets: the examples under K with a bias, worked
//! out by hand, the numbers 17 and 18, then what they leave out: the former
//! numbers in this call, the order of the tests, the products, tickets of the
//! other form, and a second way to find the answer.

use super::*;
use crate::examples::{with_bias_and_claims, A, B, BIAS, BIAS_TICKET, K, K_WITH_BIAS, TICKET};
use crate::make::{bias_sums, bias_ticket_length, residue, ticket_length, true_bias_ticket, BiasParts, Parts};

const P32: u32 = 2_147_483_647;
const QUOTIENTS: [i64; 4] = [-3, 5, 0, 0];
const REMAINDERS: [i64; 4] = [9, 7, 0, 3];

fn answer(number: u32, place: u32, row: u32, products: u32) -> Answer {
    Answer::from([number, place, row, products])
}

fn refused(number: u32, place: u32) -> Answer {
    answer(number, place, 0, 0)
}

/// The answer to a ticket of K with a bias and X = (1, 2).
fn check(ticket: &[u8]) -> Answer {
    bias_challenge_check(&K_WITH_BIAS, ticket, &[1, 2])
}

/// The answer to a setting alone: no bytes, no list. One that fits gives 4.
fn check_setting(setting: Setting, bias_bound: u32) -> Answer {
    bias_challenge_check(&BiasSetting { setting, bias_bound }, &[], &[])
}

/// The true ticket with another value in one record.
fn with_value(index: usize, value: u32) -> Vec<u8> {
    let mut ticket = BIAS_TICKET.to_vec();
    ticket[8 * index + 4..8 * index + 8].copy_from_slice(&value.to_le_bytes());
    ticket
}

#[test]
fn the_sums_and_the_claims() {
    assert_eq!(bias_sums(&K_WITH_BIAS, &A, &B, &BIAS), [-21, 57, 0, 3]);
    let parts = BiasParts::true_ones(&K_WITH_BIAS, &A, &B, &BIAS);
    assert_eq!(parts.parts.quotients, QUOTIENTS);
    assert_eq!(parts.parts.remainders, REMAINDERS);
    assert_eq!(true_bias_ticket(&K_WITH_BIAS, &A, &B, &BIAS), BIAS_TICKET);
    assert_eq!(with_bias_and_claims(BIAS, QUOTIENTS, REMAINDERS), BIAS_TICKET);
}

#[test]
fn the_lengths() {
    // 8(4 + 4 + 3·4), and 8(4 + 4 + 2·4) without the bias.
    assert_eq!(bias_ticket_length(&K_WITH_BIAS), 160);
    assert_eq!(ticket_length(&K), 128);
    // 8·5·(2^32 - 1)², exact all the same: (2^32 - 1)² = 2^64 - 2^33 + 1.
    let greatest = BiasSetting::from([u32::MAX; 9]);
    assert_eq!(bias_ticket_length(&greatest), 40 * ((1 << 64) - (1 << 33) + 1));
}

#[test]
fn the_numbers_of_a_setting() {
    let setting = BiasSetting::from([1, 2, 3, 4, 5, 6, 7, 8, 9]);
    assert_eq!(setting.setting, Setting::from([1, 2, 3, 4, 5, 6, 7, 8]));
    assert_eq!(setting.bias_bound, 9);
    assert_eq!(setting.numbers(), [1, 2, 3, 4, 5, 6, 7, 8, 9]);
    assert_eq!(BiasSetting::from([2, 2, 2, 1, 10, 8, 5, 0, 23]), K_WITH_BIAS);
}

#[test]
fn the_true_ticket() {
    let Ok(ticket) = ticket::read(&Terms::from(&K_WITH_BIAS), &BIAS_TICKET) else {
        panic!("the ticket is not read");
    };
    // u = 11, -9, so the rows of A give 51, 19, and the rows of the bias -4 + 46
    // = 42 and -23 + 10 = -13. The claims give -21 + 114 and 0 + 6.
    let x = [1, 2];
    let u = ticket.b.times(&x);
    assert_eq!(ticket.a.times(&u), [51, 19]);
    assert_eq!(ticket.bias.times(&x), [42, P - 13]);
    assert_eq!(ticket.claims.times(&x), [93, 6]);
    // mn + 2ℓn + ℓm = 4 + 8 + 4.
    assert_eq!(check(&BIAS_TICKET), answer(0, 0, 0, 16));
    for list in [[1, 0], [0, 1], [P32 - 1, 7], [P32 - 1, P32 - 1]] {
        assert_eq!(
            bias_challenge_check(&K_WITH_BIAS, &BIAS_TICKET, &list),
            answer(0, 0, 0, 16)
        );
    }
    assert_eq!(
        bias_challenge_check(&K_WITH_BIAS, &BIAS_TICKET, &[0, 0]),
        refused(21, 0)
    );
}

#[test]
fn false_only_through_the_bias_in_the_last_column() {
    // 6 instead of 5: 19 - 23 + 12 = 8 and not 6. Caught in row 1, after 4 +
    // 2(2·2 + 2) products.
    let ticket = with_bias_and_claims([-4, 23, -23, 6], QUOTIENTS, REMAINDERS);
    assert_eq!(check(&ticket), answer(12, 0, 1, 16));
    assert_eq!(
        bias_challenge_check(&K_WITH_BIAS, &ticket, &[0, P32 - 1]),
        answer(12, 0, 1, 16)
    );
    // The last column is not looked at.
    assert_eq!(
        bias_challenge_check(&K_WITH_BIAS, &ticket, &[1, 0]),
        answer(0, 0, 0, 16)
    );
    // 22 instead of 23: caught in row 0, after 4 + 6 products.
    let ticket = with_bias_and_claims([-4, 22, -23, 5], QUOTIENTS, REMAINDERS);
    assert_eq!(check(&ticket), answer(12, 0, 0, 10));
    assert_eq!(
        bias_challenge_check(&K_WITH_BIAS, &ticket, &[1, 0]),
        answer(0, 0, 0, 16)
    );
}

#[test]
fn the_bias_left_out_or_taken_away() {
    // The claims of the plain ticket, and those with S - c: -13, 11, 46, -7.
    let left_out = with_bias_and_claims(BIAS, [-2, 3, 2, -1], [3, 4, 3, 8]);
    assert_eq!(check(&left_out), answer(12, 0, 0, 10));
    let taken_away = with_bias_and_claims(BIAS, [-2, 1, 4, -1], [7, 1, 6, 3]);
    assert_eq!(check(&taken_away), answer(12, 0, 0, 10));
    // With a bias of 0 the plain claims are true.
    let of_zeros = with_bias_and_claims([0; 4], [-2, 3, 2, -1], [3, 4, 3, 8]);
    assert_eq!(check(&of_zeros), answer(0, 0, 0, 16));
}

#[test]
fn two_untrue_claims_that_balance() {
    // In column 0 the bias is greater by 1, in column 1 the remainder less by 1.
    let ticket = with_bias_and_claims([-3, 23, -23, 5], QUOTIENTS, [9, 6, 0, 3]);
    let answer_to = |list: [u32; 2]| bias_challenge_check(&K_WITH_BIAS, &ticket, &list);
    assert_eq!(answer_to([1, P32 - 1]), answer(0, 0, 0, 16));
    assert_eq!(answer_to([1, 1]), answer(12, 0, 0, 10));
}

#[test]
fn caught_in_a_later_vector_and_row() {
    let setting = BiasSetting {
        setting: Setting { vectors: 3, ..K },
        ..K_WITH_BIAS
    };
    let ticket = with_bias_and_claims([-4, 23, -23, 4], QUOTIENTS, REMAINDERS);
    let answer_to = |list| bias_challenge_check(&setting, &ticket, list);
    assert_eq!(answer_to(&[1, 0, 2, 0, 3, 4]), answer(12, 2, 1, 2 * 16 + 4 + 2 * 6));
    assert_eq!(answer_to(&[1, 0, 2, 0, 3, 0]), answer(0, 0, 0, 48));
    assert_eq!(answer_to(&[0, 1, 2, 0, 3, 0]), answer(12, 0, 1, 16));
}

#[test]
fn sizes_that_differ() {
    // A = (1), (2), B = (3, 4, 5) and the bias (-3, 0, 7), (10, -20, 23): S + c
    // = 0, 4, 12 and 16, -12, 33. 64 + 23 + 9 = 96 is below 160.
    let setting = BiasSetting {
        setting: Setting {
            inner: 1,
            columns: 3,
            ..K
        },
        ..K_WITH_BIAS
    };
    let right = BiasParts {
        parts: Parts {
            a: vec![1, 2],
            b: vec![3, 4, 5],
            quotients: vec![0, 0, 1, 1, -2, 3],
            remainders: vec![0, 4, 2, 6, 8, 3],
        },
        bias: vec![-3, 0, 7, 10, -20, 23],
    };
    let answer_to = |parts: &BiasParts| bias_challenge_check(&setting, &parts.ticket(&setting), &[1, 2, 3]);
    // mn + 2ℓn + ℓm = 3 + 12 + 2.
    assert_eq!(answer_to(&right), answer(0, 0, 0, 17));
    // 3 + 2(6 + 1) products in row 1, 3 + 7 in row 0.
    let mut wrong = right.clone();
    wrong.bias[5] = 22;
    assert_eq!(answer_to(&wrong), answer(12, 0, 1, 17));
    wrong.bias[2] = 8;
    assert_eq!(answer_to(&wrong), answer(12, 0, 0, 10));
}

#[test]
fn number_17() {
    for beyond in [(1 << 30) + 1, 1 << 31, P32, u32::MAX] {
        assert_eq!(check_setting(K, beyond), refused(17, 0));
        let setting = BiasSetting {
            bias_bound: beyond,
            ..K_WITH_BIAS
        };
        assert_eq!(bias_challenge_check(&setting, &BIAS_TICKET, &[1, 2]), refused(17, 0));
    }
}

#[test]
fn number_17_stands_after_2_and_before_3() {
    assert_eq!(check_setting(Setting { columns: 33, ..K }, u32::MAX), refused(1, 0));
    assert_eq!(check_setting(Setting { scale: 1, ..K }, u32::MAX), refused(2, 0));
    assert_eq!(check_setting(Setting { bound: 32_768, ..K }, u32::MAX), refused(2, 0));
    assert_eq!(check_setting(Setting { width: 0, ..K }, u32::MAX), refused(2, 0));
    assert_eq!(check_setting(Setting { width: 4, ..K }, u32::MAX), refused(17, 0));
    assert_eq!(check_setting(Setting { width: 4, ..K }, 0), refused(3, 0));
    assert_eq!(check_setting(Setting { width: 4, ..K }, 1 << 30), refused(3, 0));
}

#[test]
fn the_edge_of_fitting() {
    // 2·64 + 23 + 9 = 160 = 16·10.
    assert_eq!(check_setting(K, 0), refused(4, 0));
    assert_eq!(check_setting(K, 23), refused(4, 0));
    assert_eq!(check_setting(K, 24), refused(3, 0));
    // Within its limits, and beyond every 2^(v-1)·α, which is below p/2.
    assert_eq!(check_setting(K, 1 << 30), refused(3, 0));
    // α = 32767, v = 16 and m = T = 1: 1 + W + 32766 is 2^15·32767 for W =
    // 1073676289.
    let widest = Setting {
        inner: 1,
        scale: 32_767,
        bound: 1,
        width: 16,
        ..K
    };
    assert_eq!(check_setting(widest, 1_073_676_289), refused(4, 0));
    assert_eq!(check_setting(widest, 1_073_676_290), refused(3, 0));
    assert_eq!(check_setting(widest, 1 << 30), refused(3, 0));
    // The second condition doesn't know W.
    let second = Setting {
        scale: 3,
        width: 29,
        ..K
    };
    assert_eq!(check_setting(second, 0), refused(4, 0));
    assert_eq!(check_setting(Setting { scale: 4, ..second }, 0), refused(3, 0));
}

#[test]
fn number_18() {
    for index in 8..12 {
        for beyond in [24, -24, 1_073_741_823, -1_073_741_823] {
            assert_eq!(check(&with_value(index, residue(beyond))), refused(18, index as u32));
        }
        // Within the range, and then caught: the claim is untrue. Rows 0 and 1.
        for entry in [22, -22] {
            let row = (index as u32 - 8) / 2;
            let caught = answer(12, 0, row, 4 + (row + 1) * 6);
            assert_eq!(check(&with_value(index, residue(entry))), caught);
        }
    }
    // The bound is W and not T, which is 8.
    assert_eq!(check(&with_value(8, residue(9))), answer(12, 0, 0, 10));
}

#[test]
fn a_bias_bound_of_0() {
    let setting = BiasSetting {
        bias_bound: 0,
        ..K_WITH_BIAS
    };
    let answer_to = |bias: &[i64]| {
        let ticket = true_bias_ticket(&setting, &A, &B, bias);
        bias_challenge_check(&setting, &ticket, &[1, 2])
    };
    assert_eq!(answer_to(&[0; 4]), answer(0, 0, 0, 16));
    assert_eq!(answer_to(&[0, 1, 0, 0]), refused(18, 9));
    assert_eq!(answer_to(&[0, 0, 0, -1]), refused(18, 11));
}

#[test]
fn the_former_numbers_in_this_call() {
    assert_eq!(check(&[]), refused(4, 0));
    assert_eq!(check(&BIAS_TICKET[..159]), refused(4, 0));
    assert_eq!(check(&with_value(0, residue(-9))), refused(7, 0));
    assert_eq!(check(&with_value(7, 9)), refused(7, 7));
    assert_eq!(check(&with_value(12, 16)), refused(8, 12));
    assert_eq!(check(&with_value(16, 10)), refused(9, 16));
    let answer_to = |list| bias_challenge_check(&K_WITH_BIAS, &BIAS_TICKET, list);
    assert_eq!(answer_to(&[1, 2, 3]), refused(10, 0));
    assert_eq!(answer_to(&[]), refused(10, 0));
    assert_eq!(answer_to(&[1, P32]), refused(11, 1));
}

#[test]
fn each_byte_before_the_value_is_tested() {
    for index in 0..20 {
        for byte in 0..4 {
            for bit in 0..8 {
                let mut damaged = BIAS_TICKET;
                damaged[8 * index + byte] ^= 1 << bit;
                assert_eq!(check(&damaged), refused(5, index as u32));
            }
        }
        assert_eq!(check(&with_value(index, P32)), refused(6, index as u32));
        assert_eq!(check(&with_value(index, u32::MAX)), refused(6, index as u32));
    }
}

#[test]
fn within_a_record_5_stands_before_6_and_6_before_18() {
    let mut ticket = with_value(8, 24);
    assert_eq!(check(&ticket), refused(18, 8));
    // p + 24 stands for 24 as well, and is no least residue.
    ticket = with_value(8, P32 + 24);
    assert_eq!(check(&ticket), refused(6, 8));
    ticket[8 * 8] = 3;
    assert_eq!(check(&ticket), refused(5, 8));
}

#[test]
fn the_first_record_decides() {
    let put = |ticket: &mut [u8], index: usize, value: u32| {
        ticket[8 * index + 4..8 * index + 8].copy_from_slice(&value.to_le_bytes());
    };
    // All ranges at once, and then one less each time.
    let mut ticket = with_value(16, 10);
    put(&mut ticket, 12, 16);
    put(&mut ticket, 11, 24);
    put(&mut ticket, 7, 9);
    assert_eq!(check(&ticket), refused(7, 7));
    put(&mut ticket, 7, 8);
    assert_eq!(check(&ticket), refused(18, 11));
    // The list is read after the records.
    assert_eq!(
        bias_challenge_check(&K_WITH_BIAS, &ticket, &[P32, 0, 0]),
        refused(18, 11)
    );
    put(&mut ticket, 11, 23);
    assert_eq!(check(&ticket), refused(8, 12));
    put(&mut ticket, 12, 15);
    assert_eq!(check(&ticket), refused(9, 16));
}

#[test]
fn tickets_of_the_other_form() {
    assert_eq!(check(&TICKET), refused(4, 0));
    assert_eq!(challenge_check(&K, &BIAS_TICKET, &[1, 2]), refused(4, 0));
    // ℓ = m = 1: n = 3 with a bias and n = 4 without have 13 records each, and
    // record 4 is the first of the bias or the last of B.
    let plain = Setting {
        rows: 1,
        inner: 1,
        columns: 4,
        ..K
    };
    let with_bias = BiasSetting {
        setting: Setting { columns: 3, ..plain },
        ..K_WITH_BIAS
    };
    let plain_ticket = Parts::true_ones(&plain, &[1], &[1, 2, 3, 4]).ticket(&plain);
    let bias_ticket = true_bias_ticket(&with_bias, &[1], &[1, 2, 3], &[4, 5, 6]);
    assert_eq!([plain_ticket.len(), bias_ticket.len()], [104, 104]);
    assert_eq!(
        bias_challenge_check(&with_bias, &plain_ticket, &[1, 2, 3]),
        refused(5, 4)
    );
    assert_eq!(challenge_check(&plain, &bias_ticket, &[1, 2, 3, 4]), refused(5, 4));
    // mn + ℓn + ℓm = 4 + 4 + 1, and mn + 2ℓn + ℓm = 3 + 6 + 1.
    assert_eq!(
        challenge_check(&plain, &plain_ticket, &[1, 2, 3, 4]),
        answer(0, 0, 0, 9)
    );
    assert_eq!(
        bias_challenge_check(&with_bias, &bias_ticket, &[1, 2, 3]),
        answer(0, 0, 0, 10)
    );
}

#[test]
fn the_greatest_bias() {
    // S + c = 1073676290 = 32767·32767 + 1, and -1073676290 = 32767·(-32768) +
    // 32766.
    let setting = BiasSetting::from([1, 1, 1, 1, 32_767, 1, 16, 0, 1_073_676_289]);
    let answer_to = |a, c, quotient, remainder| {
        let parts = Parts {
            a: vec![a],
            b: vec![1],
            quotients: vec![quotient],
            remainders: vec![remainder],
        };
        let ticket = BiasParts { parts, bias: vec![c] }.ticket(&setting);
        bias_challenge_check(&setting, &ticket, &[P32 - 1])
    };
    assert_eq!(answer_to(1, 1_073_676_289, 32_767, 1), answer(0, 0, 0, 4));
    assert_eq!(answer_to(-1, -1_073_676_289, -32_768, 32_766), answer(0, 0, 0, 4));
    assert_eq!(answer_to(1, 1_073_676_288, 32_767, 1), answer(12, 0, 0, 4));
    assert_eq!(answer_to(1, 1_073_676_290, 32_767, 2), refused(18, 2));
    assert_eq!(answer_to(-1, -1_073_676_290, -32_768, 32_765), refused(18, 2));
}

#[test]
fn every_number_at_its_greatest() {
    let answer_to = |numbers| bias_challenge_check(&BiasSetting::from(numbers), &[], &[]);
    assert_eq!(answer_to([u32::MAX; 9]), refused(1, 0));
    for (index, number) in [1, 1, 1, 1, 2, 2, 2, 19, 17].into_iter().enumerate() {
        let mut numbers = K_WITH_BIAS.numbers();
        numbers[index] = u32::MAX;
        assert_eq!(answer_to(numbers), refused(number, 0));
    }
}

#[test]
fn the_largest_ticket() {
    // S = 64 and c = 32 everywhere: 9 times 10 and 6; 64 + 32 + 9 is below 160.
    let setting = BiasSetting::from([32, 64, 32, 8, 10, 1, 5, 0, 32]);
    let mut parts = BiasParts::true_ones(&setting, &[1; 2048], &[1; 2048], &[32; 1024]);
    let list = [P32 - 1; 256];
    // 8(2048 + 2048 + 2048), and 7·6144 + 2048 + 32(64 + 64) at the very end.
    let ticket = parts.ticket(&setting);
    assert_eq!(ticket.len(), 57_344);
    assert_eq!(bias_challenge_check(&setting, &ticket, &list), answer(0, 0, 0, 49_152));
    parts.bias[1023] = 31;
    // Column 31 is 0 in all vectors but the last; column 0 is not, so that none
    // of them is one of zeros.
    let mut late = [0; 256];
    for t in 0..7 {
        late[32 * t] = 1;
    }
    late[255] = 1;
    let ticket = parts.ticket(&setting);
    assert_eq!(
        bias_challenge_check(&setting, &ticket, &late),
        answer(12, 7, 31, 49_152)
    );
}

/// With a bias of 0 a bias ticket is caught where the plain one is, n products
/// later in each row.
#[test]
fn a_bias_of_zeros_adds_only_products() {
    for pick in 0..3_usize.pow(4) {
        let steps = [1, 3, 9, 27].map(|unit| pick / unit % 3);
        let mut parts = Parts::true_ones(&K, &A, &B);
        for (quotient, step) in parts.quotients.iter_mut().zip(steps) {
            *quotient += step as i64;
        }
        let of_plain = challenge_check(&K, &parts.ticket(&K), &[1, P32 - 1]);
        let of_zeros = BiasParts {
            parts,
            bias: vec![0; 4],
        };
        let rows = if of_plain.number == 0 { 2 } else { of_plain.row + 1 };
        let expected = Answer {
            products: of_plain.products + 2 * rows,
            ..of_plain
        };
        let ticket = of_zeros.ticket(&K_WITH_BIAS);
        assert_eq!(bias_challenge_check(&K_WITH_BIAS, &ticket, &[1, P32 - 1]), expected);
    }
}

/// Row i is caught exactly when the sum over j of (αq + r - S - c)·X(j) is not 0
/// modulo p, so the exact sums give every answer a second way, but for lists
/// with a vector of zeros, which are refused.
#[test]
fn the_exact_sums_give_the_same_answers() {
    let setting = BiasSetting {
        setting: Setting { vectors: 2, ..K },
        ..K_WITH_BIAS
    };
    let bias = [-4, 20, -20, 5];
    let claimed = bias_sums(&setting, &A, &B, &bias);
    let numbers = [0, 1, 2, P32 - 1];
    for changed in 0..4 {
        for step in [-1, 0, 1] {
            let mut parts = BiasParts::true_ones(&setting, &A, &B, &bias);
            parts.bias[changed] += step;
            parts.bias[1] += 1;
            let exact = bias_sums(&setting, &A, &B, &parts.bias);
            let ticket = parts.ticket(&setting);
            for pick in 0..4_usize.pow(4) {
                let list = [1, 4, 16, 64].map(|unit| numbers[pick / unit % 4]);
                let of_zeros = list.chunks(2).position(|x| x == [0, 0]);
                let second_way = (0..4)
                    .map(|step| (step / 2, step % 2))
                    .find(|&(t, i)| {
                        let of_column =
                            |j: usize| (claimed[2 * i + j] - exact[2 * i + j]) * i128::from(list[2 * t + j]);
                        (of_column(0) + of_column(1)) % P != 0
                    })
                    .map_or(answer(0, 0, 0, 32), |(t, i)| {
                        let products = t * 16 + 4 + (i + 1) * 6;
                        answer(12, t as u32, i as u32, products as u32)
                    });
                let expected = of_zeros.map_or(second_way, |t| refused(21, t as u32));
                assert_eq!(bias_challenge_check(&setting, &ticket, &list), expected);
            }
        }
    }
}
