//! Every marked example and every example of the table of numbers, then what
//! they leave out: the edges of the ranges, the order of the tests, and a second
//! way to find the answer.

use super::*;
use crate::examples::{with_claims, A, B, K};
use crate::make::{record, residue, sums, true_ticket, Parts};

const P32: u32 = 2_147_483_647;

/// The true ticket with another value in one record.
fn with_value(index: usize, value: u32) -> Vec<u8> {
    let mut ticket = true_ticket(&K, &A, &B);
    ticket[8 * index + 4..8 * index + 8].copy_from_slice(&value.to_le_bytes());
    ticket
}

fn answer(number: u32, place: u32, row: u32, products: u32) -> Answer {
    Answer::from([number, place, row, products])
}

fn refused(number: u32, place: u32) -> Answer {
    answer(number, place, 0, 0)
}

/// The answer to a ticket of K with X = (1, 2).
fn check(ticket: &[u8]) -> Answer {
    challenge_check(&K, ticket, &[1, 2])
}

/// The answer to a setting alone: no bytes, no list.
fn check_setting(setting: Setting) -> Answer {
    challenge_check(&setting, &[], &[])
}

const ACCEPTED: Answer = Answer {
    number: 0,
    place: 0,
    row: 0,
    products: 12,
};

#[test]
fn example_a() {
    assert_eq!(sums(&K, &A, &B), [-17, 34, 23, -2]);
}

#[test]
fn example_b() {
    let parts = Parts::true_ones(&K, &A, &B);
    assert_eq!(parts.quotients, [-2, 3, 2, -1]);
    assert_eq!(parts.remainders, [3, 4, 3, 8]);
    let ticket = true_ticket(&K, &A, &B);
    assert_eq!(ticket.len(), 128);
    assert_eq!(ticket[64..72], [0x03, 0x00, 0x00, 0x00, 0xFD, 0xFF, 0xFF, 0x7F]);
    assert_eq!(ticket, with_claims([-2, 3, 2, -1], [3, 4, 3, 8]));
}

#[test]
fn example_c() {
    let Ok(ticket) = ticket::read(&Terms::from(&K), &true_ticket(&K, &A, &B)) else {
        panic!("the ticket is not read");
    };
    let x = [1, 2];
    let u = ticket.b.times(&x);
    assert_eq!(u, [11, P - 9]);
    assert_eq!(ticket.a.times(&u), [51, 19]);
    assert_eq!(ticket.claims.times(&x), [51, 19]);
    assert_eq!(check(&true_ticket(&K, &A, &B)), answer(0, 0, 0, 12));
}

#[test]
fn examples_d_and_e() {
    let ticket = with_claims([-1, 3, 2, -1], [3, 4, 3, 8]);
    assert_eq!(challenge_check(&K, &ticket, &[0, 5]), answer(0, 0, 0, 12));
    assert_eq!(challenge_check(&K, &ticket, &[1, 5]), answer(12, 0, 0, 8));
}

#[test]
fn example_f() {
    let ticket = with_claims([-1, 4, 2, -1], [3, 4, 3, 8]);
    assert_eq!(challenge_check(&K, &ticket, &[1, P32 - 1]), answer(0, 0, 0, 12));
    assert_eq!(challenge_check(&K, &ticket, &[1, 1]), answer(12, 0, 0, 8));
}

#[test]
fn example_h() {
    // The sum balances: 10·(-3) + 13 = -17.
    let ticket = with_claims([-3, 3, 2, -1], [13, 4, 3, 8]);
    assert_eq!(check(&ticket), refused(9, 12));
}

#[test]
fn example_i() {
    assert_eq!(check_setting(Setting { bound: 9, ..K }), refused(3, 0));
    // Entry -8 of B passes in the true ticket, and passes in A too.
    assert_eq!(check(&true_ticket(&K, &[-8, -2, 5, 4], &B)), ACCEPTED);
}

#[test]
fn example_j() {
    // Within the range, and then caught: the claim is untrue.
    assert_eq!(check(&with_value(8, residue(-16))), answer(12, 0, 0, 8));
    assert_eq!(check(&with_value(8, residue(15))), answer(12, 0, 0, 8));
    assert_eq!(check(&with_value(8, residue(-17))), refused(8, 8));
}

#[test]
fn example_k() {
    let setting = Setting {
        inner: 1,
        scale: 65_536,
        bound: 1,
        width: 14,
        ..K
    };
    assert_eq!(check_setting(setting), refused(4, 0));
    assert_eq!(check_setting(Setting { width: 15, ..setting }), refused(3, 0));
}

#[test]
fn number_1() {
    assert_eq!(check_setting(Setting { columns: 33, ..K }), refused(1, 0));
}

#[test]
fn number_2() {
    assert_eq!(check_setting(Setting { scale: 1, ..K }), refused(2, 0));
}

#[test]
fn number_3() {
    assert_eq!(check_setting(Setting { width: 4, ..K }), refused(3, 0));
}

#[test]
fn number_4() {
    assert_eq!(check(&[]), refused(4, 0));
}

#[test]
fn number_5() {
    let mut ticket = true_ticket(&K, &A, &B);
    ticket[0] = 0x02;
    assert_eq!(check(&ticket), refused(5, 0));
}

#[test]
fn number_6() {
    let mut ticket = true_ticket(&K, &A, &B);
    ticket[4..8].copy_from_slice(&[0xFF, 0xFF, 0xFF, 0x7F]);
    assert_eq!(check(&ticket), refused(6, 0));
}

#[test]
fn number_7() {
    assert_eq!(check(&with_value(0, residue(-9))), refused(7, 0));
}

#[test]
fn number_8() {
    assert_eq!(check(&with_value(8, 16)), refused(8, 8));
}

#[test]
fn number_9() {
    assert_eq!(check(&with_value(12, 10)), refused(9, 12));
}

#[test]
fn number_10() {
    let ticket = true_ticket(&K, &A, &B);
    assert_eq!(challenge_check(&K, &ticket, &[1, 2, 3]), refused(10, 0));
}

#[test]
fn number_11() {
    let ticket = true_ticket(&K, &A, &B);
    assert_eq!(challenge_check(&K, &ticket, &[1, P32]), refused(11, 1));
}

#[test]
fn number_12() {
    let ticket = with_claims([-1, 3, 2, -1], [3, 4, 3, 8]);
    assert_eq!(challenge_check(&K, &ticket, &[1, 5]), answer(12, 0, 0, 8));
}

/// One of the numbers of a setting.
type Field = fn(&mut Setting) -> &mut u32;

#[test]
fn each_limit() {
    let sizes: [(Field, u32); 4] = [
        (|setting| &mut setting.rows, 32),
        (|setting| &mut setting.inner, 64),
        (|setting| &mut setting.columns, 32),
        (|setting| &mut setting.vectors, 8),
    ];
    let others: [(Field, u32, u32); 3] = [
        (|setting| &mut setting.scale, 2, 65_536),
        (|setting| &mut setting.bound, 1, 32_767),
        (|setting| &mut setting.width, 1, 30),
    ];
    let number = |field: Field, value: u32| {
        let mut setting = K;
        *field(&mut setting) = value;
        check_setting(setting).number
    };
    for (field, greatest) in sizes {
        for outside in [0, greatest + 1, 1 << 31, u32::MAX] {
            assert_eq!(number(field, outside), 1);
        }
        for inside in [1, greatest] {
            assert_ne!(number(field, inside), 1);
        }
    }
    for (field, least, greatest) in others {
        for outside in [0, least - 1, greatest + 1, 1 << 31, u32::MAX] {
            assert_eq!(number(field, outside), 2);
        }
        for inside in [least, greatest] {
            assert!(number(field, inside) > 2);
        }
    }
}

#[test]
fn every_number_at_its_greatest() {
    let setting = Setting {
        rows: u32::MAX,
        inner: u32::MAX,
        columns: u32::MAX,
        vectors: u32::MAX,
        scale: u32::MAX,
        bound: u32::MAX,
        width: u32::MAX,
        rounding: u32::MAX,
    };
    assert_eq!(check_setting(setting), refused(1, 0));
    let within_sizes = Setting {
        rows: 32,
        inner: 64,
        columns: 32,
        vectors: 8,
        ..setting
    };
    assert_eq!(check_setting(within_sizes), refused(2, 0));
}

#[test]
fn the_edge_of_fitting() {
    // For v = 2 the first condition is m·T² - 1 ≤ α.
    let edge = Setting {
        scale: 127,
        width: 2,
        ..K
    };
    assert_eq!(check_setting(edge), refused(4, 0));
    assert_eq!(check_setting(Setting { scale: 126, ..edge }), refused(3, 0));
    // And 2^30·2 = p + 1 is beyond the second, which 2^29·3 is not.
    let widest = Setting {
        scale: 3,
        width: 29,
        ..K
    };
    assert_eq!(check_setting(widest), refused(4, 0));
    assert_eq!(check_setting(Setting { scale: 4, ..widest }), refused(3, 0));
}

#[test]
fn within_a_record_5_stands_before_6_and_6_before_the_range() {
    let mut ticket = with_value(0, P32 + 1);
    assert_eq!(check(&ticket), refused(6, 0));
    ticket[1] = 1;
    assert_eq!(check(&ticket), refused(5, 0));
    for index in [0, 4, 8, 12] {
        assert_eq!(check(&with_value(index, u32::MAX)), refused(6, index as u32));
    }
}

#[test]
fn the_first_record_decides() {
    let mut ticket = with_value(3, residue(9));
    ticket[8 * 4] = 0;
    assert_eq!(check(&ticket), refused(7, 3));
    // A false ticket with a bad list: the list is read first.
    assert_eq!(challenge_check(&K, &ticket, &[]), refused(7, 3));
    let false_one = with_claims([-1, 3, 2, -1], [3, 4, 3, 8]);
    assert_eq!(challenge_check(&K, &false_one, &[P32, 5]), refused(11, 0));
    assert_eq!(challenge_check(&K, &false_one, &[P32]), refused(10, 0));
}

#[test]
fn each_byte_before_the_value_is_tested() {
    let ticket = true_ticket(&K, &A, &B);
    for index in 0..16 {
        for byte in 0..4 {
            let mut damaged = ticket.clone();
            damaged[8 * index + byte] ^= 0x80;
            assert_eq!(check(&damaged), refused(5, index as u32));
        }
    }
}

#[test]
fn caught_in_a_later_vector_and_row() {
    let setting = Setting { vectors: 3, ..K };
    let ticket = with_claims([-2, 3, 2, 0], [3, 4, 3, 8]);
    // Column 1 of the first two vectors is 0.
    let answer_to = |list| challenge_check(&setting, &ticket, list);
    assert_eq!(answer_to(&[1, 0, 2, 0, 3, 4]), answer(12, 2, 1, 2 * 12 + 4 + 2 * 4));
    assert_eq!(answer_to(&[1, 0, 2, 0, 3, 0]), answer(0, 0, 0, 36));
    assert_eq!(answer_to(&[0, 1, 2, 0, 3, 0]), answer(12, 0, 1, 12));
}

#[test]
fn records_are_written_little_endian() {
    assert_eq!(record(4, 31, 30, 0x0102_0304), [4, 0, 31, 30, 4, 3, 2, 1]);
}

/// Row i is caught exactly when the sum over j of (αq + r - S)·X(j) is not 0
/// modulo p, so the exact sums give every answer a second way, but for lists
/// with a vector of zeros, which are refused.
#[test]
fn the_exact_sums_give_the_same_answers() {
    let setting = Setting { vectors: 2, ..K };
    let exact = sums(&setting, &A, &B);
    let numbers = [0, 1, 2, P32 - 1];
    for changed in 0..4 {
        for step in [-1, 0, 1] {
            let mut parts = Parts::true_ones(&setting, &A, &B);
            parts.quotients[changed] += step;
            parts.quotients[1] += 1;
            let differences: Vec<i128> = (0..4)
                .map(|k| i128::from(10 * parts.quotients[k] + parts.remainders[k]) - exact[k])
                .collect();
            for pick in 0..4_usize.pow(4) {
                let list = [1, 4, 16, 64].map(|unit| numbers[pick / unit % 4]);
                let of_zeros = list.chunks(2).position(|x| x == [0, 0]);
                let second_way = (0..4)
                    .map(|step| (step / 2, step % 2))
                    .find(|&(t, i)| {
                        let of_column = |j: usize| differences[2 * i + j] * i128::from(list[2 * t + j]);
                        (of_column(0) + of_column(1)) % P != 0
                    })
                    .map_or(answer(0, 0, 0, 24), |(t, i)| {
                        let products = t * 12 + 4 + (i + 1) * 4;
                        answer(12, t as u32, i as u32, products as u32)
                    });
                let expected = of_zeros.map_or(second_way, |t| refused(21, t as u32));
                assert_eq!(challenge_check(&setting, &parts.ticket(&setting), &list), expected);
            }
        }
    }
}
