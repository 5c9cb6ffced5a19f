//! Every marked example and every example of the table of numbers that the
//! program answers, then what they leave out: missing files, lengths, the order
//! of the tests, the bytes of the files, and the check that it runs.

use super::*;
use crate::challenge_check;
use crate::examples::{with_claims, A, B, K, K_WITH_ROUNDING, ROUNDED_TICKET};
use crate::make::{residue, true_ticket};

const P32: u32 = 2_147_483_647;

/// The setting file of K.
const SETTING_OF_K: [u8; 20] = [2, 2, 2, 1, 10, 0, 0, 0, 8, 0, 0, 0, 5, 0, 0, 0, 0, 0, 0, 0];

/// The setting file of K with o = 5.
const SETTING_WITH_ROUNDING: [u8; 20] = [2, 2, 2, 1, 10, 0, 0, 0, 8, 0, 0, 0, 5, 0, 0, 0, 5, 0, 0, 0];

/// The challenge file of case c.
const CHALLENGE_OF_C: [u8; 8] = [1, 0, 0, 0, 2, 0, 0, 0];

fn of_bytes(setting: &[u8], ticket: &[u8], challenge: &[u8]) -> String {
    output(&Files {
        setting: Some(setting),
        ticket: Some(ticket),
        challenge: Some(challenge),
    })
}

/// What is printed for a setting, a ticket and a list.
fn prints(setting: &Setting, ticket: &[u8], list: &[u32]) -> String {
    let setting = setting_file(setting).expect("each size is within its byte");
    of_bytes(&setting, ticket, &challenge_file(list))
}

/// What is printed for a setting with the ticket and the list of case c.
fn prints_for_setting(setting: Setting) -> String {
    prints(&setting, &ticket_of_c(), &[1, 2])
}

/// What is printed for a ticket of K with X = (1, 2).
fn prints_for_ticket(ticket: &[u8]) -> String {
    prints(&K, ticket, &[1, 2])
}

fn ticket_of_c() -> Vec<u8> {
    true_ticket(&K, &A, &B)
}

/// First quotient -1 instead.
fn ticket_of_d() -> Vec<u8> {
    with_claims([-1, 3, 2, -1], [3, 4, 3, 8])
}

/// The ticket of case c with another value in one record.
fn with_value(index: usize, value: u32) -> Vec<u8> {
    let mut ticket = ticket_of_c();
    ticket[8 * index + 4..8 * index + 8].copy_from_slice(&value.to_le_bytes());
    ticket
}

#[test]
fn example_c() {
    assert_eq!(of_bytes(&SETTING_OF_K, &ticket_of_c(), &CHALLENGE_OF_C), "0 0 0 12\n");
}

#[test]
fn examples_d_and_e() {
    assert_eq!(prints(&K, &ticket_of_d(), &[0, 5]), "0 0 0 12\n");
    assert_eq!(prints(&K, &ticket_of_d(), &[1, 5]), "12 0 0 8\n");
}

#[test]
fn example_f() {
    let ticket = with_claims([-1, 4, 2, -1], [3, 4, 3, 8]);
    assert_eq!(prints(&K, &ticket, &[1, P32 - 1]), "0 0 0 12\n");
    assert_eq!(prints(&K, &ticket, &[1, 1]), "12 0 0 8\n");
}

#[test]
fn example_h() {
    let ticket = with_claims([-3, 3, 2, -1], [13, 4, 3, 8]);
    assert_eq!(prints_for_ticket(&ticket), "9 12 0 0\n");
}

#[test]
fn example_i() {
    assert_eq!(prints_for_setting(Setting { bound: 9, ..K }), "3 0 0 0\n");
    let ticket = true_ticket(&K, &[-8, -2, 5, 4], &B);
    assert_eq!(prints_for_ticket(&ticket), "0 0 0 12\n");
}

#[test]
fn example_j() {
    // Within the range, and then caught: the claim is untrue.
    assert_eq!(prints_for_ticket(&with_value(8, residue(-16))), "12 0 0 8\n");
    assert_eq!(prints_for_ticket(&with_value(8, residue(15))), "12 0 0 8\n");
    assert_eq!(prints_for_ticket(&with_value(8, residue(-17))), "8 8 0 0\n");
}

#[test]
fn example_k() {
    let setting = Setting {
        inner: 1,
        scale: 65_536,
        bound: 1,
        width: 14,
        ..K
    };
    // mn + ℓn + ℓm = 2 + 4 + 2.
    let ticket = true_ticket(&setting, &[1, -1], &[-1, 1]);
    assert_eq!(prints(&setting, &ticket, &[1, 2]), "0 0 0 8\n");
    assert_eq!(prints(&Setting { width: 15, ..setting }, &ticket, &[1, 2]), "3 0 0 0\n");
}

#[test]
fn numbers_1_to_3() {
    assert_eq!(prints_for_setting(Setting { columns: 33, ..K }), "1 0 0 0\n");
    assert_eq!(prints_for_setting(Setting { scale: 1, ..K }), "2 0 0 0\n");
    assert_eq!(prints_for_setting(Setting { width: 4, ..K }), "3 0 0 0\n");
}

#[test]
fn numbers_4_to_9() {
    assert_eq!(prints_for_ticket(&[]), "4 0 0 0\n");
    let mut ticket = ticket_of_c();
    ticket[0] = 0x02;
    assert_eq!(prints_for_ticket(&ticket), "5 0 0 0\n");
    let mut ticket = ticket_of_c();
    ticket[4..8].copy_from_slice(&[0xFF, 0xFF, 0xFF, 0x7F]);
    assert_eq!(prints_for_ticket(&ticket), "6 0 0 0\n");
    assert_eq!(prints_for_ticket(&with_value(0, residue(-9))), "7 0 0 0\n");
    assert_eq!(prints_for_ticket(&with_value(8, 16)), "8 8 0 0\n");
    assert_eq!(prints_for_ticket(&with_value(12, 10)), "9 12 0 0\n");
}

#[test]
fn numbers_10_to_12() {
    assert_eq!(prints(&K, &ticket_of_c(), &[1, 2, 3]), "10 0 0 0\n");
    assert_eq!(prints(&K, &ticket_of_c(), &[1, P32]), "11 1 0 0\n");
    assert_eq!(prints(&K, &ticket_of_d(), &[1, 5]), "12 0 0 8\n");
}

#[test]
fn missing_and_empty_files() {
    let ticket = ticket_of_c();
    let whole = Files {
        setting: Some(&SETTING_OF_K),
        ticket: Some(&ticket),
        challenge: Some(&CHALLENGE_OF_C),
    };
    assert_eq!(output(&whole), "0 0 0 12\n");
    for absent in [None, Some(&[][..])] {
        let setting = Files {
            setting: absent,
            ..whole
        };
        assert_eq!(output(&setting), "1 0 0 0\n");
        let ticket = Files {
            ticket: absent,
            ..whole
        };
        assert_eq!(output(&ticket), "4 0 0 0\n");
        let challenge = Files {
            challenge: absent,
            ..whole
        };
        assert_eq!(output(&challenge), "10 0 0 0\n");
        let two = Files {
            ticket: absent,
            ..challenge
        };
        assert_eq!(output(&two), "4 0 0 0\n");
    }
    assert_eq!(output(&Files::default()), "1 0 0 0\n");
}

#[test]
fn setting_files_of_another_length() {
    // K again and again, so that its 20 bytes stand at the begin of the longer
    // ones. "a file of 16 is now 1", which was the length without o.
    let long = SETTING_OF_K.repeat(5000);
    let long_with_rounding = SETTING_WITH_ROUNDING.repeat(5000);
    for length in (0..=64).chain([255, 256, 272, 276, 65_536, 65_552, 65_556]) {
        let expected = if length == 20 { "0 0 0 12\n" } else { "1 0 0 0\n" };
        assert_eq!(of_bytes(&long[..length], &ticket_of_c(), &CHALLENGE_OF_C), expected);
        assert_eq!(
            of_bytes(&long_with_rounding[..length], &ROUNDED_TICKET, &CHALLENGE_OF_C),
            expected
        );
    }
}

#[test]
fn challenge_files_of_another_length() {
    let long = CHALLENGE_OF_C.repeat(10_000);
    for length in (0..=40).chain([264, 1024, 65_536, 65_544]) {
        let expected = if length == 8 { "0 0 0 12\n" } else { "10 0 0 0\n" };
        assert_eq!(of_bytes(&SETTING_OF_K, &ticket_of_c(), &long[..length]), expected);
    }
}

#[test]
fn ticket_files_of_another_length() {
    let long = ticket_of_c().repeat(1000);
    for length in (0..=300).chain([49_152, 65_535, 65_536, 65_537, 65_664]) {
        let expected = if length == 128 { "0 0 0 12\n" } else { "4 0 0 0\n" };
        assert_eq!(of_bytes(&SETTING_OF_K, &long[..length], &CHALLENGE_OF_C), expected);
    }
}

#[test]
fn the_order_of_the_tests() {
    // All at once, and then one less each time. In the list of 7 bytes there is
    // one whole number, which is p.
    let short = &SETTING_OF_K[..16];
    let list = [0xFF, 0xFF, 0xFF, 0x7F, 0, 0, 0];
    let file = |setting| setting_file(&setting).expect("each size is within its byte");
    let wrong = Setting {
        columns: 33,
        scale: 1,
        width: 4,
        rounding: 10,
        ..K
    };
    assert_eq!(of_bytes(short, &[], &list), "1 0 0 0\n");
    assert_eq!(of_bytes(&file(wrong), &[], &list), "1 0 0 0\n");
    let wrong = Setting { columns: 2, ..wrong };
    assert_eq!(of_bytes(&file(wrong), &[], &list), "2 0 0 0\n");
    let wrong = Setting { scale: 10, ..wrong };
    assert_eq!(of_bytes(&file(wrong), &[], &list), "19 0 0 0\n");
    let wrong = Setting { rounding: 9, ..wrong };
    assert_eq!(of_bytes(&file(wrong), &[], &list), "3 0 0 0\n");
    assert_eq!(of_bytes(&SETTING_OF_K, &[], &list), "4 0 0 0\n");
    assert_eq!(of_bytes(&SETTING_OF_K, &with_value(15, 10), &list), "9 15 0 0\n");
    assert_eq!(of_bytes(&SETTING_OF_K, &ticket_of_d(), &list), "10 0 0 0\n");
    assert_eq!(prints(&K, &ticket_of_d(), &[P32, 0]), "11 0 0 0\n");
    assert_eq!(prints(&K, &ticket_of_d(), &[0, 0]), "21 0 0 0\n");
    assert_eq!(prints(&K, &ticket_of_d(), &[1, 5]), "12 0 0 8\n");
}

#[test]
fn sizes_beyond_their_limits_in_a_byte() {
    for place in 0..4 {
        for size in [0, 65, 128, 255] {
            let mut setting = SETTING_OF_K;
            setting[place] = size;
            assert_eq!(of_bytes(&setting, &ticket_of_c(), &CHALLENGE_OF_C), "1 0 0 0\n");
        }
    }
}

#[test]
fn every_byte_of_a_number_counts() {
    // α = 266 is within its limits, and the claims are untrue under it: 266·(-2)
    // + 3 instead of -17.
    let mut setting = SETTING_OF_K;
    setting[5] = 1;
    assert_eq!(of_bytes(&setting, &ticket_of_c(), &CHALLENGE_OF_C), "12 0 0 8\n");
    // T = 264 is as well, and doesn't fit.
    let mut setting = SETTING_OF_K;
    setting[9] = 1;
    assert_eq!(of_bytes(&setting, &ticket_of_c(), &CHALLENGE_OF_C), "3 0 0 0\n");
    for place in [6, 7, 10, 11, 13, 14, 15] {
        for byte in [1, 0x80, 0xFF] {
            let mut setting = SETTING_OF_K;
            setting[place] = byte;
            assert_eq!(of_bytes(&setting, &ticket_of_c(), &CHALLENGE_OF_C), "2 0 0 0\n");
        }
    }
    // o = 1 is below α, and the claims are untrue under it.
    let mut setting = SETTING_OF_K;
    setting[16] = 1;
    assert_eq!(of_bytes(&setting, &ticket_of_c(), &CHALLENGE_OF_C), "12 0 0 8\n");
    for place in [17, 18, 19] {
        for byte in [1, 0x80, 0xFF] {
            let mut setting = SETTING_OF_K;
            setting[place] = byte;
            assert_eq!(of_bytes(&setting, &ticket_of_c(), &CHALLENGE_OF_C), "19 0 0 0\n");
        }
    }
}

#[test]
fn rounding_to_the_nearest() {
    let answer_to = |ticket: &[u8]| of_bytes(&SETTING_WITH_ROUNDING, ticket, &CHALLENGE_OF_C);
    assert_eq!(answer_to(&ROUNDED_TICKET), "0 0 0 12\n");
    assert_eq!(answer_to(&ticket_of_c()), "12 0 0 8\n");
    assert_eq!(prints_for_ticket(&ROUNDED_TICKET), "12 0 0 8\n");
    // In row 1 alone, 4 + 2·4 products.
    assert_eq!(answer_to(&with_claims([-2, 3, 2, 0], [8, 9, 8, 2])), "12 0 1 12\n");
}

#[test]
fn number_19() {
    for below in [0, 1, 5, 9] {
        let setting = Setting { rounding: below, ..K };
        assert_eq!(prints(&setting, &true_ticket(&setting, &A, &B), &[1, 2]), "0 0 0 12\n");
    }
    for rounding in [10, 11, 256, 65_536, P32, u32::MAX] {
        assert_eq!(prints_for_setting(Setting { rounding, ..K }), "19 0 0 0\n");
    }
}

#[test]
fn number_21() {
    // A true and a false ticket.
    for ticket in [ticket_of_c(), ticket_of_d()] {
        assert_eq!(of_bytes(&SETTING_OF_K, &ticket, &[0; 8]), "21 0 0 0\n");
        assert_eq!(of_bytes(&SETTING_OF_K, &ticket, &[0; 7]), "10 0 0 0\n");
        assert_eq!(of_bytes(&SETTING_OF_K, &ticket, &[0; 12]), "10 0 0 0\n");
        let of = |vectors: &[[u32; 2]]| {
            let setting = Setting {
                vectors: vectors.len() as u32,
                ..K
            };
            prints(&setting, &ticket, &vectors.concat())
        };
        assert_eq!(of(&[[0, 0], [1, 5]]), "21 0 0 0\n");
        assert_eq!(of(&[[1, 5], [0, 0]]), "21 1 0 0\n");
        assert_eq!(of(&[[1, 5], [0, 0], [0, 0]]), "21 1 0 0\n");
        assert_eq!(of(&[[0, 0], [1, P32]]), "11 3 0 0\n");
        assert_eq!(of(&[[0, 5], [0, P32 - 1]]), "0 0 0 24\n");
        let mut last = [[1, 5]; 8];
        last[7] = [0, 0];
        assert_eq!(of(&last), "21 7 0 0\n");
    }
    // One bit in any byte, and it is a challenge. 2^31 is beyond p.
    for place in 0..8 {
        for bit in 0..8 {
            let mut challenge = [0; 8];
            challenge[place] = 1 << bit;
            let expected = match (place, bit) {
                (3, 7) => "11 0 0 0\n",
                (7, 7) => "11 1 0 0\n",
                _ => "0 0 0 12\n",
            };
            assert_eq!(of_bytes(&SETTING_OF_K, &ticket_of_c(), &challenge), expected);
        }
    }
}

#[test]
fn bytes_of_a_setting() {
    assert_eq!(setting_file(&K), Some(SETTING_OF_K));
    assert_eq!(setting_file(&K_WITH_ROUNDING), Some(SETTING_WITH_ROUNDING));
    let setting = Setting::from([1, 2, 3, 4, 0x0807_0605, 0x0C0B_0A09, 0x100F_0E0D, 0x1413_1211]);
    let bytes = [1, 2, 3, 4, 5, 6, 7, 8, 9, 10, 11, 12, 13, 14, 15, 16, 17, 18, 19, 20];
    assert_eq!(setting_file(&setting), Some(bytes));
    assert_eq!(read_setting(&bytes), Ok(setting));
    let greatest = Setting::from([255, 255, 255, 255, u32::MAX, u32::MAX, u32::MAX, u32::MAX]);
    assert_eq!(setting_file(&greatest), Some([0xFF; 20]));
    for index in 0..4 {
        let mut numbers = K.numbers();
        numbers[index] = 256;
        assert_eq!(setting_file(&Setting::from(numbers)), None);
    }
}

#[test]
fn bytes_of_a_list() {
    assert_eq!(challenge_file(&[]), []);
    assert_eq!(challenge_file(&[1, 2]), CHALLENGE_OF_C);
    assert_eq!(
        challenge_file(&[P32, 0x0403_0201]),
        [0xFF, 0xFF, 0xFF, 0x7F, 1, 2, 3, 4]
    );
    assert_eq!(
        read_challenge(&K, &[0xFF, 0xFF, 0xFF, 0x7F, 1, 2, 3, 4]),
        Ok(vec![P32, 0x0403_0201])
    );
}

#[test]
fn the_text_of_an_answer() {
    assert_eq!(line(&Answer::from([0, 0, 0, 0])), "0 0 0 0\n");
    assert_eq!(line(&Answer::from([12, 7, 31, 40_960])), "12 7 31 40960\n");
    assert_eq!(
        line(&Answer::from([u32::MAX; 4])),
        "4294967295 4294967295 4294967295 4294967295\n"
    );
}

#[test]
fn the_same_answer_as_the_check() {
    let numbers = [0, 1, 2, P32 - 1, P32];
    let rounded = ROUNDED_TICKET.to_vec();
    for ticket in [ticket_of_c(), ticket_of_d(), rounded, with_value(8, 16), Vec::new()] {
        for setting in [K, K_WITH_ROUNDING] {
            for x in numbers {
                for y in numbers {
                    let expected = line(&challenge_check(&setting, &ticket, &[x, y]));
                    assert_eq!(prints(&setting, &ticket, &[x, y]), expected);
                }
            }
        }
    }
}
