//! The whole ticket under K and every example of the table that concerns the
//! writer, then what they leave out: the order of the tests, the ends of the
//! operands' range and of their type, the lengths, and the floor.

use super::*;
use crate::examples::{K, TICKET};
use crate::{challenge_check, full_check};

const A: [i32; 4] = [3, -2, 5, 4];
const B: [i32; 4] = [-1, 6, 7, -8];

/// m = n = ℓ = 1, where 32767² + 32766 = 1073709055 is below 2^15·32767 by one.
const OF_ONE: Setting = Setting {
    rows: 1,
    inner: 1,
    columns: 1,
    vectors: 1,
    scale: 32_767,
    bound: 32_767,
    width: 16,
    rounding: 0,
};

fn answer(number: u32, place: u32, row: u32, products: u32) -> Answer {
    Answer::from([number, place, row, products])
}

/// What an output holds before, no byte as the ticket has it there.
fn filled(length: usize) -> Vec<u8> {
    let of_ticket = TICKET.iter().map(|byte| byte ^ 0xFF);
    of_ticket.chain(std::iter::repeat(0xA5)).take(length).collect()
}

/// The refusal of these operands and an output of this length, by number and
/// place. It changes no byte, and the other two numbers are 0.
fn refusal(setting: &Setting, a: &[i32], b: &[i32], length: usize) -> [u32; 2] {
    let mut output = filled(length);
    let Answer {
        number,
        place,
        row,
        products,
    } = write_ticket(setting, a, b, &mut output);
    assert_ne!(number, 0);
    assert_eq!([row, products], [0, 0]);
    assert_eq!(output, filled(length));
    [number, place]
}

/// The values of the ticket that is written for one row, one entry and one
/// column.
fn values_of_one(setting: &Setting, a: i32, b: i32) -> [u32; 4] {
    let mut output = [0xEE; 32];
    assert_eq!(write_ticket(setting, &[a], &[b], &mut output), answer(0, 32, 0, 1));
    assert_eq!(full_check(setting, &output), answer(0, 0, 0, 1));
    [0, 1, 2, 3].map(|record| {
        let bytes = &output[8 * record..8 * record + 8];
        assert_eq!(bytes[..4], [record as u8 + 1, 0, 0, 0]);
        u32::from_le_bytes([bytes[4], bytes[5], bytes[6], bytes[7]])
    })
}

#[test]
fn the_whole_ticket() {
    let mut output = filled(128);
    assert_eq!(write_ticket(&K, &A, &B, &mut output), answer(0, 128, 0, 8));
    assert_eq!(output, TICKET);
}

#[test]
fn both_checks_accept_it() {
    assert_eq!(full_check(&K, &TICKET), answer(0, 0, 0, 8));
    assert_eq!(challenge_check(&K, &TICKET, &[1, 2]), answer(0, 0, 0, 12));
    assert_eq!(challenge_check(&K, &TICKET, &[2_147_483_646, 0]), answer(0, 0, 0, 12));
}

#[test]
fn a_longer_output_keeps_its_end() {
    for length in [129, 136, 200, 5000] {
        let mut output = filled(length);
        assert_eq!(write_ticket(&K, &A, &B, &mut output), answer(0, 128, 0, 8));
        assert_eq!(output[..128], TICKET);
        assert_eq!(output[128..], filled(length)[128..]);
    }
}

#[test]
fn numbers_1_to_3() {
    assert_eq!(refusal(&Setting { columns: 33, ..K }, &A, &B, 128), [1, 0]);
    assert_eq!(refusal(&Setting { scale: 1, ..K }, &A, &B, 128), [2, 0]);
    assert_eq!(refusal(&Setting { width: 4, ..K }, &A, &B, 128), [3, 0]);
    assert_eq!(refusal(&Setting { bound: 9, ..K }, &A, &B, 128), [3, 0]);
}

#[test]
fn number_13() {
    assert_eq!(refusal(&K, &A[..3], &B, 128), [13, 0]);
    assert_eq!(refusal(&K, &A, &B[..3], 128), [13, 1]);
    // A precedes B.
    assert_eq!(refusal(&K, &A[..3], &B[..3], 128), [13, 0]);
    assert_eq!(refusal(&K, &[], &[], 128), [13, 0]);
    assert_eq!(refusal(&K, &A, &[], 128), [13, 1]);
    assert_eq!(refusal(&K, &[1; 5], &B, 128), [13, 0]);
    assert_eq!(refusal(&K, &A, &[1; 5], 128), [13, 1]);
    // Both are of the length of the other: ℓm = 2 and mn = 3.
    let setting = Setting {
        inner: 1,
        columns: 3,
        ..K
    };
    assert_eq!(refusal(&setting, &[1; 3], &[1; 2], 136), [13, 0]);
}

#[test]
fn number_14() {
    // "9 first in B: 4"
    assert_eq!(refusal(&K, &A, &[9, 6, 7, -8], 128), [14, 4]);
    for index in 0..4 {
        for beyond in [9, -9, 32_768, -32_768, i32::MAX, -i32::MAX, i32::MIN] {
            let mut other = A;
            other[index] = beyond;
            assert_eq!(refusal(&K, &other, &B, 128), [14, index as u32]);
            // Counted on from A into B.
            let mut other = B;
            other[index] = beyond;
            assert_eq!(refusal(&K, &A, &other, 128), [14, 4 + index as u32]);
        }
    }
}

#[test]
fn the_first_index_decides_14() {
    assert_eq!(refusal(&K, &[3, -2, 9, 100], &B, 128), [14, 2]);
    assert_eq!(refusal(&K, &[3, -2, 5, 9], &[1000, 6, 7, -8], 128), [14, 3]);
    assert_eq!(refusal(&K, &A, &[-1, 6, -9, i32::MIN], 128), [14, 6]);
}

#[test]
fn number_15() {
    for length in [0, 1, 8, 120, 126, 127] {
        assert_eq!(refusal(&K, &A, &B, length), [15, 0]);
    }
}

#[test]
fn the_order_of_the_tests() {
    // All at once, and then one less each time.
    let wrong = Setting {
        columns: 33,
        scale: 1,
        width: 4,
        ..K
    };
    assert_eq!(refusal(&wrong, &[9; 3], &[9; 3], 0), [1, 0]);
    let wrong = Setting { columns: 2, ..wrong };
    assert_eq!(refusal(&wrong, &[9; 3], &[9; 3], 0), [2, 0]);
    let wrong = Setting { scale: 10, ..wrong };
    assert_eq!(refusal(&wrong, &[9; 3], &[9; 3], 0), [3, 0]);
    assert_eq!(refusal(&K, &[9; 3], &[9; 3], 0), [13, 0]);
    assert_eq!(refusal(&K, &[9; 4], &[9; 3], 0), [13, 1]);
    assert_eq!(refusal(&K, &[9; 4], &[9; 4], 0), [14, 0]);
    assert_eq!(refusal(&K, &[8; 4], &[9; 4], 0), [14, 4]);
    assert_eq!(refusal(&K, &[8; 4], &[8; 4], 0), [15, 0]);
    // S = 128 everywhere: 12 times 10 and 8.
    let mut output = filled(128);
    assert_eq!(write_ticket(&K, &[8; 4], &[8; 4], &mut output), answer(0, 128, 0, 8));
    assert_eq!(output[64..72], [0x03, 0x00, 0x00, 0x00, 0x0C, 0x00, 0x00, 0x00]);
    assert_eq!(output[120..], [0x04, 0x00, 0x01, 0x01, 0x08, 0x00, 0x00, 0x00]);
}

#[test]
fn the_ends_of_the_operands() {
    // -T is taken: S = (-8)·(-8) + (-8)·(-8) = 128.
    let mut output = filled(128);
    assert_eq!(write_ticket(&K, &[-8; 4], &[-8; 4], &mut output), answer(0, 128, 0, 8));
    // p - 8 in record 0, 12 in record 8.
    assert_eq!(output[4..8], [0xF7, 0xFF, 0xFF, 0x7F]);
    assert_eq!(output[68..72], [0x0C, 0x00, 0x00, 0x00]);
    // S = -128 = 10·(-13) + 2, and p - 13 ends in F2.
    let mut output = filled(128);
    assert_eq!(write_ticket(&K, &[-8; 4], &[8; 4], &mut output), answer(0, 128, 0, 8));
    assert_eq!(output[68..72], [0xF2, 0xFF, 0xFF, 0x7F]);
    assert_eq!(output[100..104], [0x02, 0x00, 0x00, 0x00]);
    assert_eq!(refusal(&K, &[-9; 4], &[8; 4], 128), [14, 0]);
}

#[test]
fn the_greatest_bound() {
    // 32767·32767 = 1073676289, over 32767 it is 32767; p - 32767 = 2147450880.
    assert_eq!(values_of_one(&OF_ONE, 32_767, 32_767), [32_767, 32_767, 32_767, 0]);
    assert_eq!(
        values_of_one(&OF_ONE, 32_767, -32_767),
        [32_767, 2_147_450_880, 2_147_450_880, 0]
    );
    // -32766·32766 = -1073610756 = 32767·(-32766) + 32766, and p - 32766 =
    // 2147450881.
    assert_eq!(
        values_of_one(&OF_ONE, -32_766, 32_766),
        [2_147_450_881, 32_766, 2_147_450_881, 32_766]
    );
    for beyond in [-32_768, 32_768, i32::MIN, i32::MAX, -i32::MAX] {
        assert_eq!(refusal(&OF_ONE, &[beyond], &[1], 32), [14, 0]);
        assert_eq!(refusal(&OF_ONE, &[1], &[beyond], 32), [14, 1]);
    }
}

#[test]
fn what_stands_for_a_small_entry_modulo_p_is_beyond_all_the_same() {
    // p stands for 0, as -p does; -2^31 = -p - 1 stands for -1.
    let setting = Setting {
        scale: 2,
        bound: 1,
        width: 1,
        ..OF_ONE
    };
    for beyond in [i32::MAX, -i32::MAX, i32::MIN, -2, 2] {
        assert_eq!(refusal(&setting, &[beyond], &[0], 32), [14, 0]);
        assert_eq!(refusal(&setting, &[0], &[beyond], 32), [14, 1]);
    }
}

#[test]
fn the_narrowest_quotients() {
    // S is 1, 0 or -1; -1 = 2·(-1) + 1.
    let setting = Setting {
        scale: 2,
        bound: 1,
        width: 1,
        ..OF_ONE
    };
    assert_eq!(values_of_one(&setting, 1, 1), [1, 1, 0, 1]);
    assert_eq!(values_of_one(&setting, -1, -1), [2_147_483_646, 2_147_483_646, 0, 1]);
    assert_eq!(values_of_one(&setting, 1, -1), [1, 2_147_483_646, 2_147_483_646, 1]);
    assert_eq!(values_of_one(&setting, 0, -1), [0, 2_147_483_646, 0, 0]);
}

#[test]
fn rows_and_columns_that_differ() {
    // A = (1, -2, 3) and B = (4, -5), (6, 7), (-8, 1): S = 4 - 12 - 24 = -32 and
    // -5 - 14 + 3 = -16, so q = -4, -2 and r = 8, 4. There are 13 records.
    let setting = Setting {
        rows: 1,
        inner: 3,
        width: 6,
        ..K
    };
    let mut output = [0xEE; 105];
    assert_eq!(
        write_ticket(&setting, &[1, -2, 3], &[4, -5, 6, 7, -8, 1], &mut output),
        answer(0, 104, 0, 6)
    );
    assert_eq!(output[16..24], [0x01, 0x00, 0x00, 0x02, 0x03, 0x00, 0x00, 0x00]);
    assert_eq!(output[64..72], [0x02, 0x00, 0x02, 0x01, 0x01, 0x00, 0x00, 0x00]);
    assert_eq!(output[72..80], [0x03, 0x00, 0x00, 0x00, 0xFB, 0xFF, 0xFF, 0x7F]);
    assert_eq!(output[80..88], [0x03, 0x00, 0x00, 0x01, 0xFD, 0xFF, 0xFF, 0x7F]);
    assert_eq!(output[88..96], [0x04, 0x00, 0x00, 0x00, 0x08, 0x00, 0x00, 0x00]);
    assert_eq!(output[96..], [0x04, 0x00, 0x00, 0x01, 0x04, 0x00, 0x00, 0x00, 0xEE]);
}

#[test]
fn the_floor() {
    let claim = |sum, scale| claim(&Setting { scale, ..K }, sum);
    // "-17 over 10 is -2, not -1."
    assert_eq!(claim(-17, 10), (-2, 3));
    assert_eq!(claim(-2, 10), (-1, 8));
    assert_eq!(claim(-1, 10), (-1, 9));
    assert_eq!(claim(-9, 10), (-1, 1));
    assert_eq!(claim(-10, 10), (-1, 0));
    assert_eq!(claim(-11, 10), (-2, 9));
    assert_eq!(claim(-20, 10), (-2, 0));
    assert_eq!(claim(0, 10), (0, 0));
    assert_eq!(claim(9, 10), (0, 9));
    assert_eq!(claim(10, 10), (1, 0));
    assert_eq!(claim(34, 10), (3, 4));
    assert_eq!(claim(-1_073_741_823, 65_536), (-16_384, 1));
}

#[test]
fn the_floor_is_the_one_quotient_with_a_remainder_in_range() {
    for alpha in 2..20 {
        for sum in -200..200 {
            let right: Vec<i128> = (-200..200)
                .filter(|quotient| (0..alpha).contains(&(sum - alpha * quotient)))
                .collect();
            assert_eq!(right, [floor(sum, alpha)]);
        }
    }
}

#[test]
fn every_number_at_its_greatest() {
    let setting = Setting::from([u32::MAX; 8]);
    assert_eq!(refusal(&setting, &[], &[], 0), [1, 0]);
    assert_eq!(refusal(&setting, &[i32::MIN; 9], &[i32::MAX; 9], 1000), [1, 0]);
    let within_sizes = Setting::from([32, 64, 32, 8, u32::MAX, u32::MAX, u32::MAX, u32::MAX]);
    assert_eq!(refusal(&within_sizes, &[], &[], 0), [2, 0]);
    for (index, number) in [1, 1, 1, 1, 2, 2, 2, 19].into_iter().enumerate() {
        let mut numbers = K.numbers();
        numbers[index] = u32::MAX;
        assert_eq!(refusal(&Setting::from(numbers), &A, &B, 128), [number, 0]);
    }
}

#[test]
fn the_largest_ticket() {
    // 8·(2048 + 2048 + 2·1024) = 49152 bytes, and 65536 products. S = 64 in row
    // 0 and 0 in the others: 6 times 10 and 4.
    let setting = Setting::from([32, 64, 32, 8, 10, 1, 5]);
    let mut a = [0; 2048];
    a[..64].fill(-1);
    let b = [-1; 2048];
    let mut output = vec![0; 49_152];
    assert_eq!(
        write_ticket(&setting, &a, &b, &mut output),
        answer(0, 49_152, 0, 65_536)
    );
    let value = |record: usize| output[8 * record + 4];
    assert_eq!([value(4096), value(4127), value(4128), value(5119)], [6, 6, 0, 0]);
    assert_eq!([value(5120), value(5151), value(5152), value(6143)], [4, 4, 0, 0]);
    assert_eq!(output[49_144..], [0x04, 0x00, 0x1F, 0x1F, 0x00, 0x00, 0x00, 0x00]);
    assert_eq!(full_check(&setting, &output), answer(0, 0, 0, 65_536));
    assert_eq!(refusal(&setting, &a, &b, 49_151), [15, 0]);
}
