//! The writer of bias tickets: the whole ticket under K with a bias, the numbers
//! 13, 17 and 18, then what they leave out: the order of the tests, the ends of
//! the bias's range and of its type, and the lengths.

use super::*;
use crate::examples::{BIAS_TICKET, K, K_WITH_BIAS, TICKET};
use crate::{bias_challenge_check, bias_full_check, full_check};

const A: [i32; 4] = [3, -2, 5, 4];
const B: [i32; 4] = [-1, 6, 7, -8];
const BIAS: [i32; 4] = [-4, 23, -23, 5];

fn answer(number: u32, place: u32, row: u32, products: u32) -> Answer {
    Answer::from([number, place, row, products])
}

/// What an output holds before, no byte as the ticket has it there.
fn filled(length: usize) -> Vec<u8> {
    let of_ticket = BIAS_TICKET.iter().map(|byte| byte ^ 0xFF);
    of_ticket.chain(std::iter::repeat(0xA5)).take(length).collect()
}

/// The refusal of these operands and an output of this length, by number and
/// place. It changes no byte, and the other two numbers are 0.
fn refusal(setting: &BiasSetting, [a, b, bias]: [&[i32]; 3], length: usize) -> [u32; 2] {
    let mut output = filled(length);
    let Answer {
        number,
        place,
        row,
        products,
    } = write_bias_ticket(setting, a, b, bias, &mut output);
    assert_ne!(number, 0);
    assert_eq!([row, products], [0, 0]);
    assert_eq!(output, filled(length));
    [number, place]
}

/// The values of the ticket that is written for one row, one entry and one
/// column.
fn values_of_one(setting: &BiasSetting, a: i32, b: i32, c: i32) -> [u32; 5] {
    let mut output = [0xEE; 40];
    assert_eq!(
        write_bias_ticket(setting, &[a], &[b], &[c], &mut output),
        answer(0, 40, 0, 1)
    );
    assert_eq!(bias_full_check(setting, &output), answer(0, 0, 0, 1));
    [(0, 1), (1, 2), (2, 5), (3, 3), (4, 4)].map(|(record, kind)| {
        let bytes = &output[8 * record..8 * record + 8];
        assert_eq!(bytes[..4], [kind, 0, 0, 0]);
        u32::from_le_bytes([bytes[4], bytes[5], bytes[6], bytes[7]])
    })
}

#[test]
fn the_whole_ticket() {
    let mut output = filled(160);
    assert_eq!(
        write_bias_ticket(&K_WITH_BIAS, &A, &B, &BIAS, &mut output),
        answer(0, 160, 0, 8)
    );
    assert_eq!(output, BIAS_TICKET);
}

#[test]
fn both_checks_accept_it() {
    assert_eq!(bias_full_check(&K_WITH_BIAS, &BIAS_TICKET), answer(0, 0, 0, 8));
    assert_eq!(
        bias_challenge_check(&K_WITH_BIAS, &BIAS_TICKET, &[1, 2]),
        answer(0, 0, 0, 16)
    );
}

#[test]
fn a_longer_output_keeps_its_end() {
    for length in [161, 168, 200, 5000] {
        let mut output = filled(length);
        assert_eq!(
            write_bias_ticket(&K_WITH_BIAS, &A, &B, &BIAS, &mut output),
            answer(0, 160, 0, 8)
        );
        assert_eq!(output[..160], BIAS_TICKET);
        assert_eq!(output[160..], filled(length)[160..]);
    }
}

#[test]
fn a_bias_of_zeros_gives_the_plain_claims() {
    let mut output = filled(160);
    assert_eq!(
        write_bias_ticket(&K_WITH_BIAS, &A, &B, &[0; 4], &mut output),
        answer(0, 160, 0, 8)
    );
    assert_eq!(output[..64], TICKET[..64]);
    assert_eq!(output[96..], TICKET[64..]);
    assert_eq!(output[64..72], [0x05, 0x00, 0x00, 0x00, 0x00, 0x00, 0x00, 0x00]);
    // The plain call still writes the plain ticket into this output.
    assert_eq!(write_ticket(&K, &A, &B, &mut output), answer(0, 128, 0, 8));
    assert_eq!(output[..128], TICKET);
    assert_eq!(full_check(&K, &output[..128]), answer(0, 0, 0, 8));
}

#[test]
fn numbers_1_to_3_and_17() {
    let of = |setting, bias_bound| refusal(&BiasSetting { setting, bias_bound }, [&A, &B, &BIAS], 160);
    assert_eq!(of(Setting { columns: 33, ..K }, 23), [1, 0]);
    assert_eq!(of(Setting { scale: 1, ..K }, 23), [2, 0]);
    assert_eq!(of(Setting { width: 4, ..K }, 23), [3, 0]);
    assert_eq!(of(K, 24), [3, 0]);
    assert_eq!(of(K, 1 << 30), [3, 0]);
    for beyond in [(1 << 30) + 1, 1 << 31, u32::MAX] {
        assert_eq!(of(K, beyond), [17, 0]);
    }
}

#[test]
fn number_13() {
    let of = |operands| refusal(&K_WITH_BIAS, operands, 160);
    assert_eq!(of([&A[..3], &B, &BIAS]), [13, 0]);
    assert_eq!(of([&A, &B[..3], &BIAS]), [13, 1]);
    assert_eq!(of([&A, &B, &BIAS[..3]]), [13, 2]);
    assert_eq!(of([&A, &B, &[]]), [13, 2]);
    assert_eq!(of([&A, &B, &[0; 5]]), [13, 2]);
    // A precedes B, and B the bias.
    assert_eq!(of([&[], &[], &[]]), [13, 0]);
    assert_eq!(of([&A, &[], &[]]), [13, 1]);
    // ℓm = 2, mn = 3 and ℓn = 6; a bias of m by n or ℓ by m is refused.
    let setting = BiasSetting::from([2, 1, 3, 1, 10, 8, 5, 0, 23]);
    assert_eq!(refusal(&setting, [&[1; 2], &[1; 3], &[1; 3]], 200), [13, 2]);
    assert_eq!(refusal(&setting, [&[1; 2], &[1; 3], &[1; 2]], 200), [13, 2]);
    assert_eq!(refusal(&setting, [&[1; 2], &[1; 3], &[24; 6]], 200), [18, 5]);
}

#[test]
fn number_14() {
    let of = |operands| refusal(&K_WITH_BIAS, operands, 160);
    assert_eq!(of([&[3, -2, 5, 9], &B, &BIAS]), [14, 3]);
    assert_eq!(of([&A, &[9, 6, 7, -8], &BIAS]), [14, 4]);
    assert_eq!(of([&A, &[-1, 6, 7, -9], &BIAS]), [14, 7]);
}

#[test]
fn number_18() {
    for index in 0..4 {
        for beyond in [24, -24, 1_073_741_824, i32::MAX, -i32::MAX, i32::MIN] {
            let mut bias = BIAS;
            bias[index] = beyond;
            assert_eq!(refusal(&K_WITH_BIAS, [&A, &B, &bias], 160), [18, 8 + index as u32]);
        }
    }
    // The first index decides.
    assert_eq!(refusal(&K_WITH_BIAS, [&A, &B, &[0, 0, -24, 24]], 160), [18, 10]);
    // 3 of A and 6 of B, and then the second of the bias.
    let setting = BiasSetting::from([1, 3, 2, 1, 10, 8, 6, 0, 119]);
    assert_eq!(refusal(&setting, [&[1; 3], &[1; 6], &[119, 120]], 120), [18, 10]);
    // A bias bound of 0 allows 0 alone.
    let setting = BiasSetting {
        bias_bound: 0,
        ..K_WITH_BIAS
    };
    assert_eq!(refusal(&setting, [&A, &B, &[0, 0, 0, 1]], 160), [18, 11]);
    assert_eq!(refusal(&setting, [&A, &B, &[-1, 0, 0, 0]], 160), [18, 8]);
}

#[test]
fn number_15() {
    for length in [0, 1, 8, 127, 128, 152, 159] {
        assert_eq!(refusal(&K_WITH_BIAS, [&A, &B, &BIAS], length), [15, 0]);
    }
}

#[test]
fn the_order_of_the_tests() {
    // All at once, and then one less each time.
    let mut setting = BiasSetting::from([2, 2, 33, 1, 1, 8, 4, 0, u32::MAX]);
    let wrong: [&[i32]; 3] = [&[9; 3], &[9; 3], &[24; 3]];
    assert_eq!(refusal(&setting, wrong, 0), [1, 0]);
    setting.setting.columns = 2;
    assert_eq!(refusal(&setting, wrong, 0), [2, 0]);
    setting.setting.scale = 10;
    assert_eq!(refusal(&setting, wrong, 0), [17, 0]);
    setting.bias_bound = 23;
    assert_eq!(refusal(&setting, wrong, 0), [3, 0]);
    setting.setting.width = 5;
    assert_eq!(refusal(&setting, wrong, 0), [13, 0]);
    assert_eq!(refusal(&setting, [&[9; 4], &[9; 3], &[24; 3]], 0), [13, 1]);
    assert_eq!(refusal(&setting, [&[9; 4], &[9; 4], &[24; 3]], 0), [13, 2]);
    assert_eq!(refusal(&setting, [&[9; 4], &[9; 4], &[24; 4]], 0), [14, 0]);
    assert_eq!(refusal(&setting, [&[8; 4], &[9; 4], &[24; 4]], 0), [14, 4]);
    assert_eq!(refusal(&setting, [&[8; 4], &[8; 4], &[24; 4]], 0), [18, 8]);
    assert_eq!(refusal(&setting, [&[8; 4], &[8; 4], &[23; 4]], 0), [15, 0]);
    // S + c = 151 everywhere: 15 times 10 and 1.
    let mut output = filled(160);
    assert_eq!(
        write_bias_ticket(&setting, &[8; 4], &[8; 4], &[23; 4], &mut output),
        answer(0, 160, 0, 8)
    );
    assert_eq!(output[96..104], [0x03, 0x00, 0x00, 0x00, 0x0F, 0x00, 0x00, 0x00]);
    assert_eq!(output[152..], [0x04, 0x00, 0x01, 0x01, 0x01, 0x00, 0x00, 0x00]);
}

#[test]
fn the_greatest_bias() {
    // S + c = 1073676290 = 32767·32767 + 1, and -1073676290 = 32767·(-32768) +
    // 32766; p - 1073676289 = 1073807358 and p - 32768 = 2147450879.
    let setting = BiasSetting::from([1, 1, 1, 1, 32_767, 1, 16, 0, 1_073_676_289]);
    assert_eq!(
        values_of_one(&setting, 1, 1, 1_073_676_289),
        [1, 1, 1_073_676_289, 32_767, 1]
    );
    assert_eq!(
        values_of_one(&setting, 1, -1, -1_073_676_289),
        [1, 2_147_483_646, 1_073_807_358, 2_147_450_879, 32_766]
    );
    for beyond in [1_073_676_290, -1_073_676_290, i32::MAX, i32::MIN] {
        assert_eq!(refusal(&setting, [&[1], &[1], &[beyond]], 40), [18, 2]);
    }
}

#[test]
fn what_stands_for_a_small_entry_modulo_p_is_beyond_all_the_same() {
    // p stands for 0, as -p does; -2^31 = -p - 1 stands for -1.
    for beyond in [i32::MAX, -i32::MAX, i32::MIN] {
        assert_eq!(refusal(&K_WITH_BIAS, [&A, &B, &[0, beyond, 0, 0]], 160), [18, 9]);
    }
}

#[test]
fn a_bias_that_moves_a_sum_over_a_multiple_of_the_scale() {
    // S = 6, and c from -23 to 23: -17, -10, -1, 0, 9, 10, 29.
    let setting = BiasSetting::from([1, 1, 1, 1, 10, 8, 5, 0, 23]);
    let of = |c| {
        let [.., quotient, remainder] = values_of_one(&setting, 2, 3, c);
        [quotient, remainder]
    };
    assert_eq!(of(-23), [2_147_483_645, 3]);
    assert_eq!(of(-16), [2_147_483_646, 0]);
    assert_eq!(of(-7), [2_147_483_646, 9]);
    assert_eq!(of(-6), [0, 0]);
    assert_eq!(of(3), [0, 9]);
    assert_eq!(of(4), [1, 0]);
    assert_eq!(of(23), [2, 9]);
}

#[test]
fn every_number_at_its_greatest() {
    let of = |numbers| refusal(&BiasSetting::from(numbers), [&A, &B, &BIAS], 160);
    assert_eq!(of([u32::MAX; 9]), [1, 0]);
    for (index, number) in [1, 1, 1, 1, 2, 2, 2, 19, 17].into_iter().enumerate() {
        let mut numbers = K_WITH_BIAS.numbers();
        numbers[index] = u32::MAX;
        assert_eq!(of(numbers), [number, 0]);
    }
}

#[test]
fn the_largest_ticket() {
    // 8·(2048 + 2048 + 3·1024) = 57344 bytes, and 65536 products. S = 64 in row
    // 0 and 0 in the others, and c = -31: 33 = 3·10 + 3 and -31 = -4·10 + 9.
    let setting = BiasSetting::from([32, 64, 32, 8, 10, 1, 5, 0, 31]);
    let mut a = [0; 2048];
    a[..64].fill(-1);
    let b = [-1; 2048];
    let bias = [-31; 1024];
    let mut output = vec![0; 57_344];
    assert_eq!(
        write_bias_ticket(&setting, &a, &b, &bias, &mut output),
        answer(0, 57_344, 0, 65_536)
    );
    let value = |record: usize| output[8 * record + 4];
    // p - 31 ends in E0 and p - 4 in FB.
    assert_eq!([value(4096), value(5119)], [0xE0, 0xE0]);
    assert_eq!([value(5120), value(5151), value(5152), value(6143)], [3, 3, 0xFB, 0xFB]);
    assert_eq!([value(6144), value(6175), value(6176), value(7167)], [3, 3, 9, 9]);
    assert_eq!(output[57_336..], [0x04, 0x00, 0x1F, 0x1F, 0x09, 0x00, 0x00, 0x00]);
    assert_eq!(bias_full_check(&setting, &output), answer(0, 0, 0, 65_536));
    assert_eq!(refusal(&setting, [&a, &b, &bias], 57_343), [15, 0]);
}
