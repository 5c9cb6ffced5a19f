//! The writer with a rounding number: the whole tickets under K with o = 5, the
//! number 19, then what they leave out: the order of the tests, single sums, what
//! the nearest is, and settings drawn at random.

use super::*;
use crate::examples::{
    K, K_WITH_BIAS, K_WITH_BIAS_AND_ROUNDING, K_WITH_ROUNDING, ROUNDED_BIAS_TICKET, ROUNDED_TICKET, TICKET,
};
use crate::{bias_challenge_check, bias_full_check, challenge_check, full_check};
use crate::{true_bias_ticket, true_ticket, P};

const A: [i32; 4] = [3, -2, 5, 4];
const B: [i32; 4] = [-1, 6, 7, -8];
const BIAS: [i32; 4] = [-4, 18, -18, 5];

fn answer(number: u32, place: u32, row: u32, products: u32) -> Answer {
    Answer::from([number, place, row, products])
}

/// What an output holds before, no byte as the ticket has it there.
fn filled(length: usize) -> Vec<u8> {
    let of_ticket = ROUNDED_BIAS_TICKET.iter().map(|byte| byte ^ 0xFF);
    of_ticket.chain(std::iter::repeat(0xA5)).take(length).collect()
}

/// The refusal of these operands by the plain call, by number and place. It
/// changes no byte, and the other two numbers are 0.
fn refusal(setting: &Setting, a: &[i32], b: &[i32], length: usize) -> [u32; 2] {
    let mut output = filled(length);
    let answer = write_ticket(setting, a, b, &mut output);
    assert_eq!(output, filled(length));
    numbers_of_refusal(answer)
}

/// The same by the call for bias tickets.
fn bias_refusal(setting: &BiasSetting, [a, b, bias]: [&[i32]; 3], length: usize) -> [u32; 2] {
    let mut output = filled(length);
    let answer = write_bias_ticket(setting, a, b, bias, &mut output);
    assert_eq!(output, filled(length));
    numbers_of_refusal(answer)
}

fn numbers_of_refusal(answer: Answer) -> [u32; 2] {
    assert_ne!(answer.number, 0);
    assert_eq!([answer.row, answer.products], [0, 0]);
    [answer.number, answer.place]
}

#[test]
fn the_whole_ticket() {
    let mut output = filled(130);
    assert_eq!(
        write_ticket(&K_WITH_ROUNDING, &A, &B, &mut output),
        answer(0, 128, 0, 8)
    );
    assert_eq!(output[..128], ROUNDED_TICKET);
    assert_eq!(output[128..], filled(130)[128..]);
    // And without o the former one.
    assert_eq!(write_ticket(&K, &A, &B, &mut output), answer(0, 128, 0, 8));
    assert_eq!(output[..128], TICKET);
}

#[test]
fn the_whole_bias_ticket() {
    let mut output = filled(161);
    assert_eq!(
        write_bias_ticket(&K_WITH_BIAS_AND_ROUNDING, &A, &B, &BIAS, &mut output),
        answer(0, 160, 0, 8)
    );
    assert_eq!(output[..160], ROUNDED_BIAS_TICKET);
    assert_eq!(output[160..], filled(161)[160..]);
    // Without o the sums are -21, 52, 5 and 3.
    write_bias_ticket(&K_WITH_BIAS, &A, &B, &BIAS, &mut output);
    let value = |record: usize| output[8 * record + 4];
    assert_eq!([12, 13, 14, 15].map(value), [0xFC, 5, 0, 0]);
    assert_eq!([16, 17, 18, 19].map(value), [9, 2, 5, 3]);
}

#[test]
fn number_19() {
    for rounding in [10, 11, 65_536, 2_147_483_647, 1 << 31, u32::MAX] {
        assert_eq!(refusal(&Setting { rounding, ..K }, &A, &B, 128), [19, 0]);
        let setting = BiasSetting {
            setting: Setting { rounding, ..K },
            bias_bound: 18,
        };
        assert_eq!(bias_refusal(&setting, [&A, &B, &BIAS], 160), [19, 0]);
    }
    for rounding in [0, 1, 5, 9] {
        let mut output = filled(128);
        let setting = Setting { rounding, ..K };
        assert_eq!(write_ticket(&setting, &A, &B, &mut output), answer(0, 128, 0, 8));
        // 34 + o is the second sum.
        assert_eq!(output[8 * 9 + 4], (34 + rounding as u8) / 10);
        assert_eq!(output[8 * 13 + 4], (34 + rounding as u8) % 10);
    }
}

#[test]
fn the_order_of_the_tests() {
    // All at once, and then one less each time.
    let mut setting = Setting::from([2, 2, 33, 1, 1, 8, 4, u32::MAX]);
    let refusal_of = |setting: &Setting| refusal(setting, &[9; 3], &[9; 3], 0);
    assert_eq!(refusal_of(&setting), [1, 0]);
    setting.columns = 2;
    assert_eq!(refusal_of(&setting), [2, 0]);
    setting.scale = 10;
    assert_eq!(refusal_of(&setting), [19, 0]);
    setting.rounding = 9;
    assert_eq!(refusal_of(&setting), [3, 0]);
    setting.width = 5;
    assert_eq!(refusal_of(&setting), [13, 0]);
    assert_eq!(refusal(&setting, &[8; 4], &[9; 4], 0), [14, 4]);
    assert_eq!(refusal(&setting, &[8; 4], &[8; 4], 127), [15, 0]);

    let mut setting = BiasSetting::from([2, 2, 33, 1, 1, 8, 4, u32::MAX, u32::MAX]);
    let refusal_of = |setting: &BiasSetting| bias_refusal(setting, [&[9; 3], &[9; 3], &[24; 3]], 0);
    assert_eq!(refusal_of(&setting), [1, 0]);
    setting.setting.columns = 2;
    assert_eq!(refusal_of(&setting), [2, 0]);
    setting.setting.scale = 10;
    assert_eq!(refusal_of(&setting), [17, 0]);
    setting.bias_bound = 1 << 30;
    assert_eq!(refusal_of(&setting), [19, 0]);
    setting.setting.rounding = 9;
    assert_eq!(refusal_of(&setting), [3, 0]);
    // 2·64 + 14 + 9 + 9 = 160.
    setting.setting.width = 5;
    setting.bias_bound = 15;
    assert_eq!(refusal_of(&setting), [3, 0]);
    setting.bias_bound = 14;
    assert_eq!(refusal_of(&setting), [13, 0]);
    assert_eq!(bias_refusal(&setting, [&A, &B, &[15; 4]], 0), [18, 8]);
}

#[test]
fn single_sums() {
    let claim = |sum, rounding| claim(&Setting { rounding, ..K }, sum);
    // 25 + 5 = 10·3, and -17 + 5 = 10·(-2) + 8.
    assert_eq!(claim(25, 5), (3, 0));
    assert_eq!(claim(-17, 5), (-2, 8));
    assert_eq!(claim(24, 5), (2, 9));
    assert_eq!(claim(-2, 5), (0, 3));
    // Halves are rounded up below zero too.
    assert_eq!(claim(-5, 5), (0, 0));
    assert_eq!(claim(-6, 5), (-1, 9));
    assert_eq!(claim(-15, 5), (-1, 0));
    assert_eq!(claim(-25, 5), (-2, 0));
    assert_eq!(claim(-26, 5), (-3, 9));
    // "other chips add less"; with α - 1 the quotient is rounded up.
    assert_eq!(claim(25, 0), (2, 5));
    assert_eq!(claim(25, 4), (2, 9));
    assert_eq!(claim(-17, 1), (-2, 4));
    assert_eq!(claim(21, 9), (3, 0));
    assert_eq!(claim(20, 9), (2, 9));
    assert_eq!(claim(-19, 9), (-1, 0));
    assert_eq!(claim(-20, 9), (-2, 9));
}

#[test]
fn the_claim_is_the_one_with_a_remainder_in_range() {
    for alpha in 2..12 {
        for o in 0..alpha {
            let setting = Setting {
                scale: alpha,
                rounding: o,
                ..K
            };
            let [alpha, o] = [alpha, o].map(i128::from);
            for sum in -60..60 {
                // αq + r - o = S, and r below α.
                let right: Vec<(i128, i128)> = (-60..60)
                    .map(|quotient| (quotient, sum + o - alpha * quotient))
                    .filter(|(_, remainder)| (0..alpha).contains(remainder))
                    .collect();
                assert_eq!(right, [claim(&setting, sum)]);
            }
        }
    }
}

#[test]
fn half_the_scale_gives_the_nearest() {
    for alpha in [2, 3, 4, 7, 10, 11] {
        let setting = Setting {
            scale: alpha,
            rounding: alpha / 2,
            ..K
        };
        let alpha = i128::from(alpha);
        for sum in -60..60 {
            let distance = |quotient: i128| (alpha * quotient - sum).abs();
            // The last of those at the least distance, so the greater of two.
            let least = (-60..60).map(distance).min();
            let nearest = (-60..60).rfind(|&quotient| Some(distance(quotient)) == least);
            assert_eq!(Some(claim(&setting, sum).0), nearest);
        }
    }
}

#[test]
fn the_greatest_numbers() {
    // 23169² + 2816 = 536805377 = 65536·8191 + 1, the edge of fitting; -536802561
    // + 2816 = -536799745 = 65536·(-8191) + 5631.
    let setting = Setting::from([1, 1, 1, 1, 65_536, 23_169, 14, 2816]);
    let mut output = [0; 32];
    let mut values_of = |a| {
        assert_eq!(
            write_ticket(&setting, &[a], &[23_169], &mut output),
            answer(0, 32, 0, 1)
        );
        assert_eq!(full_check(&setting, &output), answer(0, 0, 0, 1));
        let value = |place: usize| u32::from_le_bytes(output[place..place + 4].try_into().unwrap());
        [value(20), value(28)]
    };
    assert_eq!(values_of(23_169), [8191, 1]);
    assert_eq!(values_of(-23_169), [2_147_483_647 - 8191, 5631]);
    let beyond = Setting {
        rounding: 2817,
        ..setting
    };
    assert_eq!(refusal(&beyond, &[1], &[1], 32), [3, 0]);
}

/// Numbers drawn one after another, the same in every run.
struct Drawn(u64);

impl Drawn {
    /// A number from `least` to `greatest`.
    fn number(&mut self, least: i64, greatest: i64) -> i64 {
        // Knuth's multiplier and increment; the upper bits are the better ones.
        self.0 = self
            .0
            .wrapping_mul(6_364_136_223_846_793_005)
            .wrapping_add(1_442_695_040_888_963_407);
        least + (self.0 >> 33) as i64 % (greatest - least + 1)
    }

    fn size(&mut self, least: u32, greatest: u32) -> u32 {
        self.number(least.into(), greatest.into()) as u32
    }

    /// An end of the range or any number of it.
    fn entries(&mut self, count: u32, bound: u32) -> Vec<i32> {
        let bound = i64::from(bound);
        (0..count)
            .map(|_| match self.number(0, 3) {
                0 => bound as i32,
                1 => -bound as i32,
                _ => self.number(-bound, bound) as i32,
            })
            .collect()
    }

    /// A setting with the smallest v that fits it, if there is one, and a W that
    /// goes to the edge of that.
    fn setting(&mut self) -> Option<BiasSetting> {
        let scale = match self.number(0, 2) {
            0 => self.size(2, 12),
            1 => self.size(2, 1000),
            _ => self.size(2, 65_536),
        };
        let rounding = match self.number(0, 4) {
            0 => 1,
            1 => scale / 2,
            2 => scale - 1,
            _ => self.size(0, scale - 1),
        };
        let bound = [8, 300, 8000][self.number(0, 2) as usize];
        let [m, t] = [self.size(1, 6), self.size(1, bound)];
        let (l, n, s) = (self.size(1, 4), self.size(1, 4), self.size(1, 3));
        let left = u64::from(m) * u64::from(t).pow(2) + u64::from(rounding) + u64::from(scale) - 1;
        let width = (1..=30).find(|v| left <= (1 << (v - 1)) * u64::from(scale))?;
        let bias_bound = (1 << (width - 1)) * u64::from(scale) - left;
        (i128::from(scale) << width < P).then(|| BiasSetting {
            setting: Setting::from([l, m, n, s, scale, t, width, rounding]),
            bias_bound: bias_bound as u32,
        })
    }
}

#[test]
fn both_checks_accept_what_is_written_for_settings_drawn_at_random() {
    let mut drawn = Drawn(1);
    let mut written = 0;
    while written < 500 {
        let Some(with_bias) = drawn.setting() else {
            continue;
        };
        let BiasSetting { setting, bias_bound } = with_bias;
        let Setting {
            rows: l,
            inner: m,
            columns: n,
            vectors: s,
            ..
        } = setting;
        let a = drawn.entries(l * m, setting.bound);
        let b = drawn.entries(m * n, setting.bound);
        let bias = drawn.entries(l * n, bias_bound);
        let list: Vec<u32> = (0..s * n).map(|_| drawn.size(1, 2_147_483_646)).collect();
        let wide = |entries: &[i32]| entries.iter().map(|&entry| i64::from(entry)).collect::<Vec<i64>>();
        let full = answer(0, 0, 0, l * m * n);

        let mut ticket = vec![0; 8 * (l * m + m * n + 2 * l * n) as usize];
        let length = ticket.len() as u32;
        assert_eq!(
            write_ticket(&setting, &a, &b, &mut ticket),
            answer(0, length, 0, l * m * n)
        );
        assert_eq!(ticket, true_ticket(&setting, &wide(&a), &wide(&b)));
        assert_eq!(full_check(&setting, &ticket), full);
        let accepted = answer(0, 0, 0, s * (m * n + l * n + l * m));
        assert_eq!(challenge_check(&setting, &ticket, &list), accepted);

        let mut bias_ticket = vec![0; ticket.len() + 8 * (l * n) as usize];
        let length = bias_ticket.len() as u32;
        assert_eq!(
            write_bias_ticket(&with_bias, &a, &b, &bias, &mut bias_ticket),
            answer(0, length, 0, l * m * n)
        );
        assert_eq!(
            bias_ticket,
            true_bias_ticket(&with_bias, &wide(&a), &wide(&b), &wide(&bias))
        );
        assert_eq!(bias_full_check(&with_bias, &bias_ticket), full);
        let accepted = answer(0, 0, 0, s * (m * n + 2 * l * n + l * m));
        assert_eq!(bias_challenge_check(&with_bias, &bias_ticket, &list), accepted);

        // With o less by one the setting fits as well, and every claim is false.
        if let Some(less) = setting.rounding.checked_sub(1) {
            let other = Setting {
                rounding: less,
                ..setting
            };
            assert_eq!(full_check(&other, &ticket), answer(16, 0, 0, m));
            assert_ne!(challenge_check(&other, &ticket, &list).number, 0);
            let other = BiasSetting {
                setting: other,
                ..with_bias
            };
            assert_eq!(bias_full_check(&other, &bias_ticket), answer(16, 0, 0, m));
            assert_ne!(bias_challenge_check(&other, &bias_ticket, &list).number, 0);
        }
        // One more in W is over the edge.
        let mut beyond = with_bias;
        beyond.bias_bound += 1;
        assert_eq!(bias_full_check(&beyond, &bias_ticket), answer(3, 0, 0, 0));
        written += 1;
    }
}
