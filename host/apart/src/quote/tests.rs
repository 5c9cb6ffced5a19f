//! Quotes worked out by hand: under K, at every width that can be quoted and at
//! each limit, then the order of the refusals, the width that is not read, and
//! what the writer and the checks answer with the quoted width.

use super::*;
use crate::examples::{K, K_WITH_BIAS, K_WITH_BIAS_AND_ROUNDING, K_WITH_ROUNDING};
use crate::{bias_challenge_check, bias_full_check, challenge_check, full_check};
use crate::{write_bias_ticket, write_ticket, Answer};

/// The largest sizes, with few bits: 64·100² + 999 = 640999 is at most 1024·1000
/// and above 512·1000, so v is 11.
const LARGEST: Setting = Setting {
    rows: 32,
    inner: 64,
    columns: 32,
    vectors: 8,
    scale: 1000,
    bound: 100,
    width: 0,
    rounding: 0,
};

fn quote_of(setting: Setting) -> [u32; 5] {
    quote_ticket(&setting).numbers()
}

fn bias_quote_of(setting: Setting, bias_bound: u32) -> [u32; 5] {
    quote_bias_ticket(&BiasSetting { setting, bias_bound }).numbers()
}

/// What is quoted for one row, one column and one vector of sums of m products:
/// 8(m + m + 2) bytes, m and m + 1 + m products.
fn one_by_one(width: u32, m: u32) -> [u32; 5] {
    [0, width, 8 * (2 * m + 2), m, 2 * m + 1]
}

/// The same with a bias: a record and a product more.
fn one_by_one_with_bias(width: u32, m: u32) -> [u32; 5] {
    [0, width, 8 * (2 * m + 3), m, 2 * m + 2]
}

fn refused(number: u32) -> [u32; 5] {
    [number, 0, 0, 0, 0]
}

#[test]
fn the_numbers_of_a_quote() {
    let quote = Quote::from([1, 2, 3, 4, 5]);
    assert_eq!(
        quote,
        Quote {
            number: 1,
            width: 2,
            length: 3,
            full_products: 4,
            challenge_products: 5,
        }
    );
    assert_eq!(quote.numbers(), [1, 2, 3, 4, 5]);
}

#[test]
fn under_k() {
    // 2·64 + 9 = 137, above 8·10 and at most 16·10. 8(4 + 4 + 2·4) bytes, 2·2·2
    // products and 4 + 4 + 4.
    assert_eq!(quote_of(K), [0, 5, 128, 8, 12]);
    // Case i: 2·81 + 9 = 171 is above 160.
    assert_eq!(quote_of(Setting { bound: 9, ..K }), [0, 6, 128, 8, 12]);
    // Down to 2·49 + 9 = 107, 2·36 + 9 = 81 and 2·25 + 9 = 59.
    let with = |bound| quote_of(Setting { bound, ..K });
    assert_eq!([7, 6, 5].map(with).map(|[_, width, ..]| width), [5, 5, 4]);
}

#[test]
fn under_k_with_a_bias() {
    // 8(4 + 4 + 3·4) bytes, 2·2·2 products and 4 + 2·4 + 4.
    assert_eq!(quote_bias_ticket(&K_WITH_BIAS).numbers(), [0, 5, 160, 8, 16]);
    assert_eq!(bias_quote_of(K, 0), [0, 5, 160, 8, 16]);
    // 2·64 + 23 + 9 = 160, and 24 is one more.
    assert_eq!(bias_quote_of(K, 23), [0, 5, 160, 8, 16]);
    assert_eq!(bias_quote_of(K, 24), [0, 6, 160, 8, 16]);
    // Up to 32·10 it is 6.
    assert_eq!(bias_quote_of(K, 183), [0, 6, 160, 8, 16]);
    assert_eq!(bias_quote_of(K, 184), [0, 7, 160, 8, 16]);
}

#[test]
fn under_k_with_a_rounding_number() {
    // 137 + 9 is at most 160.
    for rounding in 0..10 {
        assert_eq!(quote_of(Setting { rounding, ..K }), [0, 5, 128, 8, 12]);
    }
    // α = 20: 2·64 + 19 = 147 leaves 13 up to 8·20.
    let of_20 = |rounding| Setting {
        scale: 20,
        rounding,
        ..K
    };
    assert_eq!(quote_of(of_20(13)), [0, 4, 128, 8, 12]);
    assert_eq!(quote_of(of_20(14)), [0, 5, 128, 8, 12]);
    // 2·64 + 18 + 5 + 9 = 160, and one more of W or of o.
    assert_eq!(
        quote_bias_ticket(&K_WITH_BIAS_AND_ROUNDING).numbers(),
        [0, 5, 160, 8, 16]
    );
    assert_eq!(bias_quote_of(K_WITH_ROUNDING, 19), [0, 6, 160, 8, 16]);
    assert_eq!(bias_quote_of(Setting { rounding: 6, ..K }, 18), [0, 6, 160, 8, 16]);
}

/// "α = 65,536, T = 1, m = 1: v = 14 fits, v = 15 doesn't." The smallest that
/// fits is 1, since 1 + 65535 = 1·65536.
#[test]
fn case_k() {
    let setting = Setting {
        inner: 1,
        scale: 65_536,
        bound: 1,
        ..K
    };
    // 8(2 + 2 + 2·4) bytes, 2·1·2 products and 2 + 4 + 2.
    assert_eq!(quote_of(setting), [0, 1, 96, 4, 8]);
    // With o = 1 it is 2, which is good for α more.
    let with = |rounding| quote_of(Setting { rounding, ..setting });
    assert_eq!([with(1), with(65_535)], [[0, 2, 96, 4, 8]; 2]);
    // The last v is 14: 8192·65536 = 2^29 is 23169² + 2816 + 65535.
    let last = |rounding| {
        quote_of(Setting {
            bound: 23_169,
            rounding,
            ..setting
        })
    };
    assert_eq!([last(2816), last(2817)], [[0, 14, 96, 4, 8], refused(20)]);
    assert_eq!(bias_quote_of(setting, 0), [0, 1, 128, 4, 12]);
    assert_eq!(bias_quote_of(setting, 1), [0, 2, 128, 4, 12]);
}

#[test]
fn the_largest_sizes() {
    // 8(2048 + 2048 + 2·1024) bytes, 32·64·32 products and 8(2048 + 1024 + 2048).
    assert_eq!(quote_of(LARGEST), [0, 11, 49_152, 65_536, 40_960]);
    // 8(2048 + 2048 + 3·1024) bytes and 8(2048 + 2·1024 + 2048). 1024000 less
    // 640999 is 383001.
    assert_eq!(bias_quote_of(LARGEST, 383_001), [0, 11, 57_344, 65_536, 49_152]);
    assert_eq!(bias_quote_of(LARGEST, 383_002), [0, 12, 57_344, 65_536, 49_152]);
    // 64·32767² is above 2^35, and 2^(v-1)·α stays below 2^30.
    for scale in [2, 3, 1000, 32_767, 65_536] {
        let setting = Setting {
            scale,
            bound: 32_767,
            ..LARGEST
        };
        assert_eq!(quote_of(setting), refused(20));
        assert_eq!(bias_quote_of(setting, 0), refused(20));
    }
}

#[test]
fn the_smallest_sizes() {
    // 8(1 + 1 + 2) bytes, one product and 1 + 1 + 1, with each vector.
    let with = |vectors| Setting::from([1, 1, 1, vectors, 2, 1, 0]);
    assert_eq!(quote_of(with(1)), [0, 1, 32, 1, 3]);
    assert_eq!(quote_of(with(8)), [0, 1, 32, 1, 24]);
    assert_eq!(bias_quote_of(with(1), 0), [0, 1, 40, 1, 4]);
    assert_eq!(bias_quote_of(with(8), 0), [0, 1, 40, 1, 32]);
}

#[test]
fn every_size_has_a_part_in_the_figures() {
    // 8(15 + 35 + 2·21) bytes, 3·5·7 products and 4(35 + 21 + 15); with a bias
    // 8·21 bytes and 4·21 products more. 5 + 1 is above 2·2 and at most 4·2.
    let setting = Setting::from([3, 5, 7, 4, 2, 1, 0]);
    assert_eq!(quote_of(setting), [0, 3, 736, 105, 284]);
    assert_eq!(bias_quote_of(setting, 0), [0, 3, 904, 105, 368]);
}

/// The widths that can be quoted are 1 to 29. With v = 30 no setting fits: 2^30·α
/// is at least 2^31, which is above p.
#[test]
fn no_setting_fits_with_a_width_of_30() {
    for scale in 2..=65_536 {
        // The least left side that there is.
        let terms = Terms::from(&Setting::from([1, 1, 1, 1, scale, 1, 30]));
        assert!(terms.fits(1) && !terms.fits(30));
    }
}

/// With α = 2 the first condition is m·T² + o + 1 ≤ 2^v, and 2^v·2 is below p up
/// to v = 29.
#[test]
fn every_width_from_1_to_29_is_quoted_from_both_sides() {
    let with = |inner, bound| quote_of(Setting::from([1, inner, 1, 1, 2, bound, 0]));
    // T = 1 and m = 2^v - 1, up to 63, and then one more.
    for width in 1..=6 {
        let m = (1 << width) - 1;
        assert_eq!(with(m, 1), one_by_one(width, m));
        assert_eq!(with(m + 1, 1), one_by_one(width + 1, m + 1));
    }
    // m = 1 and the last T whose square is below 2^v, and then one more.
    for (width, bound) in [(7, 11), (8, 15), (15, 181), (16, 255), (27, 11_585), (28, 16_383)] {
        assert_eq!(with(1, bound), one_by_one(width, 1));
        assert_eq!(with(1, bound + 1), one_by_one(width + 1, 1));
    }
    for width in 7..29 {
        let bound = ((1_u32 << width) - 1).isqrt();
        assert_eq!(with(1, bound), one_by_one(width, 1));
        assert_eq!(with(1, bound + 1), one_by_one(width + 1, 1));
    }
    // 23170² = 536848900 is below 2^29 = 536870912, and 23171² = 536895241 is not:
    // it would take v = 30.
    assert_eq!(with(1, 23_170), one_by_one(29, 1));
    assert_eq!(with(1, 23_171), refused(20));
}

/// With m = T = 1 and α = 2 the first condition is W + 2 ≤ 2^v.
#[test]
fn every_width_from_1_to_29_is_quoted_from_both_sides_of_a_bias_bound() {
    let with = |bias_bound| bias_quote_of(Setting::from([1, 1, 1, 1, 2, 1, 0]), bias_bound);
    for width in 1..29 {
        assert_eq!(with((1 << width) - 2), one_by_one_with_bias(width, 1));
        assert_eq!(with((1 << width) - 1), one_by_one_with_bias(width + 1, 1));
    }
    assert_eq!(with(536_870_910), one_by_one_with_bias(29, 1));
    assert_eq!(with(536_870_911), refused(20));
}

/// 2^v·α < p ends at v = 29 for α = 2 and 3, at 28 for 4 to 7, and so on.
#[test]
fn the_last_width_of_a_scale() {
    let with = |scale, bound| quote_of(Setting::from([1, 1, 1, 1, scale, bound, 0]));
    for (scale, width, bound) in [
        // 28377² + 2 = 805254131 is at most 2^28·3 = 805306368, and 28378² is not.
        (3, 29, 28_377),
        // 23170² + 3 is at most 2^27·4 = 2^29.
        (4, 28, 23_170),
        // 30651² + 6 = 939483807 is at most 2^27·7 = 939524096, and 30652² is not.
        (7, 28, 30_651),
        (8, 27, 23_170),
    ] {
        assert_eq!(with(scale, bound), one_by_one(width, 1));
        assert_eq!(with(scale, bound + 1), refused(20));
    }
}

/// The largest T: 32767² = 1073676289.
#[test]
fn the_largest_bound_with_every_scale() {
    let with = |scale| Setting::from([1, 1, 1, 1, scale, 32_767, 0]);
    // 1073676289 + 32766 = 1073709055 is 2^15·32767 less 1, and 2^16·32767 =
    // 2147418112 is below p.
    assert_eq!(quote_of(with(32_767)), one_by_one(16, 1));
    assert_eq!(bias_quote_of(with(32_767), 1), one_by_one_with_bias(16, 1));
    assert_eq!(bias_quote_of(with(32_767), 2), refused(20));
    // 2^16·32768 = 2^31 is not.
    assert_eq!(quote_of(with(32_768)), refused(20));
    // 1073676289 + 65535 = 2^30 = 2^14·65536, but 2^15·65536 = 2^31 is above p.
    assert_eq!(quote_of(with(65_536)), refused(20));
}

/// The largest W that fits at all is 1073676289: 1 + W + 32766 = 2^15·32767.
#[test]
fn the_largest_bias_bound() {
    let with = |bias_bound| bias_quote_of(Setting::from([1, 1, 1, 1, 32_767, 1, 0]), bias_bound);
    assert_eq!(with(1_073_676_289), one_by_one_with_bias(16, 1));
    assert_eq!(with(1_073_676_290), refused(20));
    assert_eq!(with(1 << 30), refused(20));
    assert_eq!(with((1 << 30) + 1), refused(17));
    assert_eq!(with(u32::MAX), refused(17));
}

/// A number of a setting.
type Field = fn(&mut Setting) -> &mut u32;

/// The numbers of a setting that a quote reads, with their limits and what is
/// answered beyond. The limit of o is α.
const FIELDS: [(Field, u32, u32, u32); 6] = [
    (|setting| &mut setting.rows, 1, 32, 1),
    (|setting| &mut setting.inner, 1, 64, 1),
    (|setting| &mut setting.columns, 1, 32, 1),
    (|setting| &mut setting.vectors, 1, 8, 1),
    (|setting| &mut setting.scale, 2, 65_536, 2),
    (|setting| &mut setting.bound, 1, 32_767, 2),
];

/// The largest numbers, and what would be within limits without its upper bits.
const BEYOND: [u32; 5] = [1 << 16, 1 << 31, (1 << 31) + 1, u32::MAX - 1, u32::MAX];

#[test]
fn each_limit() {
    // A setting for which every number may go to both of its limits: with m = 64
    // 64 + 32766 is at most 2·32767, and m = 1 allows every T.
    let base = Setting::from([2, 1, 2, 1, 32_767, 1, 0]);
    for (field, least, greatest, number) in FIELDS {
        let with = |value| {
            let mut setting = base;
            *field(&mut setting) = value;
            [quote_of(setting)[0], bias_quote_of(setting, 0)[0]]
        };
        for value in [least, least + 1, greatest - 1, greatest] {
            assert_eq!(with(value), [0; 2], "{value}");
        }
        for value in [0, least - 1, greatest + 1] {
            assert_eq!(with(value), [number; 2], "{value}");
        }
        for value in BEYOND.into_iter().filter(|&value| value > greatest) {
            assert_eq!(with(value), [number; 2], "{value}");
        }
    }
    for (rounding, number) in [(0, 0), (32_766, 0), (32_767, 19), (32_768, 19)] {
        let setting = Setting { rounding, ..base };
        assert_eq!([quote_of(setting)[0], bias_quote_of(setting, 0)[0]], [number; 2]);
    }
    for rounding in BEYOND {
        let setting = Setting { rounding, ..base };
        assert_eq!([quote_of(setting)[0], bias_quote_of(setting, 0)[0]], [19; 2]);
    }
}

/// Refusals have no figures.
#[test]
fn every_figure_of_a_refusal_is_0() {
    let large = Setting {
        inner: 64,
        bound: 32_767,
        ..K
    };
    for (setting, number) in [
        (Setting { columns: 33, ..K }, 1),
        (Setting { scale: 1, ..K }, 2),
        (Setting { rounding: 10, ..K }, 19),
        (large, 20),
    ] {
        assert_eq!(quote_of(setting), refused(number));
        assert_eq!(bias_quote_of(setting, 23), refused(number));
    }
    assert_eq!(bias_quote_of(K, (1 << 30) + 1), refused(17));
}

/// A change that a quote is refused for, by this number.
type Fault = (u32, fn(&mut BiasSetting));

const FAULTS: [Fault; 12] = [
    (1, |setting| setting.setting.rows = 0),
    (1, |setting| setting.setting.inner = 65),
    (1, |setting| setting.setting.vectors = u32::MAX),
    (2, |setting| setting.setting.scale = 65_537),
    (2, |setting| setting.setting.bound = 0),
    (2, |setting| setting.setting.bound = u32::MAX),
    (17, |setting| setting.bias_bound = (1 << 30) + 1),
    (17, |setting| setting.bias_bound = u32::MAX),
    (19, |setting| setting.setting.rounding = 65_537),
    (19, |setting| setting.setting.rounding = u32::MAX),
    (20, |setting| setting.setting.bound = 32_767),
    (20, |setting| setting.bias_bound = 1 << 30),
];

#[test]
fn of_two_refusals_the_first_in_the_order_is_given() {
    for (first, one) in FAULTS {
        for (second, other) in FAULTS {
            // The change that comes first in the order is made last, as both may
            // be of one number.
            if first > second {
                continue;
            }
            let mut setting = K_WITH_BIAS;
            other(&mut setting);
            one(&mut setting);
            assert_eq!(quote_bias_ticket(&setting).numbers(), refused(first), "{setting:?}");
            // A plain setting has no W, and so neither 17 nor what W makes of 20.
            let plain = setting.setting;
            let number = [1, 2, 19].into_iter().find(|number| [first, second].contains(number));
            if let Some(number) = number {
                assert_eq!(quote_of(plain), refused(number), "{plain:?}");
            }
        }
    }
}

#[test]
fn the_order_of_all_refusals() {
    // All at once, and then one less each time.
    let mut setting = BiasSetting::from([2, 64, 33, 1, 1, 32_767, 31, u32::MAX, u32::MAX]);
    let both = |setting: &BiasSetting| [quote_of(setting.setting), quote_bias_ticket(setting).numbers()];
    assert_eq!(both(&setting), [refused(1); 2]);
    setting.setting.columns = 2;
    assert_eq!(both(&setting), [refused(2); 2]);
    setting.setting.scale = 10;
    assert_eq!(both(&setting), [refused(19), refused(17)]);
    setting.bias_bound = 1 << 30;
    assert_eq!(both(&setting), [refused(19); 2]);
    setting.setting.rounding = 9;
    assert_eq!(both(&setting), [refused(20); 2]);
    setting.setting.bound = 8;
    setting.setting.inner = 2;
    assert_eq!(both(&setting), [[0, 5, 128, 8, 12], refused(20)]);
    setting.bias_bound = 14;
    assert_eq!(both(&setting), [[0, 5, 128, 8, 12], [0, 5, 160, 8, 16]]);
}

/// "v left unread"
#[test]
fn the_width_is_not_read() {
    let large = Setting {
        bound: 32_767,
        ..LARGEST
    };
    for setting in [
        K,
        K_WITH_ROUNDING,
        LARGEST,
        large,
        Setting { rows: 0, ..K },
        Setting { scale: 0, ..K },
        Setting { rounding: 10, ..K },
    ] {
        for bias_bound in [0, 23, 1 << 30, u32::MAX] {
            for width in [0, 1, 4, 5, 6, 29, 30, 31, 32, 1 << 31, u32::MAX] {
                let other = Setting { width, ..setting };
                assert_eq!(quote_of(other), quote_of(setting));
                assert_eq!(bias_quote_of(other, bias_bound), bias_quote_of(setting, bias_bound));
            }
        }
    }
}

/// Whatever stands in the numbers of a setting, there is a quote.
#[test]
fn the_largest_numbers_everywhere() {
    let within = [32, 64, 32, 8, 65_536, 32_767, 30, 65_535, 1 << 30];
    for chosen in 0..1 << within.len() {
        let has = |place: usize| chosen >> place & 1 == 1;
        let mut numbers = within;
        for (place, number) in numbers.iter_mut().enumerate() {
            if has(place) {
                *number = u32::MAX;
            }
        }
        let number = |reads_bias_bound: bool| {
            if (0..4).any(has) {
                1
            } else if has(4) || has(5) {
                2
            } else if has(8) && reads_bias_bound {
                17
            } else if has(7) {
                19
            } else {
                20
            }
        };
        let setting = BiasSetting::from(numbers);
        assert_eq!(quote_bias_ticket(&setting).numbers(), refused(number(true)));
        assert_eq!(quote_of(setting.setting), refused(number(false)));
    }
}

/// Numbers drawn one after another, the same in every run.
struct Drawn(u64);

impl Drawn {
    /// A number from `least` to `greatest`.
    fn number(&mut self, least: u32, greatest: u32) -> u32 {
        // Knuth's multiplier and increment; the upper bits are the better ones.
        self.0 = self
            .0
            .wrapping_mul(6_364_136_223_846_793_005)
            .wrapping_add(1_442_695_040_888_963_407);
        least + (self.0 >> 33) as u32 % (greatest - least + 1)
    }

    /// A number from `least` to `greatest` with any number of bits.
    fn of_any_length(&mut self, least: u32, greatest: u32) -> u32 {
        let bits = self.number(0, 30);
        self.number(least, greatest.min(least + (1 << bits) - 1))
    }

    fn entries(&mut self, count: u32, bound: u32) -> Vec<i32> {
        (0..count)
            .map(|_| match self.number(0, 3) {
                0 => bound as i32,
                1 => -(bound as i32),
                _ => self.number(0, 2 * bound) as i32 - bound as i32,
            })
            .collect()
    }

    /// A setting within the limits, with a width of any kind.
    fn setting(&mut self) -> BiasSetting {
        let scale = self.of_any_length(2, 65_536);
        BiasSetting {
            setting: Setting {
                rows: self.of_any_length(1, 32),
                inner: self.of_any_length(1, 64),
                columns: self.of_any_length(1, 32),
                vectors: self.number(1, 8),
                scale,
                bound: self.of_any_length(1, 32_767),
                width: self.number(0, 31),
                rounding: self.of_any_length(0, scale - 1),
            },
            bias_bound: self.of_any_length(0, 1 << 30),
        }
    }
}

/// The first width with which a check comes to 4, the wrong length of no ticket,
/// and not to 3.
fn first_that_passes(number_of: impl Fn(u32) -> u32) -> Option<u32> {
    (1..=30).find(|&width| match number_of(width) {
        3 => false,
        4 => true,
        number => panic!("{number} within the limits"),
    })
}

#[test]
fn the_quoted_width_is_the_first_that_the_checks_pass() {
    let mut drawn = Drawn(1);
    let mut numbers = [0; 21];
    for _ in 0..5_000 {
        let with_bias = drawn.setting();
        let BiasSetting { setting, bias_bound } = with_bias;
        let with = |width| Setting { width, ..setting };
        let first = first_that_passes(|width| full_check(&with(width), &[]).number);
        let [number, width, ..] = quote_of(setting);
        assert_eq!((number == 0).then_some(width), first, "{setting:?}");

        let with = |width| BiasSetting {
            setting: with(width),
            bias_bound,
        };
        let first = first_that_passes(|width| bias_full_check(&with(width), &[]).number);
        let [number, width, ..] = quote_bias_ticket(&with_bias).numbers();
        assert_eq!((number == 0).then_some(width), first, "{with_bias:?}");
        numbers[number as usize] += 1;
    }
    assert!(numbers[0] > 500 && numbers[20] > 500, "{numbers:?}");
}

/// "Products and length equal those that the accepting checks and the writer
/// later report."
#[test]
fn what_is_quoted_is_reported_later() {
    let mut drawn = Drawn(2);
    let mut quoted = [0; 2];
    while quoted.iter().any(|&count| count < 100) {
        let with_bias = drawn.setting();
        let BiasSetting { setting, bias_bound } = with_bias;
        let Setting {
            rows: l,
            inner: m,
            columns: n,
            vectors: s,
            ..
        } = setting;
        let a = drawn.entries(l * m, setting.bound);
        let b = drawn.entries(m * n, setting.bound);
        let list: Vec<u32> = (0..s * n).map(|_| drawn.number(1, 2_147_483_646)).collect();

        let quote = quote_ticket(&setting);
        if quote.number == 0 {
            quoted[0] += 1;
            let setting = Setting {
                width: quote.width,
                ..setting
            };
            let mut ticket = vec![0; quote.length as usize];
            assert_eq!(
                write_ticket(&setting, &a, &b, &mut ticket),
                Answer::from([0, quote.length, 0, quote.full_products])
            );
            assert_eq!(
                full_check(&setting, &ticket),
                Answer::from([0, 0, 0, quote.full_products])
            );
            assert_eq!(
                challenge_check(&setting, &ticket, &list),
                Answer::from([0, 0, 0, quote.challenge_products])
            );
        }

        let quote = quote_bias_ticket(&with_bias);
        if quote.number == 0 {
            quoted[1] += 1;
            let mut with_bias = with_bias;
            with_bias.setting.width = quote.width;
            let bias = drawn.entries(l * n, bias_bound);
            let mut ticket = vec![0; quote.length as usize];
            assert_eq!(
                write_bias_ticket(&with_bias, &a, &b, &bias, &mut ticket),
                Answer::from([0, quote.length, 0, quote.full_products])
            );
            assert_eq!(
                bias_full_check(&with_bias, &ticket),
                Answer::from([0, 0, 0, quote.full_products])
            );
            assert_eq!(
                bias_challenge_check(&with_bias, &ticket, &list),
                Answer::from([0, 0, 0, quote.challenge_products])
            );
        }
    }
}
