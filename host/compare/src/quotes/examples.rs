//! Quotes worked out by hand.

use apart::Quote;

use super::{refused, Visitor};
use crate::families::craft::{K, LARGEST};
use crate::setting::{Form, Setting};

/// Which example, the setting, and the quote.
type Example = (&'static str, Setting, Quote);

pub fn examples(visit: &mut Visitor, form: Form) {
    let examples = match form {
        Form::Plain => plain(),
        Form::Bias => with_bias(),
    };
    for (what, setting, quote) in examples {
        // The width is not read.
        for width in [0, 1, 5, 30, 31, u32::MAX] {
            visit.stated(what, Setting { width, ..setting }, quote);
        }
    }
}

fn quoted(width: u32, length: u32, full_products: u32, challenge_products: u32) -> Quote {
    Quote::from([0, width, length, full_products, challenge_products])
}

/// One row, one column, one vector, and m = 1.
fn one(scale: u32, bound: u32) -> Setting {
    Setting::from([1, 1, 1, 1, scale, bound, 0])
}

/// What is quoted for it: 8(1 + 1 + 2) bytes, one product and 1 + 1 + 1.
fn quoted_one(width: u32) -> Quote {
    quoted(width, 32, 1, 3)
}

/// The same for bias tickets: a record and a product more.
fn quoted_one_with_bias(width: u32) -> Quote {
    quoted(width, 40, 1, 4)
}

fn plain() -> Vec<Example> {
    // 8(4 + 4 + 2·4) bytes, 2·2·2 products and 4 + 4 + 4.
    let of_k = |width| quoted(width, 128, 8, 12);
    // Case k: 8(2 + 2 + 2·4) bytes, 2·1·2 products and 2 + 4 + 2.
    let case_k = Setting {
        inner: 1,
        scale: 65_536,
        bound: 1,
        ..K
    };
    let of_case_k = |width| quoted(width, 96, 4, 8);
    vec![
        // 2·64 + 9 = 137 is above 8·10 and at most 16·10.
        ("K", K, of_k(5)),
        ("K with n = 33", Setting { columns: 33, ..K }, refused(1)),
        ("K with s = 9", Setting { vectors: 9, ..K }, refused(1)),
        ("K with α = 1", Setting { scale: 1, ..K }, refused(2)),
        ("K with T = 0", Setting { bound: 0, ..K }, refused(2)),
        // 2·81 + 9 = 171.
        ("case i, T = 9", Setting { bound: 9, ..K }, of_k(6)),
        // 2·25 + 9 = 59.
        ("K with T = 5", Setting { bound: 5, ..K }, of_k(4)),
        ("K with o = 5", Setting { rounding: 5, ..K }, of_k(5)),
        ("K with o = 9", Setting { rounding: 9, ..K }, of_k(5)),
        ("K with o = 10", Setting { rounding: 10, ..K }, refused(19)),
        // 2·64 + 19 = 147 leaves 13 up to 8·20.
        (
            "K with α = 20 and o = 13",
            Setting {
                scale: 20,
                rounding: 13,
                ..K
            },
            of_k(4),
        ),
        (
            "K with α = 20 and o = 14",
            Setting {
                scale: 20,
                rounding: 14,
                ..K
            },
            of_k(5),
        ),
        // 1 + 65535 = 1·65536.
        ("case k", case_k, of_case_k(1)),
        ("case k with o = 1", Setting { rounding: 1, ..case_k }, of_case_k(2)),
        // 23169² + 2816 + 65535 = 2^29 = 2^13·65536.
        (
            "case k with the last v",
            Setting {
                bound: 23_169,
                rounding: 2816,
                ..case_k
            },
            of_case_k(14),
        ),
        (
            "case k past the last v",
            Setting {
                bound: 23_169,
                rounding: 2817,
                ..case_k
            },
            refused(20),
        ),
        ("the smallest numbers", one(2, 1), quoted_one(1)),
        // 1 + 1 + 1 is above 1·2.
        (
            "the smallest numbers with o = 1",
            Setting {
                rounding: 1,
                ..one(2, 1)
            },
            quoted_one(2),
        ),
        // 23170² = 536848900 is below 2^29, and 23171² = 536895241 is not.
        ("v = 29", one(2, 23_170), quoted_one(29)),
        ("v = 30 would be needed", one(2, 23_171), refused(20)),
        // 28377² + 2 is at most 2^28·3 = 805306368, and 28378² is not.
        ("v = 29 with α = 3", one(3, 28_377), quoted_one(29)),
        ("v = 30 would be needed with α = 3", one(3, 28_378), refused(20)),
        // 32767² + 32766 = 2^15·32767 - 1; 2^16·32767 is below p, 2^16·32768 is not.
        ("the largest T", one(32_767, 32_767), quoted_one(16)),
        ("the largest T with α = 32768", one(32_768, 32_767), refused(20)),
        ("T = 32768", one(32_767, 32_768), refused(2)),
        ("the largest α", one(65_536, 1), quoted_one(1)),
        ("α = 65537", one(65_537, 1), refused(2)),
        // 64·100² + 999 = 640999 is above 512·1000 and at most 1024·1000.
        // 8(2048 + 2048 + 2·1024) bytes, 32·64·32 products and 8(2048 + 1024 + 2048).
        ("the largest sizes", LARGEST, quoted(11, 49_152, 65_536, 40_960)),
        // 64·32767² is above 2^35.
        (
            "the largest sizes and T",
            Setting {
                bound: 32_767,
                ..LARGEST
            },
            refused(20),
        ),
        // 8(15 + 35 + 2·21) bytes, 3·5·7 products and 4(35 + 21 + 15). 5 + 1 is above
        // 2·2 and at most 4·2.
        (
            "sizes that differ",
            Setting::from([3, 5, 7, 4, 2, 1, 0]),
            quoted(3, 736, 105, 284),
        ),
        ("every number 0", Setting::from([0; 7]), refused(1)),
        ("every number 2^32 - 1", Setting::from([u32::MAX; 7]), refused(1)),
    ]
}

fn with_bias() -> Vec<Example> {
    let with = |setting: Setting, bias_bound| Setting {
        bias_bound: Some(bias_bound),
        ..setting
    };
    // 8(4 + 4 + 3·4) bytes, 2·2·2 products and 4 + 2·4 + 4.
    let of_k = |width| quoted(width, 160, 8, 16);
    // 8(2 + 2 + 3·4) bytes, 2·1·2 products and 2 + 2·4 + 2.
    let case_k = Setting {
        inner: 1,
        scale: 65_536,
        bound: 1,
        ..K
    };
    let of_case_k = |width| quoted(width, 128, 4, 12);
    let nearest = Setting { rounding: 5, ..K };
    vec![
        // 2·64 + 23 + 9 = 160 = 16·10.
        ("K with W = 23", with(K, 23), of_k(5)),
        ("K with W = 24", with(K, 24), of_k(6)),
        ("K with W = 0", with(K, 0), of_k(5)),
        // 2·64 + 183 + 9 = 32·10.
        ("K with W = 183", with(K, 183), of_k(6)),
        ("K with W = 184", with(K, 184), of_k(7)),
        // 2·64 + 18 + 5 + 9 = 160.
        ("K with W = 18 and o = 5", with(nearest, 18), of_k(5)),
        ("K with W = 19 and o = 5", with(nearest, 19), of_k(6)),
        (
            "K with W = 18 and o = 6",
            with(Setting { rounding: 6, ..K }, 18),
            of_k(6),
        ),
        // 2·64 + W + 9 = 671088640 = 2^26·10; 2^27·10 is below p, 2^28·10 is not.
        ("K with W = 671088503", with(K, 671_088_503), of_k(27)),
        ("K with W = 671088504", with(K, 671_088_504), refused(20)),
        ("K with W = 2^30", with(K, 1 << 30), refused(20)),
        ("K with W = 2^30 + 1", with(K, (1 << 30) + 1), refused(17)),
        ("K with W = 2^32 - 1", with(K, u32::MAX), refused(17)),
        ("n = 33", with(Setting { columns: 33, ..K }, u32::MAX), refused(1)),
        ("α = 1", with(Setting { scale: 1, ..K }, u32::MAX), refused(2)),
        (
            "o = 10 and W = 2^30 + 1",
            with(Setting { rounding: 10, ..K }, (1 << 30) + 1),
            refused(17),
        ),
        (
            "o = 10 and W = 2^30",
            with(Setting { rounding: 10, ..K }, 1 << 30),
            refused(19),
        ),
        ("case k with W = 0", with(case_k, 0), of_case_k(1)),
        ("case k with W = 1", with(case_k, 1), of_case_k(2)),
        // 1 + W + 65535 = 2^29 = 2^13·65536.
        ("case k with W = 536805376", with(case_k, 536_805_376), of_case_k(14)),
        ("case k with W = 536805377", with(case_k, 536_805_377), refused(20)),
        ("the smallest numbers", with(one(2, 1), 0), quoted_one_with_bias(1)),
        // W + 2 is at most 2^v.
        ("v = 29", with(one(2, 1), 536_870_910), quoted_one_with_bias(29)),
        ("v = 30 would be needed", with(one(2, 1), 536_870_911), refused(20)),
        // 1 + W + 32766 = 2^15·32767.
        (
            "the largest W that fits at all",
            with(one(32_767, 1), 1_073_676_289),
            quoted_one_with_bias(16),
        ),
        (
            "one more than the largest W that fits at all",
            with(one(32_767, 1), 1_073_676_290),
            refused(20),
        ),
        (
            "the largest T and W = 1",
            with(one(32_767, 32_767), 1),
            quoted_one_with_bias(16),
        ),
        ("the largest T and W = 2", with(one(32_767, 32_767), 2), refused(20)),
        // 640999 + 383001 = 1024·1000. 8(2048 + 2048 + 3·1024) bytes, 32·64·32
        // products and 8(2048 + 2·1024 + 2048).
        (
            "the largest sizes with W = 383001",
            with(LARGEST, 383_001),
            quoted(11, 57_344, 65_536, 49_152),
        ),
        (
            "the largest sizes with W = 383002",
            with(LARGEST, 383_002),
            quoted(12, 57_344, 65_536, 49_152),
        ),
        // 8(15 + 35 + 3·21) bytes, 3·5·7 products and 4(35 + 2·21 + 15).
        (
            "sizes that differ",
            with(Setting::from([3, 5, 7, 4, 2, 1, 0]), 0),
            quoted(3, 904, 105, 368),
        ),
        ("every number 0", with(Setting::from([0; 7]), 0), refused(1)),
        (
            "every number 2^32 - 1",
            with(Setting::from([u32::MAX; 7]), u32::MAX),
            refused(1),
        ),
    ]
}

#[cfg(test)]
mod tests {
    use super::*;
    use crate::quotes::stated::stated;

    /// By hand and by formula they are the same.
    #[test]
    fn the_examples_are_those_of_the_rules() {
        for (what, setting, quote) in plain().into_iter().chain(with_bias()) {
            assert_eq!(stated(&setting), quote, "{what}");
        }
    }
}
