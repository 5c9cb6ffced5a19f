//! The rounding number o in the last four bytes of the setting file: its limits,
//! each of its bytes, where its test stands, and the edge of fitting. "It refuses
//! o not below α as 19, after 2 and 17." Where it passes, the ticket is the true
//! one of its setting, unless another is named.

use apart::examples::{A, B, K, K_WITH_ROUNDING};
use apart::{true_ticket, Setting};

use crate::case::{Case, Entry};
use crate::sample::{cycle, setting_bytes, Sample, P};

/// K with the greatest scale, so that o may have two bytes; it fits with every o
/// below that.
const WIDE: Setting = Setting {
    scale: 65_536,
    width: 14,
    ..K
};

/// K with the least scale.
const TWO: Setting = Setting {
    scale: 2,
    width: 8,
    ..K
};

pub fn cases() -> Vec<Case> {
    [lengths(), below_the_scale(), not_below(), bytes(), order(), fitting()].concat()
}

/// The true ticket of case c's matrices under a setting of its sizes.
fn true_case(setting: Setting) -> Case {
    ticket_of(setting, setting)
}

/// The true ticket of one setting under another.
fn ticket_of(of: Setting, setting: Setting) -> Case {
    let ticket = true_ticket(&of, &A, &B);
    let [other, numbers] = [of, setting].map(|setting| setting.numbers());
    let description = if other == numbers {
        format!("{numbers:?}")
    } else {
        format!("the ticket of {other:?} under {numbers:?}")
    };
    let sample = Sample {
        setting,
        ticket,
        ..Sample::of_c()
    };
    sample.case(description)
}

/// The ticket of case c under a setting that is refused.
fn of_c(setting: Setting) -> Case {
    ticket_of(K, setting)
}

fn with(rounding: u32, setting: Setting) -> Setting {
    Setting { rounding, ..setting }
}

/// "The setting record grows to 20 bytes, o in the last four; a file of 16 is now
/// 1".
fn lengths() -> Vec<Case> {
    let rounded = Sample::rounded();
    let bytes = setting_bytes(&rounded.setting);
    [0, 15, 16, 17, 19, 20, 21, 24]
        .into_iter()
        .map(|length| {
            let case = rounded.case(format!("setting of {length} bytes with o = 5"));
            let line = if length == 20 { "0 0 0 12" } else { "1 0 0 0" };
            case.setting(cycle(&bytes, length)).states(line)
        })
        .collect()
}

fn below_the_scale() -> Vec<Case> {
    let settings = [0, 1, 5, 6, 9].map(|rounding| with(rounding, K));
    let others = [with(0, TWO), with(1, TWO), with(32_768, WIDE), with(65_535, WIDE)];
    settings
        .into_iter()
        .chain(others)
        .map(|setting| true_case(setting).states("0 0 0 12"))
        .collect()
}

fn not_below() -> Vec<Case> {
    let settings = [10, 11, 255, P, u32::MAX].map(|rounding| with(rounding, K));
    let others = [with(2, TWO), with(65_536, WIDE), with(u32::MAX, WIDE)];
    settings
        .into_iter()
        .chain(others)
        .map(|setting| of_c(setting).states("19 0 0 0"))
        .collect()
}

/// A byte of o that is not read, or read in the place of another, makes the true
/// ticket false, or o not below α.
fn bytes() -> Vec<Case> {
    let mut cases = Vec::new();
    for rounding in [0x0001, 0x0100, 0x1234, 0x3412, 0x00FF, 0xFF00] {
        cases.push(true_case(with(rounding, WIDE)).states("0 0 0 12"));
    }
    let wide = |rounding, other| ticket_of(with(rounding, WIDE), with(other, WIDE));
    for other in [0x1235, 0x1334, 0x1200, 0x0034, 0x3412, 0] {
        cases.push(wide(0x1234, other).states("12 0 0 8"));
    }
    for high in [1 << 16, 1 << 24, 1 << 31] {
        cases.push(wide(0x1234, 0x1234 + high).states("19 0 0 0"));
        cases.push(wide(0, high).states("19 0 0 0"));
    }
    for high in [1 << 8, 1 << 16, 1 << 24, 1 << 31] {
        let case = ticket_of(K_WITH_ROUNDING, with(5 + high, K));
        cases.push(case.states("19 0 0 0"));
    }
    cases
}

/// After 1 and 2, before 3 and all that follows.
fn order() -> Vec<Case> {
    let first = [
        Setting { columns: 33, ..K },
        Setting { vectors: 0, ..K },
        Setting { rows: 0, width: 4, ..K },
    ]
    .map(|setting| of_c(with(10, setting)).states("1 0 0 0"));
    let second = [
        with(0, Setting { scale: 0, ..K }),
        with(1, Setting { scale: 1, ..K }),
        with(10, Setting { scale: 1, ..K }),
        with(65_537, Setting { scale: 65_537, ..K }),
        with(10, Setting { bound: 0, ..K }),
        with(u32::MAX, Setting { bound: 32_768, ..K }),
        with(10, Setting { width: 0, ..K }),
        with(u32::MAX, Setting { width: 31, ..K }),
    ]
    .map(|setting| of_c(setting).states("2 0 0 0"));
    // These don't fit, whatever o is.
    let before_third = [
        with(10, Setting { width: 4, ..K }),
        with(u32::MAX, Setting { width: 28, ..K }),
        with(10, Setting { bound: 9, ..K }),
        with(u32::MAX, Setting { bound: 32_767, ..K }),
    ]
    .map(|setting| of_c(setting).states("19 0 0 0"));
    let third = [9, 0].map(|rounding| of_c(with(rounding, Setting { width: 4, ..K })).states("3 0 0 0"));
    let c = Sample::of_c();
    let refused = |description: &str| {
        let setting = setting_bytes(&with(10, K));
        c.case(format!("o = 10, {description}"))
            .setting(setting)
            .states("19 0 0 0")
    };
    let before_others = [
        refused("no ticket, no list")
            .ticket(Entry::Missing)
            .challenge(Entry::Missing),
        refused("a ticket of 129 bytes").ticket(cycle(&c.ticket, 129)),
        refused("p in record 0").ticket(c.with_value(0, P)),
        refused("p at index 1").challenge(c.with_number(1, P)),
    ];
    [&first[..], &second, &before_third, &third, &before_others].concat()
}

/// "A setting fits when the left side with o added still fits": m·T² + o + α - 1
/// ≤ 2^(v-1)·α.
fn fitting() -> Vec<Case> {
    // For v = 2 this is m·T² + o - 1 ≤ α, here 127 + o ≤ α. Record 8 holds -2, which
    // is within -2 to 1; record 9 holds 3.
    let narrow = |scale, rounding| {
        let setting = Setting { scale, width: 2, ..K };
        of_c(with(rounding, setting))
    };
    let mut cases = vec![
        narrow(128, 1).states("8 9 0 0"),
        narrow(127, 1).states("3 0 0 0"),
        narrow(128, 2).states("3 0 0 0"),
        narrow(254, 127).states("8 9 0 0"),
        narrow(254, 128).states("3 0 0 0"),
        narrow(254, 253).states("3 0 0 0"),
        narrow(254, 254).states("19 0 0 0"),
    ];
    // 32,767² + o + 32,766 ≤ 2^15·32,767 up to o = 1, and the quotient is the greatest.
    for (rounding, line) in [(0, "0 0 0 3"), (1, "0 0 0 3"), (2, "3 0 0 0"), (32_766, "3 0 0 0")] {
        let setting = Setting::from([1, 1, 1, 1, 32_767, 32_767, 16, rounding]);
        let sample = Sample {
            setting,
            ticket: true_ticket(&setting, &[32_767], &[32_767]),
            list: vec![P - 1],
        };
        let case = sample.case(format!("entries 32767 and 32767, o = {rounding}"));
        cases.push(case.states(line));
    }
    // 64·2896² + o + 65,535 ≤ 2^13·65,536 up to o = 49,153.
    for (rounding, line) in [(49_153, "0 0 0 40960"), (49_154, "3 0 0 0"), (65_535, "3 0 0 0")] {
        let largest = Sample::largest_rounded(rounding);
        let case = largest.case(format!("the largest setting, o = {rounding}"));
        cases.push(case.states(line));
    }
    cases
}
