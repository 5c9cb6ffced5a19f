//! "Wrong ticket length": 4, whatever the bytes. They begin as those of a true
//! ticket, so that one who reads as many as are right accepts.

use crate::case::Case;
use crate::sample::{accepted, cycle, Sample};

pub fn cases() -> Vec<Case> {
    [near(), far(), of_the_largest(), of_other_formulas()].concat()
}

/// The ticket cut or repeated to a length.
fn of_length(sample: &Sample, length: usize) -> Case {
    let line = if length == sample.ticket.len() {
        accepted(&sample.setting)
    } else {
        "4 0 0 0".to_owned()
    };
    let [l, m, n, ..] = sample.setting.numbers();
    sample
        .case(format!("ticket of {length} bytes under {l} by {m} by {n}"))
        .ticket(cycle(&sample.ticket, length))
        .states(line)
}

/// Each length up to 17 bytes from the right one, which is 128.
fn near() -> Vec<Case> {
    let c = Sample::of_c();
    (111..=145).map(|length| of_length(&c, length)).collect()
}

/// Short ones, and long ones that are right modulo a power of two.
fn far() -> Vec<Case> {
    let c = Sample::of_c();
    let short = [0, 1, 7, 8];
    let long = [
        256, 49_151, 49_152, 49_153, 65_535, 65_536, 65_537, 65_664, 131_072, 131_200, 1_048_576, 1_048_704,
    ];
    short
        .into_iter()
        .chain(long)
        .map(|length| of_length(&c, length))
        .collect()
}

/// The right length is 49,152.
fn of_the_largest() -> Vec<Case> {
    let largest = Sample::largest();
    let lengths = [
        0, 4_096, 49_144, 49_151, 49_153, 49_160, 65_535, 65_536, 65_537, 114_688, 131_072, 1_048_576, 1_097_728,
    ];
    lengths.into_iter().map(|length| of_length(&largest, length)).collect()
}

/// Under 3 by 4 by 5 the right length is 8·(12 + 20 + 30) = 496. The others are
/// of shorter records, forget a part or count one twice.
fn of_other_formulas() -> Vec<Case> {
    let sample = Sample::of_three_vectors();
    [248, 376, 400, 496, 592]
        .into_iter()
        .map(|length| of_length(&sample, length))
        .collect()
}
