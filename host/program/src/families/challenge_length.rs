//! "A challenge file of another length than 4·s·n is 10 in its turn", whatever
//! the bytes. They begin as those of a right one.

use apart::program::challenge_file;

use crate::case::Case;
use crate::sample::{accepted, cycle, Sample};

pub fn cases() -> Vec<Case> {
    [of_c(), of_three_vectors(), of_the_largest()].concat()
}

/// The challenge file cut or repeated to a length.
fn of_length(sample: &Sample, length: usize) -> Case {
    let right = challenge_file(&sample.list);
    let line = if length == right.len() {
        accepted(&sample.setting)
    } else {
        "10 0 0 0".to_owned()
    };
    sample
        .case(format!("challenge of {length} bytes, where {} are right", right.len()))
        .challenge(cycle(&right, length))
        .states(line)
}

/// The right length is 8; the long ones are right modulo a power of two, or
/// near to one.
fn of_c() -> Vec<Case> {
    let c = Sample::of_c();
    let long = [256, 264, 1_024, 4_104, 65_536, 65_544, 1_048_576, 1_048_584];
    (0..=17).chain(long).map(|length| of_length(&c, length)).collect()
}

/// The right length is 60. One of 12 has s numbers, one of 20 has n of them, and
/// one of 30 has two bytes for each.
fn of_three_vectors() -> Vec<Case> {
    let sample = Sample::of_three_vectors();
    [12, 20, 30]
        .into_iter()
        .chain(56..=64)
        .chain([240])
        .map(|length| of_length(&sample, length))
        .collect()
}

/// The right length is the largest, 1,024.
fn of_the_largest() -> Vec<Case> {
    let largest = Sample::largest();
    (1_020..=1_032)
        .chain([256, 4_096, 65_536, 66_560, 1_048_576, 1_049_600])
        .map(|length| of_length(&largest, length))
        .collect()
}
