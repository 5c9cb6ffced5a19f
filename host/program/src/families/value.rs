//! The values of the ticket: each part at the ends of its range, and at p and
//! above. The bytes before a value, each in its turn.

use apart::make::residue;
use apart::program::challenge_file;

use crate::case::Case;
use crate::sample::{refused, Sample, P};

pub fn cases() -> Vec<Case> {
    [ranges(), large(), before_the_value()].concat()
}

/// The ticket of case c with another value, and a list by which it is not caught.
/// Record 0 is multiplied by -1 and 6, the first row of B; record 8 is in column 0,
/// 7 and 15 are in column 1.
fn with_value(record: usize, value: u32) -> Case {
    let c = Sample::of_c();
    let list = match record {
        0 => [6, 1],
        8 => [0, 5],
        _ => [5, 0],
    };
    c.case(format!("{value} in record {record}"))
        .ticket(c.with_value(record, value))
        .challenge(challenge_file(&list))
}

fn ranges() -> Vec<Case> {
    // A record of each part, its range, and the number of the test.
    let parts = [(0, -8, 8, 7), (7, -8, 8, 7), (8, -16, 15, 8), (15, 0, 9, 9)];
    let mut cases = Vec::new();
    for (record, least, greatest, number) in parts {
        for inside in [least, greatest] {
            cases.push(with_value(record, residue(inside)).states("0 0 0 12"));
        }
        for outside in [least - 1, greatest + 1] {
            cases.push(with_value(record, residue(outside)).states(refused(number, record)));
        }
    }
    cases
}

/// p and above is 6 in every part. 2^30 = (p + 1)/2 stands for the least entry.
fn large() -> Vec<Case> {
    let mut cases = Vec::new();
    for (record, number) in [(1, 7), (6, 7), (9, 8), (14, 9)] {
        for value in [P, u32::MAX] {
            cases.push(with_value(record, value).states(refused(6, record)));
        }
        cases.push(with_value(record, 1 << 30).states(refused(number, record)));
    }
    cases
}

fn before_the_value() -> Vec<Case> {
    let c = Sample::of_c();
    let bytes = [
        (0, 0, "kind 0", 0),
        (4, 0, "kind 1", 1),
        (8, 0, "kind 4", 4),
        (12, 0, "kind 3", 3),
        (15, 0, "kind 132", 132),
        (5, 1, "zero byte 1", 1),
        (2, 2, "row 0", 0),
        (7, 2, "row 129", 129),
        (1, 3, "column 0", 0),
        (14, 3, "column 1", 1),
    ];
    bytes
        .into_iter()
        .map(|(record, place, name, byte)| {
            c.case(format!("{name} in record {record}"))
                .ticket(c.with_byte(8 * record + place, byte))
                .states(refused(5, record))
        })
        .collect()
}
