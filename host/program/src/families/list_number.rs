//! The numbers of the list: p and above is 11 at its index, below it is taken as
//! it stands, all of its four bytes. Zeros only are 21.

use apart::examples::with_claims;
use apart::program::challenge_file;

use crate::case::Case;
use crate::sample::{accepted, refused, unless_zeros, Sample, P};

pub fn cases() -> Vec<Case> {
    [too_large(), below(), every_byte()].concat()
}

/// p + 1 is 2^31.
fn too_large() -> Vec<Case> {
    let mut cases = Vec::new();
    for sample in [Sample::of_c(), Sample::of_three_vectors()] {
        let count = sample.list.len();
        for index in [0, count - 1] {
            for number in [P, P + 1, 0xFF00_0000, u32::MAX] {
                let case = sample.case(format!("{number} at index {index} of {count} numbers"));
                let case = case.challenge(sample.with_number(index, number));
                cases.push(case.states(refused(11, index)));
            }
        }
    }
    // Between vectors.
    let sample = Sample::of_three_vectors();
    for index in [4, 5] {
        let case = sample.case(format!("p at index {index}"));
        cases.push(case.challenge(sample.with_number(index, P)).states(refused(11, index)));
    }
    cases
}

fn below() -> Vec<Case> {
    let mut cases = Vec::new();
    for sample in [Sample::of_c(), Sample::of_three_vectors()] {
        for number in [0, 1 << 30, P - 1] {
            let case = sample.case(format!("{} numbers of {number}", sample.list.len()));
            let list = vec![number; sample.list.len()];
            let line = unless_zeros(&sample.setting, &list, accepted(&sample.setting));
            cases.push(case.challenge(challenge_file(&list)).states(line));
        }
    }
    cases
}

/// Claims in row 0 that are above by 10 in the first column and below by 10 in
/// the second: caught exactly when the two numbers differ.
fn every_byte() -> Vec<Case> {
    let c = Sample::of_c();
    let ticket = with_claims([-1, 2, 2, -1], [3, 4, 3, 8]);
    let case = |x: u32, y: u32| {
        let case = c.case(format!("X = ({x}, {y}), equal numbers are accepted"));
        case.ticket(ticket.clone()).challenge(challenge_file(&[x, y]))
    };
    let number = 0x1234_5678;
    let mut cases = vec![
        case(number, number).states("0 0 0 12"),
        case(P - 1, P - 1).states("0 0 0 12"),
    ];
    for place in 0..4 {
        cases.push(case(number, number ^ (1 << (8 * place))).states("12 0 0 8"));
    }
    cases
}
