//! Vectors of zeros: 21 with the vector's number, once all numbers have passed 11.
//! Zeros that fill no vector are taken as they stand.

use apart::examples::{with_claims, K};
use apart::program::challenge_file;
use apart::Setting;

use crate::case::Case;
use crate::sample::{accepted, refused, setting_bytes, Sample, P};

pub fn cases() -> Vec<Case> {
    [of_k(), false_tickets(), of_three_vectors(), one_column(), largest()].concat()
}

/// Case c with these vectors.
fn with_vectors(vectors: &[[u32; 2]]) -> Case {
    let setting = Setting {
        vectors: vectors.len() as u32,
        ..K
    };
    Sample::of_c()
        .case(format!("vectors {vectors:?}"))
        .setting(setting_bytes(&setting))
        .challenge(challenge_file(vectors.as_flattened()))
}

/// One vector takes 12 products.
fn of_k() -> Vec<Case> {
    let mut last_of_eight = [[1, 2]; 8];
    last_of_eight[7] = [0, 0];
    let shorter = Sample::of_c().case("7 bytes of zeros").challenge(vec![0; 7]);
    let longer = Sample::of_c().case("three zeros").challenge(challenge_file(&[0; 3]));
    vec![
        with_vectors(&[[0, 0]]).states("21 0 0 0"),
        with_vectors(&[[0, 5]]).states("0 0 0 12"),
        with_vectors(&[[5, 0]]).states("0 0 0 12"),
        with_vectors(&[[0, 0], [1, 2]]).states("21 0 0 0"),
        with_vectors(&[[1, 2], [0, 0]]).states("21 1 0 0"),
        with_vectors(&[[0, 0], [0, 0]]).states("21 0 0 0"),
        with_vectors(&[[1, 0], [0, 1]]).states("0 0 0 24"),
        with_vectors(&[[1, 2], [0, 0], [0, 5], [0, 0]]).states("21 1 0 0"),
        with_vectors(&last_of_eight).states("21 7 0 0"),
        with_vectors(&[[0, 0]; 8]).states("21 0 0 0"),
        with_vectors(&[[0, 0], [1, P]]).states("11 3 0 0"),
        with_vectors(&[[u32::MAX, 1], [0, 0]]).states("11 0 0 0"),
        with_vectors(&[[0, P]]).states("11 1 0 0"),
        // The four bytes of a number are not 0 where one is not.
        with_vectors(&[[0, 1 << 24]]).states("0 0 0 12"),
        with_vectors(&[[1 << 16, 0]]).states("0 0 0 12"),
        with_vectors(&[[0, 1 << 8]]).states("0 0 0 12"),
        shorter.states("10 0 0 0"),
        longer.states("10 0 0 0"),
    ]
}

/// The ticket of case d, which X = (0, 5) hides and X = (1, 5) catches.
fn false_tickets() -> Vec<Case> {
    let case = |vectors: &[[u32; 2]]| {
        let mut case = with_vectors(vectors).ticket(with_claims([-1, 3, 2, -1], [3, 4, 3, 8]));
        case.description.insert_str(0, "a false ticket, ");
        case
    };
    vec![
        case(&[[0, 0]]).states("21 0 0 0"),
        case(&[[0, 5], [0, 5]]).states("0 0 0 24"),
        case(&[[0, 5], [0, 0]]).states("21 1 0 0"),
        case(&[[1, 5], [0, 0]]).states("21 1 0 0"),
        case(&[[0, 0], [1, 5]]).states("21 0 0 0"),
    ]
}

/// Vectors of 5 numbers: zeros at all indices from one to another.
fn of_three_vectors() -> Vec<Case> {
    let sample = Sample::of_three_vectors();
    let zeros = |start: usize, end: usize| {
        let mut list = sample.list.clone();
        list[start..end].fill(0);
        let case = sample.case(format!("zeros from index {start} to {}", end - 1));
        case.challenge(challenge_file(&list))
    };
    let accepted = accepted(&sample.setting);
    vec![
        zeros(5, 10).states("21 1 0 0"),
        zeros(6, 10).states(&accepted),
        zeros(5, 9).states(&accepted),
        zeros(1, 9).states(&accepted),
        zeros(1, 10).states("21 1 0 0"),
        zeros(6, 15).states("21 2 0 0"),
    ]
}

/// Each number is a vector. S is 4, and a quotient of 1 makes the claim 14.
fn one_column() -> Vec<Case> {
    let setting = Setting::from([1, 1, 1, 2, 10, 8, 5, 0]);
    let case = |quotient: i64, list: [u32; 2]| {
        let parts = apart::make::Parts {
            a: vec![2],
            b: vec![2],
            quotients: vec![quotient],
            remainders: vec![4],
        };
        Case::new(
            format!("one column, quotient {quotient}, X = {list:?}"),
            setting_bytes(&setting),
            parts.ticket(&setting),
            challenge_file(&list),
        )
    };
    vec![
        case(0, [1, P - 1]).states("0 0 0 6"),
        case(1, [1, P - 1]).states("12 0 0 3"),
        case(0, [1, 0]).states("21 1 0 0"),
        case(1, [1, 0]).states("21 1 0 0"),
        case(1, [0, 1]).states("21 0 0 0"),
    ]
}

/// Vectors of 32 numbers, 8 of them.
fn largest() -> Vec<Case> {
    let largest = Sample::largest();
    let mut last = largest.list.clone();
    last[224..].fill(0);
    let mut but_one = last.clone();
    but_one[255] = 1;
    let case = |description: &str, list: &[u32]| largest.case(description).challenge(challenge_file(list));
    vec![
        case("the largest list, zeros in its last vector", &last).states(refused(21, 7)),
        case(
            "the largest list, zeros in its last vector but for its last number",
            &but_one,
        )
        .states("0 0 0 40960"),
    ]
}
