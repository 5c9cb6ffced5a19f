//! Every size at its greatest: 6,144 records, 256 numbers, 40,960 products.

use apart::make::{residue, Parts};
use apart::program::challenge_file;
use apart::Setting;

use crate::case::Case;
use crate::sample::{largest_parts, setting_bytes, Sample, P};

/// Vectors of 32 numbers, 8 of them.
const VECTORS: usize = 8;
const COLUMNS: usize = 32;

pub fn cases() -> Vec<Case> {
    [accepted(), caught(), refused()].concat()
}

/// One vector takes 2,048 + 1,024 + 2,048 = 5,120 products.
fn accepted() -> Vec<Case> {
    let largest = Sample::largest();
    let (setting, parts) = largest_parts(0);
    let bound = i64::from(setting.bound);
    let all = |description: &str, a: i64, b: i64| {
        let parts = Parts::true_ones(&setting, &vec![a; parts.a.len()], &vec![b; parts.b.len()]);
        largest
            .case(description)
            .ticket(parts.ticket(&setting))
            .challenge(challenge_file(&[P - 1; VECTORS * COLUMNS]))
    };
    vec![
        largest.case("a true ticket").states("0 0 0 40960"),
        all("entries T and T, numbers p - 1", bound, bound).states("0 0 0 40960"),
        all("entries T and -T, numbers p - 1", bound, -bound).states("0 0 0 40960"),
        all("entries -T and -T, numbers p - 1", -bound, -bound).states("0 0 0 40960"),
    ]
}

/// One claim is untrue, and its column is 0 in each vector but one.
fn caught() -> Vec<Case> {
    let untrue = |description: &str, row: usize, column: usize, vector: usize| {
        let (setting, mut parts) = largest_parts(0);
        parts.remainders[row * COLUMNS + column] ^= 1;
        let mut list = Sample::largest().list;
        for t in 0..VECTORS {
            list[t * COLUMNS + column] = u32::from(t == vector);
        }
        Case::new(
            description,
            setting_bytes(&setting),
            parts.ticket(&setting),
            challenge_file(&list),
        )
    };
    vec![
        // 7·5,120 + 2,048 + 32·96
        untrue("caught in the last vector and row, by the last column", 31, 31, 7).states("12 7 31 40960"),
        untrue("caught in the last vector and row, by the first column", 31, 0, 7).states("12 7 31 40960"),
        // 7·5,120 + 2,048 + 96
        untrue("caught in the last vector, the first row", 0, 31, 7).states("12 7 0 37984"),
        // 2,048 + 32·96
        untrue("caught in the first vector, the last row", 31, 31, 0).states("12 0 31 5120"),
        // 2,048 + 96
        untrue("caught in the first vector and row", 0, 0, 0).states("12 0 0 2144"),
        // 3·5,120 + 2,048 + 17·96
        untrue("caught in vector 3, row 16", 16, 15, 3).states("12 3 16 19040"),
        // The column is 0 in all vectors.
        untrue("an untrue claim that is not caught", 31, 31, 8).states("0 0 0 40960"),
    ]
}

/// A begins at record 0, B at 2,048, the quotients at 4,096, the remainders at
/// 5,120.
fn refused() -> Vec<Case> {
    let largest = Sample::largest();
    let Setting { bound, scale, .. } = largest.setting;
    let value = |description: &str, record: usize, value: u32| {
        largest.case(description).ticket(largest.with_value(record, value))
    };
    let byte =
        |description: &str, place: usize, byte: u8| largest.case(description).ticket(largest.with_byte(place, byte));
    let number = |description: &str, index: usize| largest.case(description).challenge(largest.with_number(index, P));
    vec![
        byte("the kind in the last record", 8 * 6_143, 3).states("5 6143 0 0"),
        byte("the zero byte in the last record", 8 * 6_143 + 1, 1).states("5 6143 0 0"),
        byte("the row in the last record", 8 * 6_143 + 2, 30).states("5 6143 0 0"),
        byte("the column in the last record", 8 * 6_143 + 3, 32).states("5 6143 0 0"),
        byte("the column in the last record of A", 8 * 2_047 + 3, 64).states("5 2047 0 0"),
        value("p in the last record", 6_143, P).states("6 6143 0 0"),
        value("T + 1 in the last record of A", 2_047, bound + 1).states("7 2047 0 0"),
        value("-T - 1 in the last record of B", 4_095, P - bound - 1).states("7 4095 0 0"),
        value("2^13 in the last quotient", 5_119, 1 << 13).states("8 5119 0 0"),
        value("-2^13 - 1 in the first quotient", 4_096, residue(-(1 << 13) - 1)).states("8 4096 0 0"),
        value("α in the last record", 6_143, scale).states("9 6143 0 0"),
        number("p at the first index", 0).states("11 0 0 0"),
        number("p at the last index", 255).states("11 255 0 0"),
    ]
}
