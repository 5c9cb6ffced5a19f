//! The numbers of the setting but o, which is 0: each at its limits and beyond,
//! four bytes of the larger ones, and the edge of fitting. The other files are
//! those of case c, unless the setting calls for others.

use apart::examples::K;
use apart::{true_ticket, Setting};

use crate::case::Case;
use crate::sample::{accepted, setting_bytes, Sample};

pub fn cases() -> Vec<Case> {
    [sizes(), others(), bytes(), fitting(), largest_entries()].concat()
}

/// The index of each number in ℓ, m, n, s, α, T, v, o.
const ROWS: usize = 0;
const INNER: usize = 1;
const COLUMNS: usize = 2;
const VECTORS: usize = 3;
const SCALE: usize = 4;
const BOUND: usize = 5;
const WIDTH: usize = 6;

/// K with some numbers changed, by their index.
fn with(changes: &[(usize, u32)]) -> Case {
    const NAMES: [&str; 7] = ["ℓ", "m", "n", "s", "α", "T", "v"];
    let mut numbers = K.numbers();
    let mut names = Vec::new();
    for &(index, number) in changes {
        numbers[index] = number;
        names.push(format!("{} = {number}", NAMES[index]));
    }
    Sample::of_c()
        .case(names.join(", "))
        .setting(setting_bytes(&Setting::from(numbers)))
}

/// Outside their limits, and at the ends inside, where another ticket is asked
/// for, or another list.
fn sizes() -> Vec<Case> {
    let mut cases = Vec::new();
    for (index, greatest) in [(ROWS, 32), (INNER, 64), (COLUMNS, 32), (VECTORS, 8)] {
        for outside in [0, greatest + 1, 255] {
            cases.push(with(&[(index, outside)]).states("1 0 0 0"));
        }
    }
    for (index, inside) in [(ROWS, 1), (ROWS, 32), (INNER, 1), (COLUMNS, 1), (COLUMNS, 32)] {
        cases.push(with(&[(index, inside)]).states("4 0 0 0"));
    }
    cases.push(with(&[(VECTORS, 8)]).states("10 0 0 0"));
    cases
}

/// Outside their limits, and at the ends inside.
fn others() -> Vec<Case> {
    vec![
        with(&[(SCALE, 0)]).states("2 0 0 0"),
        with(&[(SCALE, 65_537)]).states("2 0 0 0"),
        with(&[(BOUND, 0)]).states("2 0 0 0"),
        with(&[(BOUND, 32_768)]).states("2 0 0 0"),
        with(&[(WIDTH, 31)]).states("2 0 0 0"),
        with(&[(WIDTH, u32::MAX)]).states("2 0 0 0"),
        // Inside, and not fitting.
        with(&[(SCALE, 2)]).states("3 0 0 0"),
        with(&[(BOUND, 32_767)]).states("3 0 0 0"),
        with(&[(WIDTH, 1)]).states("3 0 0 0"),
        with(&[(WIDTH, 30)]).states("3 0 0 0"),
        // Fitting, and record 0 holds 3.
        with(&[(BOUND, 1)]).states("7 0 0 0"),
    ]
}

/// K's numbers in their lowest byte, and a higher byte that is not 0.
fn bytes() -> Vec<Case> {
    let mut cases = vec![
        // Within the limits, and the claims are untrue under it.
        with(&[(SCALE, 10 + (1 << 8))]).states("12 0 0 8"),
        with(&[(BOUND, 8 + (1 << 8))]).states("3 0 0 0"),
        with(&[(WIDTH, 5 + (1 << 8))]).states("2 0 0 0"),
    ];
    for (index, number) in [(SCALE, 10), (BOUND, 8), (WIDTH, 5)] {
        for high in [1 << 16, 1 << 24, 1 << 31] {
            cases.push(with(&[(index, number + high)]).states("2 0 0 0"));
        }
    }
    cases.push(with(&[(BOUND, 1 << 31)]).states("2 0 0 0"));
    cases
}

/// "m·T² + α - 1 ≤ 2^(v-1)·α and 2^v·α < p", as o is 0.
fn fitting() -> Vec<Case> {
    vec![
        // For v = 2 the first condition is m·T² - 1 ≤ α, here 127 ≤ α. Record 8
        // holds -2, which is within -2 to 1; record 9 holds 3.
        with(&[(WIDTH, 2), (SCALE, 127)]).states("8 9 0 0"),
        with(&[(WIDTH, 2), (SCALE, 126)]).states("3 0 0 0"),
        // 2^29·3 is below p, where 2^29·4 is p + 1. Under α = 3 record 12, the first
        // remainder, holds 3.
        with(&[(WIDTH, 29), (SCALE, 3)]).states("9 12 0 0"),
        with(&[(WIDTH, 29), (SCALE, 4)]).states("3 0 0 0"),
        // 2^15·65,536 is p + 1, and 2^15·65,535 below p; the claims are untrue.
        with(&[(WIDTH, 15), (SCALE, 65_536)]).states("3 0 0 0"),
        with(&[(WIDTH, 15), (SCALE, 65_535)]).states("12 0 0 8"),
        // Any v that fits is taken: 2^27·10 is below p, 2^28·10 is not.
        with(&[(WIDTH, 27)]).states("0 0 0 12"),
        with(&[(WIDTH, 28)]).states("3 0 0 0"),
        // 4·32,767² is just below 2^32, 64·32,767² beyond.
        with(&[(INNER, 4), (BOUND, 32_767), (WIDTH, 15)]).states("3 0 0 0"),
        with(&[(INNER, 64), (BOUND, 32_767), (WIDTH, 15)]).states("3 0 0 0"),
    ]
}

/// True tickets of one row, one entry and one column: 32,767² + 32,766 is one
/// below 2^15·32,767; S is 1, 0 or -1 under the narrowest quotients.
fn largest_entries() -> Vec<Case> {
    let greatest = Setting::from([1, 1, 1, 1, 32_767, 32_767, 16, 0]);
    let narrowest = Setting::from([1, 1, 1, 1, 2, 1, 1, 0]);
    let operands = [
        (greatest, 32_767, 32_767),
        (greatest, -32_767, 32_767),
        (greatest, -32_766, 32_766),
        (narrowest, 1, -1),
        (narrowest, -1, -1),
    ];
    operands
        .into_iter()
        .map(|(setting, a, b)| {
            let sample = Sample {
                setting,
                ticket: true_ticket(&setting, &[a], &[b]),
                list: vec![2_147_483_646],
            };
            sample.case(format!("entries {a} and {b}")).states(accepted(&setting))
        })
        .collect()
}
