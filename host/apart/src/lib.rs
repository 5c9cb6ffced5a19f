//! The rules of the scope paper, followed sentence by sentence: residue
//! arithmetic modulo p here at the root, the setting, the reading of a ticket,
//! the challenge check, the full check, the writer and the program in a module
//! each, and, for those who test them, the making of tickets, true and false, and
//! what the marked examples share. Of the paper of change requests the first
//! six are followed. "Bias from the autumn model": both checks and the writer
//! have a call for bias tickets beside the plain one, and the rules that are the
//! same are written once. "Rounding to the nearest": the setting has a rounding
//! number o, and every call goes by it. "Quoting for a layer before it is built":
//! the quote, for plain and for bias tickets, in a module of its own. "The power
//! table goes": a power of two is worked out by its formula. "A vector of zeros":
//! the challenge check refuses a list that holds one, in the program too. "Further
//! vectors during a check": begin, step and addition of a run, in a module of
//! their own, over the rules of the challenge check.
//!
//! Everything is exact integer arithmetic in `i128`. Every residue goes through
//! one definition of the least residue. Every function takes every input,
//! except that a ticket is made only from matrices of the setting's sizes. The
//! largest number met is a sum of products of two numbers below p, far below
//! the limit of `i128`.

#![forbid(unsafe_code)]

mod answer;
mod check;
pub mod examples;
mod full;
pub mod make;
mod matrix;
pub mod program;
mod quote;
mod run;
mod setting;
mod ticket;
mod writer;

pub use answer::Answer;
pub use check::{bias_challenge_check, challenge_check};
pub use full::{bias_full_check, full_check};
pub use make::{true_bias_ticket, true_ticket};
pub use quote::{quote_bias_ticket, quote_ticket, Quote};
pub use run::{run_add, run_begin, run_step, Mark, Run, RunAnswer};
pub use setting::{BiasSetting, Setting};
pub use writer::{write_bias_ticket, write_ticket};

/// The modulus of the scope paper: "p = 2,147,483,647."
pub const P: i128 = 2_147_483_647;

/// The least residue of any integer: "A least residue is a whole number from 0
/// to p - 1."
fn least_residue(x: i128) -> i128 {
    x.rem_euclid(P)
}

/// The least residue of any integer, as an unsigned 32-bit number. It is below
/// p, so nothing is lost.
fn residue_of(x: i128) -> u32 {
    least_residue(x) as u32
}

/// The least residue of an unsigned number: "an unsigned 32-bit number of p or
/// more handed to them or to a conversion is reduced first."
pub fn reduce(x: u32) -> u32 {
    residue_of(i128::from(x))
}

/// The sum: "Sum, difference and product are exact modulo p; an unsigned 32-bit
/// number of p or more handed to them or to a conversion is reduced first."
pub fn add(x: u32, y: u32) -> u32 {
    let x = i128::from(reduce(x));
    let y = i128::from(reduce(y));
    residue_of(x + y)
}

/// The difference, x less y: "Sum, difference and product are exact modulo p;
/// an unsigned 32-bit number of p or more handed to them or to a conversion is
/// reduced first."
pub fn subtract(x: u32, y: u32) -> u32 {
    let x = i128::from(reduce(x));
    let y = i128::from(reduce(y));
    residue_of(x - y)
}

/// The product: "Sum, difference and product are exact modulo p; an unsigned
/// 32-bit number of p or more handed to them or to a conversion is reduced
/// first."
pub fn multiply(x: u32, y: u32) -> u32 {
    let x = i128::from(reduce(x));
    let y = i128::from(reduce(y));
    residue_of(x * y)
}

/// The least residue of a signed number: "Every signed 32-bit number converts
/// to its least residue".
pub fn from_signed(x: i32) -> u32 {
    residue_of(i128::from(x))
}

/// The signed entry that a residue stands for: "It stands for the signed entry
/// equal to it modulo p between -(p - 1)/2 and (p - 1)/2." A number of p or more
/// "is reduced first."
pub fn to_signed(x: u32) -> i32 {
    let x = i128::from(reduce(x));
    let entry = if x <= (P - 1) / 2 { x } else { x - P };
    // Between -(p - 1)/2 and (p - 1)/2, so nothing is lost.
    entry as i32
}

/// The power of two with exponent k: "Work the power out by its formula." The
/// formula is 1 doubled k times, for "Powers of two up to 2^30"; "an exponent
/// above 30 gives 0."
pub fn power_of_two(k: u32) -> u32 {
    if k > 30 {
        return 0;
    }
    let mut power: i128 = 1;
    for _ in 0..k {
        power = least_residue(power + power);
    }
    residue_of(power)
}

// The numbers below are worked out by hand from p = 2147483647:
//   (p - 1)/2 = 1073741823,  (p + 1)/2 = 1073741824 = 2^30,
//   p - 1 = 2147483646,      p + 1 = 2147483648 = 2^31,
//   2p = 4294967294,         2p + 1 = 4294967295 = 2^32 - 1.
#[cfg(test)]
mod tests {
    use super::*;

    #[test]
    fn the_modulus() {
        assert_eq!(P, 2147483647);
    }

    #[test]
    fn least_residues_stay() {
        assert_eq!(reduce(0), 0);
        assert_eq!(reduce(1), 1);
        assert_eq!(reduce(1073741823), 1073741823);
        assert_eq!(reduce(1073741824), 1073741824);
        assert_eq!(reduce(2147483646), 2147483646);
    }

    #[test]
    fn numbers_of_p_or_more_are_reduced() {
        assert_eq!(reduce(2147483647), 0); // p
        assert_eq!(reduce(2147483648), 1); // p + 1 = 2^31
        assert_eq!(reduce(2147483649), 2); // p + 2
        assert_eq!(reduce(4294967293), 2147483646); // 2p - 1
        assert_eq!(reduce(4294967294), 0); // 2p
        assert_eq!(reduce(4294967295), 1); // 2p + 1 = 2^32 - 1
    }

    #[test]
    fn sums() {
        assert_eq!(add(0, 0), 0);
        assert_eq!(add(0, 2147483646), 2147483646);
        assert_eq!(add(1, 2147483646), 0);
        // (p - 1)/2 + (p + 1)/2 = p
        assert_eq!(add(1073741823, 1073741824), 0);
        // Twice (p - 1)/2 is p - 1, twice (p + 1)/2 is p + 1.
        assert_eq!(add(1073741823, 1073741823), 2147483646);
        assert_eq!(add(1073741824, 1073741824), 1);
        // (p - 1) + (p - 1) = 2p - 2, which leaves p - 2.
        assert_eq!(add(2147483646, 2147483646), 2147483645);
    }

    #[test]
    fn sums_of_numbers_of_p_or_more() {
        assert_eq!(add(2147483647, 2147483647), 0); // 0 + 0
        assert_eq!(add(2147483648, 2147483647), 1); // 1 + 0
        assert_eq!(add(2147483648, 2147483646), 0); // 1 + (p - 1)
        assert_eq!(add(4294967295, 4294967295), 2); // 1 + 1
    }

    #[test]
    fn differences() {
        assert_eq!(subtract(0, 0), 0);
        assert_eq!(subtract(1, 0), 1);
        assert_eq!(subtract(0, 1), 2147483646);
        assert_eq!(subtract(0, 2147483646), 1);
        assert_eq!(subtract(2147483646, 2147483646), 0);
        // (p - 1)/2 - (p + 1)/2 = -1
        assert_eq!(subtract(1073741823, 1073741824), 2147483646);
        assert_eq!(subtract(1073741824, 1073741823), 1);
        // 0 - (p + 1)/2 = -(p + 1)/2, which leaves (p - 1)/2.
        assert_eq!(subtract(0, 1073741824), 1073741823);
    }

    #[test]
    fn differences_of_numbers_of_p_or_more() {
        assert_eq!(subtract(0, 2147483647), 0); // 0 - 0
        assert_eq!(subtract(2147483647, 1), 2147483646); // 0 - 1
        assert_eq!(subtract(0, 2147483648), 2147483646); // 0 - 1
        assert_eq!(subtract(0, 4294967295), 2147483646); // 0 - 1
        assert_eq!(subtract(4294967295, 0), 1); // 1 - 0
        assert_eq!(subtract(4294967295, 2147483648), 0); // 1 - 1
    }

    #[test]
    fn products() {
        assert_eq!(multiply(0, 2147483646), 0);
        assert_eq!(multiply(1, 2147483646), 2147483646);
        // p - 1 stands for -1.
        assert_eq!(multiply(2147483646, 2147483646), 1);
        assert_eq!(multiply(2147483646, 1073741823), 1073741824);
        // Twice (p + 1)/2 is p + 1, twice (p - 1)/2 is p - 1.
        assert_eq!(multiply(2, 1073741824), 1);
        assert_eq!(multiply(2, 1073741823), 2147483646);
        // 2^31 leaves 1, so 2^30 * 2^30 = 2^60 = 2^31 * 2^29 leaves 2^29.
        assert_eq!(multiply(1073741824, 1073741824), 536870912);
        // (p - 1)/2 is p less 2^30, so its square leaves 2^29 as well.
        assert_eq!(multiply(1073741823, 1073741823), 536870912);
        // 65536 * 65536 = 2^32 = 2p + 2
        assert_eq!(multiply(65536, 65536), 2);
        // Below p nothing is taken off.
        assert_eq!(multiply(12345, 1000), 12345000);
    }

    #[test]
    fn products_of_numbers_of_p_or_more() {
        assert_eq!(multiply(2147483647, 2147483646), 0); // 0 * (p - 1)
        assert_eq!(multiply(2147483648, 5), 5); // 1 * 5
        assert_eq!(multiply(4294967295, 2147483646), 2147483646); // 1 * (p - 1)
        assert_eq!(multiply(4294967295, 4294967295), 1); // 1 * 1
        assert_eq!(multiply(4294967293, 4294967293), 1); // (-1) * (-1)
        assert_eq!(multiply(4294967294, 4294967295), 0); // 0 * 1
    }

    #[test]
    fn signed_numbers_to_residues() {
        assert_eq!(from_signed(-2147483648), 2147483646); // -2^31 = -p - 1
        assert_eq!(from_signed(-2147483647), 0); // -p
        assert_eq!(from_signed(-2147483646), 1); // -(p - 1)
        assert_eq!(from_signed(-1073741824), 1073741823); // -(p + 1)/2
        assert_eq!(from_signed(-1073741823), 1073741824); // -(p - 1)/2
        assert_eq!(from_signed(-1), 2147483646);
        assert_eq!(from_signed(0), 0);
        assert_eq!(from_signed(1), 1);
        assert_eq!(from_signed(1073741823), 1073741823); // (p - 1)/2
        assert_eq!(from_signed(1073741824), 1073741824); // (p + 1)/2
        assert_eq!(from_signed(2147483646), 2147483646); // p - 1
        assert_eq!(from_signed(2147483647), 0); // p
    }

    #[test]
    fn residues_to_signed_entries() {
        assert_eq!(to_signed(0), 0);
        assert_eq!(to_signed(1), 1);
        assert_eq!(to_signed(1073741823), 1073741823); // (p - 1)/2
        assert_eq!(to_signed(1073741824), -1073741823); // (p + 1)/2
        assert_eq!(to_signed(2147483645), -2); // p - 2
        assert_eq!(to_signed(2147483646), -1); // p - 1
    }

    #[test]
    fn numbers_of_p_or_more_to_signed_entries() {
        assert_eq!(to_signed(2147483647), 0); // p
        assert_eq!(to_signed(2147483648), 1); // p + 1 = 2^31
        assert_eq!(to_signed(3221225470), 1073741823); // p + (p - 1)/2
        assert_eq!(to_signed(3221225471), -1073741823); // p + (p + 1)/2
        assert_eq!(to_signed(4294967293), -1); // 2p - 1
        assert_eq!(to_signed(4294967294), 0); // 2p
        assert_eq!(to_signed(4294967295), 1); // 2p + 1 = 2^32 - 1
    }

    #[test]
    fn conversions_undo_each_other() {
        // The ends and the middle of the least residues.
        for x in [0, 1, 2, 1073741822, 1073741823] {
            assert_eq!(from_signed(to_signed(x)), x);
        }
        for x in [1073741824, 1073741825, 2147483645, 2147483646] {
            assert_eq!(from_signed(to_signed(x)), x);
        }
        // The ends and the middle of the signed entries.
        for x in [-1073741823, -1073741822, -2, -1, 0] {
            assert_eq!(to_signed(from_signed(x)), x);
        }
        for x in [1, 2, 1073741822, 1073741823] {
            assert_eq!(to_signed(from_signed(x)), x);
        }
    }

    #[test]
    fn just_outside_the_signed_entries_they_do_not() {
        // -(p + 1)/2 and (p + 1)/2 come back as their equals in the range.
        assert_eq!(to_signed(from_signed(-1073741824)), 1073741823);
        assert_eq!(to_signed(from_signed(1073741824)), -1073741823);
        assert_eq!(to_signed(from_signed(-2147483648)), -1);
        assert_eq!(to_signed(from_signed(2147483647)), 0);
    }

    #[test]
    fn powers_of_two() {
        assert_eq!(power_of_two(0), 1);
        assert_eq!(power_of_two(1), 2);
        assert_eq!(power_of_two(2), 4);
        assert_eq!(power_of_two(10), 1024);
        assert_eq!(power_of_two(16), 65536);
        assert_eq!(power_of_two(20), 1048576);
        assert_eq!(power_of_two(29), 536870912);
        assert_eq!(power_of_two(30), 1073741824);
    }

    #[test]
    fn each_power_is_twice_the_one_before() {
        for k in 1..=30 {
            assert_eq!(power_of_two(k), 2 * power_of_two(k - 1));
        }
    }

    #[test]
    fn exponents_above_30_give_0() {
        for k in 31..=64 {
            assert_eq!(power_of_two(k), 0);
        }
        assert_eq!(power_of_two(2147483648), 0); // 2^31
        assert_eq!(power_of_two(4294967295), 0); // 2^32 - 1
    }

    #[test]
    fn exponents_whose_low_bits_are_a_small_exponent_give_0() {
        for k in 0..=30 {
            // 2^5, 2^8, 2^16 and 2^31: one bit above the low ones.
            for high in [32, 256, 65536, 2147483648] {
                assert_eq!(power_of_two(high + k), 0);
            }
            // 2^32 - 2^5, 2^32 - 2^8 and 2^32 - 2^16: every bit above them.
            for high in [4294967264, 4294967040, 4294901760] {
                assert_eq!(power_of_two(high + k), 0);
            }
        }
    }

    #[test]
    fn every_pair_of_corners_gives_least_residues() {
        let corners = [
            0, 1, 1073741823, 1073741824, 2147483646, 2147483647, 2147483648, 4294967293, 4294967294, 4294967295,
        ];
        for x in corners {
            for y in corners {
                assert!(add(x, y) < 2147483647);
                assert!(subtract(x, y) < 2147483647);
                assert!(multiply(x, y) < 2147483647);
                // The difference undoes the sum.
                assert_eq!(subtract(add(x, y), y), reduce(x));
            }
        }
    }
}
