//! Residue arithmetic modulo p = 2,147,483,647.
//!
//! Every call takes every value of its arguments. A residue is handed in by any
//! number that is equal to it modulo p, and handed out as the least one, from 0
//! to p - 1.
//!
//! ```
//! use dikdumar::residue;
//!
//! let p = 2_147_483_647;
//! assert_eq!(residue::reduce(p), 0);
//! assert_eq!(residue::add(p - 1, 2), 1);
//! assert_eq!(residue::subtract(1, 2), p - 1);
//! assert_eq!(residue::multiply(p - 1, p - 1), 1);
//! assert_eq!(residue::from_signed(-2), p - 2);
//! assert_eq!(residue::to_signed(p - 2), -2);
//! assert_eq!(residue::power_of_two(30), 1_073_741_824);
//! assert_eq!(residue::power_of_two(31), 0);
//! ```

use crate::library;

/// The least residue of `x`.
pub fn reduce(x: u32) -> u32 {
    library::dikdumar_reduce(x)
}

/// The least residue of `x + y`.
pub fn add(x: u32, y: u32) -> u32 {
    library::dikdumar_add(x, y)
}

/// The least residue of `x - y`, also where `x` is below `y`.
pub fn subtract(x: u32, y: u32) -> u32 {
    library::dikdumar_subtract(x, y)
}

/// The least residue of the exact product of `x` and `y`.
pub fn multiply(x: u32, y: u32) -> u32 {
    library::dikdumar_multiply(x, y)
}

/// The least residue of a signed number.
pub fn from_signed(x: i32) -> u32 {
    library::dikdumar_from_signed(x)
}

/// The signed entry that the residue `x` stands for: the number from
/// -(p - 1)/2 to (p - 1)/2 that is equal to `x` modulo p.
pub fn to_signed(x: u32) -> i32 {
    library::dikdumar_to_signed(x)
}

/// 2^k for `k` up to 30, and 0 above.
pub fn power_of_two(k: u32) -> u32 {
    library::dikdumar_power_of_two(k)
}

#[cfg(test)]
mod tests {
    use super::*;

    /// Between the least residues and the signed entries the conversions undo
    /// each other, at both ends of each range and in the middle.
    #[test]
    fn conversions_undo_each_other() {
        let p = from_signed(-1) + 1;
        let largest = ((p - 1) / 2) as i32;
        for residue in [0, 1, 2, (p - 1) / 2, (p - 1) / 2 + 1, p - 2, p - 1] {
            assert_eq!(from_signed(to_signed(residue)), residue);
        }
        for entry in [-largest, -largest + 1, -1, 0, 1, largest - 1, largest] {
            assert_eq!(to_signed(from_signed(entry)), entry);
        }
    }
}
