//! The two checks of a ticket, and those of a bias ticket.
//!
//! Both read the ticket, test every record of it, and then compare both sides of
//! the claims αq + r - o = S: the challenge check modulo p = 2,147,483,647, times
//! the challenge vectors of a list that the caller supplies; the full check each
//! claim for itself, with no list and more products. A bias ticket also holds a
//! bias entry c for each claim, which is then αq + r - o = S + c.
//!
//! Every call takes every setting, every ticket and every list, and changes
//! none of them.

use crate::{library, Answer, BiasSetting, Setting};

/// Checks the claims of a ticket against a list of s vectors, each of n numbers
/// below p that are not all 0, one vector after another.
///
/// A true ticket is accepted with every such list. A false one is accepted only
/// with lists for which its errors cancel, so the numbers are to be drawn at
/// random once the ticket is fixed; with one column it never is.
///
/// The tests are made in the order 1, 2, 19, 3, 4, then record after record 5, 6
/// and its own range, then 10, 11, 21 and 12; the first that fails decides the
/// answer.
///
/// ```
/// use dikdumar::{challenge_check, write_ticket, Setting};
///
/// // One row, one column: 7 · 9 = 63 = 10 · 6 + 3. Two vectors of one number each.
/// let setting = Setting::from([1, 1, 1, 2, 10, 9, 5, 0]);
/// let mut ticket = [0; 32];
/// write_ticket(setting, &[7], &[9], &mut ticket);
///
/// let answer = challenge_check(setting, &ticket, &[1_234_567, 89]);
/// assert_eq!(answer.numbers(), [0, 0, 0, 6]);
///
/// // A remainder of 13 is refused at its record, a false one is caught.
/// ticket[28] = 13;
/// assert_eq!(challenge_check(setting, &ticket, &[1_234_567, 89]).numbers(), [9, 3, 0, 0]);
/// ticket[28] = 4;
/// assert_eq!(challenge_check(setting, &ticket, &[1_234_567, 89]).numbers(), [12, 0, 0, 3]);
///
/// // A vector of zeros, the second of two, is refused.
/// assert_eq!(challenge_check(setting, &ticket, &[1_234_567, 0]).numbers(), [21, 1, 0, 0]);
///
/// // 10 · 6 + 4 is the claim for 63 with a rounding of 1.
/// let with_one = Setting { rounding: 1, ..setting };
/// assert_eq!(challenge_check(with_one, &ticket, &[1_234_567, 89]).numbers(), [0, 0, 0, 6]);
/// ```
pub fn challenge_check(setting: Setting, ticket: &[u8], list: &[u32]) -> Answer {
    library::challenge_check(setting, ticket, list)
}

/// Checks every claim of a ticket, row by row. It accepts the true tickets and no
/// other.
///
/// The tests are those of [`challenge_check`] before 10, and then 16; the first
/// that fails decides the answer. The number of vectors in the setting is tested
/// with the rest of it, and not used.
///
/// ```
/// use dikdumar::{full_check, write_ticket, Setting};
///
/// // One row of A, two columns of B: 7 · 9 = 63 and 7 · (-9) = -63, over 10.
/// let setting = Setting::from([1, 1, 2, 1, 10, 9, 5, 0]);
/// let mut ticket = [0; 56];
/// write_ticket(setting, &[7], &[9, -9], &mut ticket);
/// assert_eq!(full_check(setting, &ticket).numbers(), [0, 0, 0, 2]);
///
/// // -63 is 10 · (-7) + 7. With the remainder 3, the claim in column 1 is untrue.
/// ticket[52] = 3;
/// assert_eq!(full_check(setting, &ticket).numbers(), [16, 1, 0, 2]);
/// ```
pub fn full_check(setting: Setting, ticket: &[u8]) -> Answer {
    library::full_check(setting, ticket)
}

/// Checks the claims of a bias ticket against a list, as [`challenge_check`] those
/// of a plain one.
///
/// The bias, ℓ by n records of kind 5, stands between B and the quotients. The
/// tests are made in the order 1, 2, 17, 19, 3, 4, then record after record 5, 6
/// and its own range, for an entry of the bias 18, then 10, 11, 21 and 12; the
/// first that fails decides the answer.
///
/// ```
/// use dikdumar::{bias_challenge_check, write_bias_ticket, BiasSetting};
///
/// // ℓ = m = n = 2, s = 1, α = 10, T = 8, v = 5, o = 0, W = 23.
/// let setting = BiasSetting::from([2, 2, 2, 1, 10, 8, 5, 0, 23]);
/// let (a, b, bias) = ([3, -2, 5, 4], [-1, 6, 7, -8], [-4, 23, -23, 5]);
/// let mut ticket = [0; 160];
/// write_bias_ticket(setting, &a, &b, &bias, &mut ticket);
///
/// let answer = bias_challenge_check(setting, &ticket, &[1, 2]);
/// assert_eq!(answer.numbers(), [0, 0, 0, 16]);
///
/// // Record 11, the last entry of the bias: 24 is refused, a false 6 is caught.
/// ticket[8 * 11 + 4] = 24;
/// assert_eq!(bias_challenge_check(setting, &ticket, &[1, 2]).numbers(), [18, 11, 0, 0]);
/// ticket[8 * 11 + 4] = 6;
/// assert_eq!(bias_challenge_check(setting, &ticket, &[1, 2]).numbers(), [12, 0, 1, 16]);
/// ```
pub fn bias_challenge_check(setting: BiasSetting, ticket: &[u8], list: &[u32]) -> Answer {
    library::bias_challenge_check(setting, ticket, list)
}

/// Checks every claim of a bias ticket, row by row, as [`full_check`] those of a
/// plain one. It accepts the true bias tickets and no other.
///
/// The tests are those of [`bias_challenge_check`] before 10, and then 16; the
/// first that fails decides the answer. The number of vectors in the setting is
/// tested with the rest of it, and not used.
///
/// ```
/// use dikdumar::{bias_full_check, write_bias_ticket, BiasSetting};
///
/// // One row of A, two columns of B: 63 + 5 = 68 and -63 - 5 = -68, over 10.
/// let setting = BiasSetting::from([1, 1, 2, 1, 10, 9, 5, 0, 5]);
/// let mut ticket = [0; 72];
/// write_bias_ticket(setting, &[7], &[9, -9], &[5, -5], &mut ticket);
/// assert_eq!(bias_full_check(setting, &ticket).numbers(), [0, 0, 0, 2]);
///
/// // With the bias 4 in column 0, record 3, the sum is 67 and the claim still 68.
/// ticket[8 * 3 + 4] = 4;
/// assert_eq!(bias_full_check(setting, &ticket).numbers(), [16, 0, 0, 1]);
/// ```
pub fn bias_full_check(setting: BiasSetting, ticket: &[u8]) -> Answer {
    library::bias_full_check(setting, ticket)
}

#[cfg(test)]
mod tests {
    use super::*;

    /// ℓ = m = n = 2, s = 1, α = 10, T = 8, v = 5, o = 0.
    const K: [u32; 8] = [2, 2, 2, 1, 10, 8, 5, 0];

    const A: [i32; 4] = [3, -2, 5, 4];
    const B: [i32; 4] = [-1, 6, 7, -8];

    /// The records of parts that are 2 by 2, each with its kind.
    fn records(parts: &[(u8, [i32; 4])]) -> Vec<u8> {
        let mut bytes = Vec::new();
        for &(kind, part) in parts {
            for (index, entry) in (0..).zip(part) {
                let value = crate::residue::from_signed(entry);
                bytes.extend([kind, 0, index / 2, index % 2]);
                bytes.extend(value.to_le_bytes());
            }
        }
        bytes
    }

    /// The ticket for A and B with these quotients; -2, 3, 2, -1 are the true ones.
    fn ticket(quotients: [i32; 4]) -> Vec<u8> {
        records(&[(1, A), (2, B), (3, quotients), (4, [3, 4, 3, 8])])
    }

    const TRUE: [i32; 4] = [-2, 3, 2, -1];
    const FIRST_FALSE: [i32; 4] = [-1, 3, 2, -1];
    const LAST_FALSE: [i32; 4] = [-2, 3, 2, 0];

    fn challenge(ticket: &[u8], list: &[u32]) -> [u32; 4] {
        challenge_check(Setting::from(K), ticket, list).numbers()
    }

    fn full(ticket: &[u8]) -> [u32; 4] {
        full_check(Setting::from(K), ticket).numbers()
    }

    #[test]
    fn a_true_ticket_is_accepted() {
        assert_eq!(challenge(&ticket(TRUE), &[1, 2]), [0, 0, 0, 12]);
        assert_eq!(full(&ticket(TRUE)), [0, 0, 0, 8]);
    }

    #[test]
    fn a_false_ticket_is_not() {
        assert_eq!(challenge(&ticket(FIRST_FALSE), &[1, 5]), [12, 0, 0, 8]);
        assert_eq!(full(&ticket(FIRST_FALSE)), [16, 0, 0, 2]);
        assert_eq!(full(&ticket(LAST_FALSE)), [16, 3, 0, 8]);
    }

    #[test]
    fn the_full_check_needs_no_list() {
        assert_eq!(challenge(&ticket(FIRST_FALSE), &[0, 5]), [0, 0, 0, 12]);
        assert_eq!(full(&ticket(FIRST_FALSE)), [16, 0, 0, 2]);
    }

    #[test]
    fn nothing_is_needed_behind_an_empty_slice() {
        assert_eq!(challenge(&[], &[]), [4, 0, 0, 0]);
        assert_eq!(challenge(&[], &[1, 2]), [4, 0, 0, 0]);
        assert_eq!(challenge(&ticket(TRUE), &[]), [10, 0, 0, 0]);
        assert_eq!(full(&[]), [4, 0, 0, 0]);
    }

    /// K with W = 23.
    const K_WITH_BIAS: [u32; 9] = [2, 2, 2, 1, 10, 8, 5, 0, 23];

    /// The bias ticket for A and B with this bias; of -4, 23, -23, 5 the sums are
    /// -21, 57, 0 and 3, and the claims are true.
    fn bias_ticket(bias: [i32; 4]) -> Vec<u8> {
        records(&[(1, A), (2, B), (5, bias), (3, [-3, 5, 0, 0]), (4, [9, 7, 0, 3])])
    }

    const TRUE_BIAS: [i32; 4] = [-4, 23, -23, 5];

    fn bias_challenge(ticket: &[u8], list: &[u32]) -> [u32; 4] {
        bias_challenge_check(BiasSetting::from(K_WITH_BIAS), ticket, list).numbers()
    }

    fn bias_full(ticket: &[u8]) -> [u32; 4] {
        bias_full_check(BiasSetting::from(K_WITH_BIAS), ticket).numbers()
    }

    #[test]
    fn a_true_bias_ticket_is_accepted() {
        assert_eq!(bias_challenge(&bias_ticket(TRUE_BIAS), &[1, 2]), [0, 0, 0, 16]);
        assert_eq!(bias_full(&bias_ticket(TRUE_BIAS)), [0, 0, 0, 8]);
    }

    #[test]
    fn a_bias_ticket_that_only_the_bias_makes_false_is_not() {
        let first = bias_ticket([-5, 23, -23, 5]);
        assert_eq!(bias_challenge(&first, &[1, 2]), [12, 0, 0, 10]);
        assert_eq!(bias_full(&first), [16, 0, 0, 2]);
        let last = bias_ticket([-4, 23, -23, 6]);
        assert_eq!(bias_challenge(&last, &[1, 2]), [12, 0, 1, 16]);
        assert_eq!(bias_full(&last), [16, 3, 0, 8]);
        // The list leaves the last column out.
        assert_eq!(bias_challenge(&last, &[1, 0]), [0, 0, 0, 16]);
    }

    #[test]
    fn the_bias_has_a_bound() {
        for (beyond, record) in [([-24, 23, -23, 5], 8), ([-4, 24, -23, 5], 9), ([-4, 23, -23, 24], 11)] {
            assert_eq!(bias_challenge(&bias_ticket(beyond), &[1, 2]), [18, record, 0, 0]);
            assert_eq!(bias_full(&bias_ticket(beyond)), [18, record, 0, 0]);
        }
    }

    #[test]
    fn a_bound_of_the_bias_is_refused_after_2_and_before_3() {
        let number = bias_number;
        assert_eq!(number([2, 2, 2, 1, 10, 8, 5, 0, 24]), [3, 3]);
        assert_eq!(number([2, 2, 2, 1, 10, 8, 5, 0, 1 << 30]), [3, 3]);
        assert_eq!(number([2, 2, 2, 1, 10, 8, 4, 0, (1 << 30) + 1]), [17, 17]);
        assert_eq!(number([2, 2, 2, 1, 10, 8, 31, 0, u32::MAX]), [2, 2]);
        assert_eq!(number([2, 2, 33, 1, 10, 8, 5, 0, u32::MAX]), [1, 1]);
    }

    /// The numbers that both checks of bias tickets give to nothing.
    fn bias_number(setting: [u32; 9]) -> [u32; 2] {
        let setting = BiasSetting::from(setting);
        let of_both = [bias_challenge_check(setting, &[], &[]), bias_full_check(setting, &[])];
        of_both.map(|answer| answer.number)
    }

    #[test]
    fn a_rounding_is_refused_after_2_and_17_and_before_3() {
        let number = |setting: [u32; 8]| {
            let setting = Setting::from(setting);
            let of_both = [challenge_check(setting, &[], &[]), full_check(setting, &[])];
            of_both.map(|answer| answer.number)
        };
        assert_eq!(number([2, 2, 2, 1, 10, 8, 5, 9]), [4, 4]);
        assert_eq!(number([2, 2, 2, 1, 10, 8, 5, 10]), [19, 19]);
        assert_eq!(number([2, 2, 2, 1, 10, 8, 4, u32::MAX]), [19, 19]);
        assert_eq!(number([2, 2, 2, 1, 10, 8, 4, 9]), [3, 3]);
        assert_eq!(number([2, 2, 2, 1, 10, 8, 31, 10]), [2, 2]);
        assert_eq!(number([2, 2, 33, 1, 10, 8, 5, 10]), [1, 1]);
        assert_eq!(bias_number([2, 2, 2, 1, 10, 8, 5, 9, 14]), [4, 4]);
        assert_eq!(bias_number([2, 2, 2, 1, 10, 8, 5, 9, 15]), [3, 3]);
        assert_eq!(bias_number([2, 2, 2, 1, 10, 8, 5, 10, 24]), [19, 19]);
        assert_eq!(bias_number([2, 2, 2, 1, 10, 8, 5, 10, (1 << 30) + 1]), [17, 17]);
        assert_eq!(bias_number([2, 2, 2, 1, 10, 8, 31, 10, 23]), [2, 2]);
    }

    #[test]
    fn claims_are_judged_with_the_rounding() {
        // -17, 34, 23 and -2 with 5 added, over 10.
        let nearest = Setting {
            rounding: 5,
            ..Setting::from(K)
        };
        let rounded = records(&[(1, A), (2, B), (3, [-2, 3, 2, 0]), (4, [8, 9, 8, 3])]);
        assert_eq!(challenge_check(nearest, &rounded, &[1, 2]).numbers(), [0, 0, 0, 12]);
        assert_eq!(full_check(nearest, &rounded).numbers(), [0, 0, 0, 8]);
        // Each is false under the other's setting; there 1 and p - 1 cancel the 5.
        assert_eq!(challenge(&rounded, &[1, 2]), [12, 0, 0, 8]);
        assert_eq!(challenge(&rounded, &[1, 2_147_483_646]), [0, 0, 0, 12]);
        assert_eq!(full(&rounded), [16, 0, 0, 2]);
        assert_eq!(
            challenge_check(nearest, &ticket(TRUE), &[1, 2]).numbers(),
            [12, 0, 0, 8]
        );
        assert_eq!(full_check(nearest, &ticket(TRUE)).numbers(), [16, 0, 0, 2]);
    }

    #[test]
    fn claims_with_a_bias_are_judged_with_the_rounding() {
        // -21, 52, 5 and 3 with 5 added, over 10.
        let nearest = BiasSetting::from([2, 2, 2, 1, 10, 8, 5, 5, 18]);
        let bias = [-4, 18, -18, 5];
        let rounded = records(&[(1, A), (2, B), (5, bias), (3, [-2, 5, 1, 0]), (4, [4, 7, 0, 8])]);
        assert_eq!(
            bias_challenge_check(nearest, &rounded, &[1, 2]).numbers(),
            [0, 0, 0, 16]
        );
        assert_eq!(bias_full_check(nearest, &rounded).numbers(), [0, 0, 0, 8]);
        assert_eq!(bias_challenge(&rounded, &[1, 2]), [12, 0, 0, 10]);
        assert_eq!(bias_full(&rounded), [16, 0, 0, 2]);
    }

    #[test]
    fn each_check_reads_its_own_form() {
        assert_eq!(challenge(&bias_ticket(TRUE_BIAS), &[1, 2]), [4, 0, 0, 0]);
        assert_eq!(full(&bias_ticket(TRUE_BIAS)), [4, 0, 0, 0]);
        assert_eq!(bias_challenge(&ticket(TRUE), &[1, 2]), [4, 0, 0, 0]);
        assert_eq!(bias_full(&ticket(TRUE)), [4, 0, 0, 0]);
    }

    #[test]
    fn nothing_is_needed_behind_an_empty_slice_for_bias_tickets() {
        assert_eq!(bias_challenge(&[], &[]), [4, 0, 0, 0]);
        assert_eq!(bias_challenge(&[], &[1, 2]), [4, 0, 0, 0]);
        assert_eq!(bias_challenge(&bias_ticket(TRUE_BIAS), &[]), [10, 0, 0, 0]);
        assert_eq!(bias_full(&[]), [4, 0, 0, 0]);
    }
}
