//! The writers of tickets and of bias tickets.

use crate::{library, Answer, BiasSetting, Setting};

/// Writes the one ticket for A (ℓ by m) and B (m by n), both row by row, whose
/// claims are true: each quotient is the floor of its sum plus o over α, each
/// remainder what is left. Both checks accept it.
///
/// When it is written, the answer's number is 0, its place the length of the
/// ticket in bytes, 8(ℓm + mn + 2ℓn), and its products are ℓmn. The output past
/// that length is unchanged. Every other answer is a refusal, by the tests 1, 2,
/// 19, 3, 13, 14 and 15 in this order, and leaves the whole output unchanged. The
/// number of vectors in the setting is tested with the rest of it, and not used.
///
/// ```
/// use dikdumar::{write_ticket, Setting};
///
/// // One row, one column, over 10, rounded down.
/// let setting = Setting::from([1, 1, 1, 1, 10, 9, 5, 0]);
/// let mut output = [0xFF; 40];
/// let answer = write_ticket(setting, &[7], &[-9], &mut output);
/// assert_eq!(answer.numbers(), [0, 32, 0, 1]);
///
/// // -63 is 10 · (-7) + 7. The quotient is written as the least residue of -7.
/// let (ticket, rest) = output.split_at(answer.place as usize);
/// assert_eq!(ticket[16..24], [3, 0, 0, 0, 0xF8, 0xFF, 0xFF, 0x7F]);
/// assert_eq!(ticket[24..32], [4, 0, 0, 0, 7, 0, 0, 0]);
/// assert_eq!(rest, [0xFF; 8]);
///
/// // To the nearest: -63 + 5 is 10 · (-6) + 2.
/// let nearest = Setting { rounding: 5, ..setting };
/// write_ticket(nearest, &[7], &[-9], &mut output);
/// assert_eq!(output[16..24], [3, 0, 0, 0, 0xF9, 0xFF, 0xFF, 0x7F]);
/// assert_eq!(output[24..32], [4, 0, 0, 0, 2, 0, 0, 0]);
///
/// // An operand beyond T is refused, by its index, and nothing is written.
/// let mut output = [0xFF; 40];
/// assert_eq!(write_ticket(setting, &[7], &[-10], &mut output).numbers(), [14, 1, 0, 0]);
/// assert_eq!(output, [0xFF; 40]);
/// ```
pub fn write_ticket(setting: Setting, a: &[i32], b: &[i32], output: &mut [u8]) -> Answer {
    library::write_ticket(setting, a, b, output)
}

/// Writes the one bias ticket for A (ℓ by m), B (m by n) and a bias (ℓ by n), all
/// row by row, whose claims are true: each quotient is the floor of its sum plus
/// bias plus o over α, each remainder what is left. Both checks of bias tickets
/// accept it.
///
/// When it is written, the answer's number is 0, its place the length of the
/// ticket in bytes, 8(ℓm + mn + 3ℓn), and its products are ℓmn. The output past
/// that length is unchanged. Every other answer is a refusal, by the tests 1, 2,
/// 17, 19, 3, 13, 14, 18 and 15 in this order, and leaves the whole output
/// unchanged. The number of vectors in the setting is tested with the rest of it,
/// and not used.
///
/// ```
/// use dikdumar::{write_bias_ticket, BiasSetting};
///
/// // ℓ = m = n = 2, s = 1, α = 10, T = 8, v = 5, o = 0, W = 23.
/// let setting = BiasSetting::from([2, 2, 2, 1, 10, 8, 5, 0, 23]);
/// let (a, b) = ([3, -2, 5, 4], [-1, 6, 7, -8]);
/// let mut output = [0xFF; 168];
/// let answer = write_bias_ticket(setting, &a, &b, &[-4, 23, -23, 5], &mut output);
/// assert_eq!(answer.numbers(), [0, 160, 0, 8]);
///
/// // The first sum is -17. With the bias -4 it is -21, which is 10 · (-3) + 9.
/// let (ticket, rest) = output.split_at(answer.place as usize);
/// assert_eq!(ticket[64..72], [5, 0, 0, 0, 0xFB, 0xFF, 0xFF, 0x7F]);
/// assert_eq!(ticket[96..104], [3, 0, 0, 0, 0xFC, 0xFF, 0xFF, 0x7F]);
/// assert_eq!(ticket[128..136], [4, 0, 0, 0, 9, 0, 0, 0]);
/// assert_eq!(rest, [0xFF; 8]);
///
/// // A number of the bias beyond W is refused, by its index, and nothing is written.
/// let mut output = [0xFF; 168];
/// let answer = write_bias_ticket(setting, &a, &b, &[-4, 24, -23, 5], &mut output);
/// assert_eq!(answer.numbers(), [18, 9, 0, 0]);
/// assert_eq!(output, [0xFF; 168]);
/// ```
pub fn write_bias_ticket(setting: BiasSetting, a: &[i32], b: &[i32], bias: &[i32], output: &mut [u8]) -> Answer {
    library::write_bias_ticket(setting, a, b, bias, output)
}

#[cfg(test)]
mod tests {
    use super::*;
    use crate::{bias_challenge_check, bias_full_check, challenge_check, full_check, residue};

    const A: [i32; 4] = [3, -2, 5, 4];
    const B: [i32; 4] = [-1, 6, 7, -8];

    /// ℓ = m = n = 2, s = 1, α = 10, T = 8, v = 5, o = 0.
    fn k() -> Setting {
        Setting::from([2, 2, 2, 1, 10, 8, 5, 0])
    }

    /// The four numbers, for an output that the call must leave as it is.
    fn unchanged(length: usize, write: impl FnOnce(&mut [u8]) -> Answer) -> [u32; 4] {
        let mut output = vec![0xA5; length];
        let answer = write(&mut output);
        assert_ne!(answer.number, 0);
        assert!(output.iter().all(|&byte| byte == 0xA5));
        answer.numbers()
    }

    fn refusal(setting: Setting, a: &[i32], b: &[i32], length: usize) -> [u32; 4] {
        unchanged(length, |output| write_ticket(setting, a, b, output))
    }

    #[test]
    fn a_written_ticket_is_accepted_by_both_checks() {
        let mut output = [0xA5; 130];
        assert_eq!(write_ticket(k(), &A, &B, &mut output).numbers(), [0, 128, 0, 8]);
        let (ticket, past) = output.split_at(128);
        assert_eq!(past, [0xA5; 2]);
        // The entry -2, and the quotient -2 and the remainder 3 of -17 over 10.
        assert_eq!(ticket[8..16], [0x01, 0x00, 0x00, 0x01, 0xFD, 0xFF, 0xFF, 0x7F]);
        assert_eq!(ticket[64..72], [0x03, 0x00, 0x00, 0x00, 0xFD, 0xFF, 0xFF, 0x7F]);
        assert_eq!(ticket[96..104], [0x04, 0x00, 0x00, 0x00, 0x03, 0x00, 0x00, 0x00]);
        assert_eq!(full_check(k(), ticket).numbers(), [0, 0, 0, 8]);
        assert_eq!(challenge_check(k(), ticket, &[1, 2]).numbers(), [0, 0, 0, 12]);
    }

    /// The four quotients and remainders of a ticket, behind its operands.
    fn claims(ticket: &[u8]) -> Vec<i32> {
        let values = ticket[ticket.len() - 64..].chunks(8).map(|record| &record[4..]);
        values
            .map(|value| residue::to_signed(u32::from_le_bytes(value.try_into().expect("4 bytes"))))
            .collect()
    }

    #[test]
    fn sums_are_rounded_to_the_nearest_and_halves_up() {
        let nearest = Setting { rounding: 5, ..k() };
        let mut ticket = [0xA5; 128];
        // -17, 34, 23 and -2.
        assert_eq!(write_ticket(nearest, &A, &B, &mut ticket).numbers(), [0, 128, 0, 8]);
        assert_eq!(claims(&ticket), [-2, 3, 2, 0, 8, 9, 8, 3]);
        // 25, -25, 15 and -15 lie halfway.
        assert_eq!(
            write_ticket(nearest, &[5, 0, 3, 0], &[5, -5, 0, 0], &mut ticket).number,
            0
        );
        assert_eq!(claims(&ticket), [3, -2, 2, -1, 0, 0, 0, 0]);
        assert_eq!(full_check(nearest, &ticket).numbers(), [0, 0, 0, 8]);
        assert_eq!(challenge_check(nearest, &ticket, &[1, 2]).numbers(), [0, 0, 0, 12]);
    }

    #[test]
    fn a_refusal_writes_nothing() {
        let no_rows = Setting { rows: 0, ..k() };
        assert_eq!(refusal(no_rows, &A, &B, 128), [1, 0, 0, 0]);
        let rounding = Setting { rounding: 10, ..k() };
        assert_eq!(refusal(rounding, &A, &B, 128), [19, 0, 0, 0]);
        assert_eq!(refusal(k(), &A[..3], &B, 128), [13, 0, 0, 0]);
        assert_eq!(refusal(k(), &A, &[9, 6, 7, -8], 128), [14, 4, 0, 0]);
        assert_eq!(refusal(k(), &A, &[-1, 6, 7, i32::MIN], 128), [14, 7, 0, 0]);
        assert_eq!(refusal(k(), &A, &B, 127), [15, 0, 0, 0]);
    }

    #[test]
    fn nothing_is_needed_behind_an_empty_slice() {
        assert_eq!(refusal(k(), &[], &[], 0), [13, 0, 0, 0]);
        assert_eq!(refusal(k(), &A, &[], 0), [13, 1, 0, 0]);
        assert_eq!(refusal(k(), &A, &B, 0), [15, 0, 0, 0]);
    }

    const BIAS: [i32; 4] = [-4, 23, -23, 5];

    /// K with W = 23.
    fn k_with_bias() -> BiasSetting {
        BiasSetting::from([2, 2, 2, 1, 10, 8, 5, 0, 23])
    }

    fn bias_refusal(setting: BiasSetting, [a, b, bias]: [&[i32]; 3], length: usize) -> [u32; 4] {
        unchanged(length, |output| write_bias_ticket(setting, a, b, bias, output))
    }

    #[test]
    fn a_written_bias_ticket_is_accepted_by_both_checks() {
        let mut output = [0xA5; 162];
        let answer = write_bias_ticket(k_with_bias(), &A, &B, &BIAS, &mut output);
        assert_eq!(answer.numbers(), [0, 160, 0, 8]);
        let (ticket, past) = output.split_at(160);
        assert_eq!(past, [0xA5; 2]);
        // The entry -2, the bias -23, and the quotient 0 and the remainder 3 of -2 + 5 over 10.
        assert_eq!(ticket[8..16], [0x01, 0x00, 0x00, 0x01, 0xFD, 0xFF, 0xFF, 0x7F]);
        assert_eq!(ticket[80..88], [0x05, 0x00, 0x01, 0x00, 0xE8, 0xFF, 0xFF, 0x7F]);
        assert_eq!(ticket[120..128], [0x03, 0x00, 0x01, 0x01, 0x00, 0x00, 0x00, 0x00]);
        assert_eq!(ticket[152..160], [0x04, 0x00, 0x01, 0x01, 0x03, 0x00, 0x00, 0x00]);
        assert_eq!(bias_full_check(k_with_bias(), ticket).numbers(), [0, 0, 0, 8]);
        assert_eq!(
            bias_challenge_check(k_with_bias(), ticket, &[1, 2]).numbers(),
            [0, 0, 0, 16]
        );
    }

    #[test]
    fn sums_with_a_bias_are_rounded_to_the_nearest() {
        let nearest = BiasSetting::from([2, 2, 2, 1, 10, 8, 5, 5, 18]);
        let mut ticket = [0xA5; 160];
        // -21, 52, 5 and 3.
        let answer = write_bias_ticket(nearest, &A, &B, &[-4, 18, -18, 5], &mut ticket);
        assert_eq!(answer.numbers(), [0, 160, 0, 8]);
        assert_eq!(claims(&ticket), [-2, 5, 1, 0, 4, 7, 0, 8]);
        assert_eq!(bias_full_check(nearest, &ticket).numbers(), [0, 0, 0, 8]);
        assert_eq!(bias_challenge_check(nearest, &ticket, &[1, 2]).numbers(), [0, 0, 0, 16]);
    }

    #[test]
    fn a_refusal_of_a_bias_ticket_writes_nothing() {
        let with_bound = |bias_bound| BiasSetting {
            bias_bound,
            ..k_with_bias()
        };
        assert_eq!(bias_refusal(with_bound(24), [&A, &B, &BIAS], 160), [3, 0, 0, 0]);
        assert_eq!(
            bias_refusal(with_bound((1 << 30) + 1), [&A, &B, &BIAS], 160),
            [17, 0, 0, 0]
        );
        let rounding = BiasSetting::from([2, 2, 2, 1, 10, 8, 5, 10, 23]);
        assert_eq!(bias_refusal(rounding, [&A, &B, &BIAS], 160), [19, 0, 0, 0]);
        let of = |operands| bias_refusal(k_with_bias(), operands, 160);
        assert_eq!(of([&A[..3], &B, &BIAS]), [13, 0, 0, 0]);
        assert_eq!(of([&A, &B, &BIAS[..3]]), [13, 2, 0, 0]);
        assert_eq!(of([&A, &[9, 6, 7, -8], &[24; 4]]), [14, 4, 0, 0]);
        assert_eq!(of([&A, &B, &[-24, 23, -23, 24]]), [18, 8, 0, 0]);
        assert_eq!(of([&A, &B, &[-4, 23, -23, i32::MIN]]), [18, 11, 0, 0]);
        assert_eq!(bias_refusal(k_with_bias(), [&A, &B, &BIAS], 159), [15, 0, 0, 0]);
    }

    #[test]
    fn nothing_is_needed_behind_an_empty_slice_for_a_bias_ticket() {
        let of = |operands| bias_refusal(k_with_bias(), operands, 0);
        assert_eq!(of([&[], &[], &[]]), [13, 0, 0, 0]);
        assert_eq!(of([&A, &[], &[]]), [13, 1, 0, 0]);
        assert_eq!(of([&A, &B, &[]]), [13, 2, 0, 0]);
        assert_eq!(of([&A, &B, &BIAS]), [15, 0, 0, 0]);
    }
}
