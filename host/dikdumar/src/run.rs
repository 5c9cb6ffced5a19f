//! The challenge check of a plain ticket one row at a step, with vectors added
//! meanwhile.
//!
//! [`run_begin`] gives a state, [`run_step`] makes its next row and [`run_add`] adds
//! a vector at its end; each hands back the state for the next call. If each state
//! is handed in as it last came back and the same ticket is lent throughout, the
//! answer that ends the run is that of [`challenge_check`](crate::challenge_check)
//! with the final list. Of a run in which another ticket was lent in between, no
//! more is promised than what each step does by itself.
//!
//! Every call takes every state, whoever made it, every ticket and every list.
//!
//! ```
//! use dikdumar::{challenge_check, run_add, run_begin, run_step, write_ticket, Mark, Setting};
//!
//! // ℓ = m = n = 2, s = 1, α = 10, T = 8, v = 5, o = 0.
//! let setting = Setting::from([2, 2, 2, 1, 10, 8, 5, 0]);
//! let mut ticket = [0; 128];
//! write_ticket(setting, &[3, -2, 5, 4], &[-1, 6, 7, -8], &mut ticket);
//!
//! // One vector, a row of it, and then a second vector.
//! let mut told = run_begin(setting, &ticket, &[1, 2]);
//! told = run_step(told.run, &ticket);
//! told = run_add(told.run, &[3, 5]);
//! while told.mark == Mark::UnderWay {
//!     told = run_step(told.run, &ticket);
//! }
//! assert_eq!((told.mark, told.answer.numbers()), (Mark::Complete, [0, 0, 0, 24]));
//!
//! let of_two = Setting { vectors: 2, ..setting };
//! assert_eq!(challenge_check(of_two, &ticket, &[1, 2, 3, 5]), told.answer);
//! ```

use crate::{library, Answer, Setting};

/// The state of a run. Any numbers may stand in it.
#[repr(C)]
#[derive(Clone, Copy, Debug, PartialEq, Eq)]
pub struct Run {
    /// The setting. Its s counts the vectors of the list, and an addition raises it.
    pub setting: Setting,
    /// The vectors one after another. Past `list_length` it is not read.
    pub list: [u32; 256],
    /// How many numbers of it are the list. A step and an addition refuse any other
    /// than s·n as 10, so one above 256 too.
    pub list_length: u32,
    /// The next vector, t, from 0.
    pub vector: u32,
    /// The next row, from 0.
    pub row: u32,
    /// B times vector t, from that vector's first row on. A step takes each number
    /// modulo p, and reads none past m.
    pub u: [u32; 64],
    /// 0 where the run is not caught. Any other number says that it is, in vector t
    /// and row.
    pub caught: u32,
}

/// What has become of a run.
#[repr(u32)]
#[derive(Clone, Copy, Debug, PartialEq, Eq)]
pub enum Mark {
    /// There is a next row.
    UnderWay = 0,
    /// The two sides of a row differ.
    Caught = 1,
    /// No row is left.
    Complete = 2,
    /// A test fails, and the answer has its number.
    Refused = 3,
}

impl Mark {
    /// The mark of this number. One above 3, which the library does not give, counts
    /// as refused.
    pub(crate) fn of_number(number: u32) -> Mark {
        match number {
            0 => Mark::UnderWay,
            1 => Mark::Caught,
            2 => Mark::Complete,
            _ => Mark::Refused,
        }
    }
}

/// The state handed back, the mark, and an answer that the mark says how to read:
///
/// | mark | number | place | row | products |
/// |---|---|---|---|---|
/// | under way | 0 | next t | next row | t(mn + ℓn + ℓm) + row(n + m), and mn more where row is not 0 |
/// | caught | 12 | t | row | t(mn + ℓn + ℓm) + mn + (row + 1)(n + m) |
/// | complete | 0 | 0 | 0 | s(mn + ℓn + ℓm) |
/// | refused | that of the test | its place | 0 | 0 |
///
/// Number 0 under way accepts nothing yet. The numbers are worked out from t and
/// row, whoever made the state. One whose t is s or more, or whose row is ℓ or
/// more, is complete, also where it says that it is caught.
#[repr(C)]
#[derive(Clone, Copy, Debug, PartialEq, Eq)]
pub struct RunAnswer {
    /// The state, for the next call.
    pub run: Run,
    /// What has become of the run.
    pub mark: Mark,
    /// Its four numbers, by the mark.
    pub answer: Answer,
}

/// Begins a run with the vectors of a list, and makes no row.
///
/// The tests are those of [`challenge_check`](crate::challenge_check) before 12, in
/// its order. The state handed back holds the setting, the list with zeros after it
/// and its length, and 0 in every other number; after a refusal it is zeros alone.
///
/// ```
/// use dikdumar::{run_begin, write_ticket, Mark, Setting};
///
/// // One row, one column: 7 · 9 = 63 = 10 · 6 + 3. One vector of one number.
/// let setting = Setting::from([1, 1, 1, 1, 10, 9, 5, 0]);
/// let mut ticket = [0; 32];
/// write_ticket(setting, &[7], &[9], &mut ticket);
///
/// let begun = run_begin(setting, &ticket, &[1_234_567]);
/// assert_eq!((begun.mark, begun.answer.numbers()), (Mark::UnderWay, [0, 0, 0, 0]));
/// assert_eq!((begun.run.setting, begun.run.list_length), (setting, 1));
/// assert_eq!(begun.run.list[..2], [1_234_567, 0]);
///
/// // A vector of zeros is refused.
/// let refused = run_begin(setting, &ticket, &[0]);
/// assert_eq!((refused.mark, refused.answer.numbers()), (Mark::Refused, [21, 0, 0, 0]));
/// assert_eq!((refused.run.setting.rows, refused.run.list_length), (0, 0));
/// ```
pub fn run_begin(setting: Setting, ticket: &[u8], list: &[u32]) -> RunAnswer {
    library::run_begin(setting, ticket, list)
}

/// Makes the next row of a run.
///
/// The tests are those of [`challenge_check`](crate::challenge_check) before 12, in
/// its order, on the ticket and on the state's setting and list, at every step. A
/// refusal hands the state back as it came, and so does a run that is caught or
/// complete, with its answer again.
///
/// In row 0, u is worked out from the ticket that is lent, and the first m numbers of
/// the state's u become it; later rows take the state's u. Where the two sides differ,
/// `caught` becomes 1. Where they are equal, `row` goes up by one, and after the last
/// row it becomes 0 and `vector` goes up by one. Nothing else changes.
///
/// ```
/// use dikdumar::{run_begin, run_step, write_ticket, Mark, Setting};
///
/// // ℓ = m = n = 2, s = 1, α = 10, T = 8, v = 5, o = 0.
/// let setting = Setting::from([2, 2, 2, 1, 10, 8, 5, 0]);
/// let mut ticket = [0; 128];
/// write_ticket(setting, &[3, -2, 5, 4], &[-1, 6, 7, -8], &mut ticket);
///
/// let begun = run_begin(setting, &ticket, &[1, 2]);
/// let first = run_step(begun.run, &ticket);
/// assert_eq!((first.mark, first.answer.numbers()), (Mark::UnderWay, [0, 0, 1, 8]));
/// assert_eq!(first.run.u[..2], [11, 2_147_483_647 - 9]);
///
/// let last = run_step(first.run, &ticket);
/// assert_eq!((last.mark, last.answer.numbers()), (Mark::Complete, [0, 0, 0, 12]));
/// assert_eq!(run_step(last.run, &ticket), last);
///
/// // With another ticket, whose last quotient is -2 and not -1, row 1 is caught.
/// ticket[8 * 11 + 4] -= 1;
/// let caught = run_step(first.run, &ticket);
/// assert_eq!((caught.mark, caught.answer.numbers()), (Mark::Caught, [12, 0, 1, 12]));
/// ```
pub fn run_step(run: Run, ticket: &[u8]) -> RunAnswer {
    library::run_step(run, ticket)
}

/// Adds one vector at the end of a run's list, and makes no row.
///
/// The tests are 1, 2, 19 and 3 on the state's setting, 10, 11 and 21 on its list, and
/// the same three on the vector, which is to have n numbers and whose places are
/// counted on in the list; then 22, where the run is caught or complete or holds eight
/// vectors. A refusal hands the state back as it came. Else the vector stands after
/// the list, `list_length` goes up by n and s by one, and nothing else changes.
///
/// ```
/// use dikdumar::{run_add, run_begin, run_step, write_ticket, Mark, Setting};
///
/// // One row, one column: 7 · 9 = 63 = 10 · 6 + 3. One vector of one number.
/// let setting = Setting::from([1, 1, 1, 1, 10, 9, 5, 0]);
/// let mut ticket = [0; 32];
/// write_ticket(setting, &[7], &[9], &mut ticket);
///
/// let begun = run_begin(setting, &ticket, &[1_234_567]);
/// let longer = run_add(begun.run, &[89]);
/// assert_eq!((longer.mark, longer.answer.numbers()), (Mark::UnderWay, [0, 0, 0, 0]));
/// assert_eq!((longer.run.setting.vectors, longer.run.list_length), (2, 2));
///
/// // Zeros are refused by their place in the longer list, and the state is as it was.
/// let refused = run_add(longer.run, &[0]);
/// assert_eq!((refused.mark, refused.answer.numbers()), (Mark::Refused, [21, 2, 0, 0]));
/// assert_eq!(refused.run, longer.run);
///
/// // Nothing is added to a run that is complete.
/// let complete = run_step(run_step(longer.run, &ticket).run, &ticket);
/// assert_eq!(complete.mark, Mark::Complete);
/// assert_eq!(run_add(complete.run, &[5]).answer.numbers(), [22, 0, 0, 0]);
/// ```
pub fn run_add(run: Run, vector: &[u32]) -> RunAnswer {
    library::run_add(run, vector)
}

#[cfg(test)]
mod tests {
    use super::*;
    use crate::{challenge_check, write_ticket};

    const P: u32 = 2_147_483_647;

    /// ℓ = m = n = 2, s = 1, α = 10, T = 8, v = 5, o = 0.
    fn k() -> Setting {
        Setting::from([2, 2, 2, 1, 10, 8, 5, 0])
    }

    fn true_ticket() -> [u8; 128] {
        let mut ticket = [0; 128];
        write_ticket(k(), &[3, -2, 5, 4], &[-1, 6, 7, -8], &mut ticket);
        ticket
    }

    /// The first quotient is -1 and not -2, in record 8.
    fn false_ticket() -> [u8; 128] {
        let mut ticket = true_ticket();
        ticket[8 * 8 + 4] += 1;
        ticket
    }

    fn told(told: &RunAnswer) -> (Mark, [u32; 4]) {
        (told.mark, told.answer.numbers())
    }

    #[test]
    fn the_marks_of_all_numbers() {
        let marks = [Mark::UnderWay, Mark::Caught, Mark::Complete, Mark::Refused];
        for (number, mark) in (0..).zip(marks) {
            assert_eq!(Mark::of_number(number), mark);
            assert_eq!(mark as u32, number);
        }
        for number in [4, 5, 1 << 31, u32::MAX] {
            assert_eq!(Mark::of_number(number), Mark::Refused);
        }
    }

    #[test]
    fn a_run_is_the_check_of_its_final_list() {
        let ticket = true_ticket();
        let begun = run_begin(k(), &ticket, &[1, 2]);
        assert_eq!(told(&begun), (Mark::UnderWay, [0, 0, 0, 0]));
        let first = run_step(begun.run, &ticket);
        assert_eq!(told(&first), (Mark::UnderWay, [0, 0, 1, 8]));
        let longer = run_add(first.run, &[3, 5]);
        assert_eq!(told(&longer), (Mark::UnderWay, [0, 0, 1, 8]));
        let second = run_step(longer.run, &ticket);
        assert_eq!(told(&second), (Mark::UnderWay, [0, 1, 0, 12]));
        let third = run_step(second.run, &ticket);
        assert_eq!(told(&third), (Mark::UnderWay, [0, 1, 1, 20]));
        let last = run_step(third.run, &ticket);
        assert_eq!(told(&last), (Mark::Complete, [0, 0, 0, 24]));
        let of_two = Setting { vectors: 2, ..k() };
        assert_eq!(challenge_check(of_two, &ticket, &[1, 2, 3, 5]), last.answer);
    }

    #[test]
    fn a_false_ticket_is_caught_by_the_vector_added() {
        let ticket = false_ticket();
        let begun = run_begin(k(), &ticket, &[0, 5]);
        let longer = run_add(begun.run, &[1, 5]);
        let before = (0..2).fold(longer, |told, _| run_step(told.run, &ticket));
        assert_eq!(told(&before), (Mark::UnderWay, [0, 1, 0, 12]));
        let caught = run_step(before.run, &ticket);
        assert_eq!(told(&caught), (Mark::Caught, [12, 1, 0, 20]));
        assert_eq!((caught.run.vector, caught.run.row, caught.run.caught), (1, 0, 1));
        assert_eq!(run_step(caught.run, &ticket), caught);
        let refused = run_add(caught.run, &[1, 1]);
        assert_eq!(
            (told(&refused), refused.run),
            ((Mark::Refused, [22, 0, 0, 0]), caught.run)
        );
    }

    /// Every field finds its place: the state comes back number for number.
    #[test]
    fn a_refusal_hands_back_every_number() {
        let mut run = Run {
            setting: Setting::from([1, 2, 3, 4, 5, 6, 7, 8]),
            list: [0; 256],
            list_length: u32::MAX,
            vector: 10,
            row: 11,
            u: [0; 64],
            caught: 12,
        };
        for (number, index) in run.list.iter_mut().chain(&mut run.u).zip(0..) {
            *number = u32::MAX - index;
        }
        for answer in [run_step(run, &[]), run_add(run, &[])] {
            assert_eq!((told(&answer), answer.run), ((Mark::Refused, [19, 0, 0, 0]), run));
        }
    }

    /// A state may be made by hand, with numbers of p and more in its u.
    #[test]
    fn the_numbers_of_u_are_taken_modulo_p() {
        let ticket = true_ticket();
        let mut run = run_begin(k(), &ticket, &[1, 2]).run;
        run.row = 1;
        run.u[..2].copy_from_slice(&[P + 11, 2 * P - 9]);
        let last = run_step(run, &ticket);
        assert_eq!(told(&last), (Mark::Complete, [0, 0, 0, 12]));
        assert_eq!(last.run.u[..2], [P + 11, 2 * P - 9]);
        run.u[0] += 1;
        assert_eq!(told(&run_step(run, &ticket)), (Mark::Caught, [12, 0, 1, 12]));
    }

    #[test]
    fn nothing_is_needed_behind_an_empty_slice() {
        let ticket = true_ticket();
        assert_eq!(told(&run_begin(k(), &[], &[])), (Mark::Refused, [4, 0, 0, 0]));
        assert_eq!(told(&run_begin(k(), &ticket, &[])), (Mark::Refused, [10, 0, 0, 0]));
        let run = run_begin(k(), &ticket, &[1, 2]).run;
        assert_eq!(told(&run_step(run, &[])), (Mark::Refused, [4, 0, 0, 0]));
        assert_eq!(told(&run_add(run, &[])), (Mark::Refused, [10, 0, 0, 0]));
    }
}
