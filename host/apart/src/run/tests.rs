//! The marked examples by steps, then what a step takes from the state and what
//! from the ticket lent. Here too is what the other tests of runs share.

use super::*;
use crate::examples::{with_claims, A, B, K, K_WITH_ROUNDING, ROUNDED_TICKET, TICKET};
use crate::make::{residue, true_ticket, Parts};

pub(super) const P32: u32 = 2_147_483_647;

/// K with s vectors.
pub(super) fn k_with(vectors: u32) -> Setting {
    Setting { vectors, ..K }
}

/// The state at t and row with these numbers first in its list and in its u, and
/// zeros after them.
pub(super) fn state(setting: Setting, list: &[u32], [vector, row]: [u32; 2], u: &[u32]) -> Run {
    let mut run = Run {
        setting,
        list: [0; 256],
        list_length: list.len() as u32,
        vector,
        row,
        u: [0; 64],
        caught: 0,
    };
    run.list[..list.len()].copy_from_slice(list);
    run.u[..u.len()].copy_from_slice(u);
    run
}

pub(super) fn marked(mark: Mark, run: Run, numbers: [u32; 4]) -> RunAnswer {
    RunAnswer {
        run,
        mark,
        answer: Answer::from(numbers),
    }
}

/// A refusal that hands back this state.
pub(super) fn refusal(run: Run, number: u32, place: u32) -> RunAnswer {
    marked(Mark::Refused, run, [number, place, 0, 0])
}

/// The ticket of d, with 1 more in the first quotient.
pub(super) fn ticket_of_d() -> Vec<u8> {
    with_claims([-1, 3, 2, -1], [3, 4, 3, 8])
}

/// A state with a number of its own in every place, where the setting is K's
/// with two vectors, (1, 2) and (0, 5), and row 1 of the first is the next. Its u
/// is that of c, with p more in both numbers.
pub(super) fn filled() -> Run {
    let mut run = state(k_with(2), &[], [0, 1], &[]);
    for (index, number) in run.list.iter_mut().enumerate() {
        *number = u32::MAX - index as u32;
    }
    for (index, number) in run.u.iter_mut().enumerate() {
        *number = P32 + 1000 + index as u32;
    }
    run.list[..4].copy_from_slice(&[1, 2, 0, 5]);
    run.list_length = 4;
    run.u[..2].copy_from_slice(&[P32 + 11, P32 + P32 - 9]);
    run
}

/// The answers to a ticket lent again and again until the run is finished, begin's
/// first.
pub(super) fn answers_to(setting: &Setting, ticket: &[u8], list: &[u32]) -> Vec<RunAnswer> {
    let mut answers = vec![run_begin(setting, ticket, list)];
    while let Some(last) = answers.last().filter(|last| last.mark == Mark::UnderWay) {
        answers.push(run_step(&last.run, ticket));
    }
    answers
}

/// Their marks and numbers.
fn told_of(setting: &Setting, ticket: &[u8], list: &[u32]) -> Vec<(Mark, [u32; 4])> {
    answers_to(setting, ticket, list)
        .iter()
        .map(|given| (given.mark, numbers(&given.answer)))
        .collect()
}

pub(super) fn numbers(answer: &Answer) -> [u32; 4] {
    [answer.number, answer.place, answer.row, answer.products]
}

const BEGUN: (Mark, [u32; 4]) = (Mark::UnderWay, [0, 0, 0, 0]);
const HALF_WAY: (Mark, [u32; 4]) = (Mark::UnderWay, [0, 0, 1, 8]);
const COMPLETE: (Mark, [u32; 4]) = (Mark::Complete, [0, 0, 0, 12]);
const CAUGHT: (Mark, [u32; 4]) = (Mark::Caught, [12, 0, 0, 8]);

#[test]
fn example_c_with_its_states() {
    let begun = run_begin(&K, &TICKET, &[1, 2]);
    let expected = state(K, &[1, 2], [0, 0], &[]);
    assert_eq!(begun, marked(Mark::UnderWay, expected, [0, 0, 0, 0]));

    let first = run_step(&begun.run, &TICKET);
    let expected = state(K, &[1, 2], [0, 1], &[11, P32 - 9]);
    assert_eq!(first, marked(Mark::UnderWay, expected, [0, 0, 1, 8]));

    let second = run_step(&first.run, &TICKET);
    let expected = state(K, &[1, 2], [1, 0], &[11, P32 - 9]);
    assert_eq!(second, marked(Mark::Complete, expected, [0, 0, 0, 12]));

    assert_eq!(run_step(&second.run, &TICKET), second);
    // "A finished state gives its answer again", whatever ticket is lent.
    assert_eq!(run_step(&second.run, &ticket_of_d()), second);
}

#[test]
fn example_d() {
    // u = (30, -40)
    let answers = answers_to(&K, &ticket_of_d(), &[0, 5]);
    let expected = state(K, &[0, 5], [0, 1], &[30, P32 - 40]);
    assert_eq!(answers[1], marked(Mark::UnderWay, expected, [0, 0, 1, 8]));
    let expected = state(K, &[0, 5], [1, 0], &[30, P32 - 40]);
    assert_eq!(answers[2], marked(Mark::Complete, expected, [0, 0, 0, 12]));
    assert_eq!(answers.len(), 3);
}

#[test]
fn example_e_with_its_states() {
    let begun = run_begin(&K, &ticket_of_d(), &[1, 5]);
    let expected = state(K, &[1, 5], [0, 0], &[]);
    assert_eq!(begun, marked(Mark::UnderWay, expected, [0, 0, 0, 0]));

    // u = (29, -33), and it stands in the state that is caught.
    let caught = run_step(&begun.run, &ticket_of_d());
    let expected = Run {
        caught: 1,
        ..state(K, &[1, 5], [0, 0], &[29, P32 - 33])
    };
    assert_eq!(caught, marked(Mark::Caught, expected, [12, 0, 0, 8]));

    assert_eq!(run_step(&caught.run, &ticket_of_d()), caught);
    // It stays caught with the true ticket.
    assert_eq!(run_step(&caught.run, &TICKET), caught);
}

#[test]
fn example_f() {
    let ticket = with_claims([-1, 4, 2, -1], [3, 4, 3, 8]);
    assert_eq!(told_of(&K, &ticket, &[1, P32 - 1]), [BEGUN, HALF_WAY, COMPLETE]);
    assert_eq!(told_of(&K, &ticket, &[1, 1]), [BEGUN, CAUGHT]);
}

#[test]
fn example_h() {
    let ticket = with_claims([-3, 3, 2, -1], [13, 4, 3, 8]);
    assert_eq!(run_begin(&K, &ticket, &[1, 2]), refusal(zeros(), 9, 12));
    for run in [run_begin(&K, &TICKET, &[1, 2]).run, filled()] {
        assert_eq!(run_step(&run, &ticket), refusal(run, 9, 12));
    }
}

#[test]
fn example_i() {
    let setting = Setting { bound: 9, ..K };
    assert_eq!(run_begin(&setting, &TICKET, &[1, 2]), refusal(zeros(), 3, 0));
    let run = state(setting, &[1, 2], [0, 0], &[]);
    assert_eq!(run_step(&run, &TICKET), refusal(run, 3, 0));
    assert_eq!(run_add(&run, &[1, 2]), refusal(run, 3, 0));
    // Entry -8 passes, in A too.
    let ticket = true_ticket(&K, &[-8, -2, 5, 4], &B);
    assert_eq!(told_of(&K, &ticket, &[1, 2]), [BEGUN, HALF_WAY, COMPLETE]);
}

#[test]
fn example_j() {
    let ticket = |quotient| with_claims([quotient, 3, 2, -1], [3, 4, 3, 8]);
    for quotient in [-16, 15] {
        assert_eq!(told_of(&K, &ticket(quotient), &[1, 2]), [BEGUN, CAUGHT]);
    }
    assert_eq!(told_of(&K, &ticket(-17), &[1, 2]), [(Mark::Refused, [8, 8, 0, 0])]);
}

#[test]
fn caught_in_the_last_row_of_three_vectors() {
    let ticket = with_claims([-2, 3, 2, 0], [3, 4, 3, 8]);
    let expected = [
        BEGUN,
        HALF_WAY,
        (Mark::UnderWay, [0, 1, 0, 12]),
        (Mark::UnderWay, [0, 1, 1, 20]),
        (Mark::UnderWay, [0, 2, 0, 24]),
        (Mark::UnderWay, [0, 2, 1, 32]),
        (Mark::Caught, [12, 2, 1, 36]),
    ];
    assert_eq!(told_of(&k_with(3), &ticket, &[1, 0, 2, 0, 3, 4]), expected);
    let answers = answers_to(&k_with(3), &ticket, &[1, 0, 2, 0, 3, 4]);
    // u = (-3 + 24, 21 - 32)
    let expected = Run {
        caught: 1,
        ..state(k_with(3), &[1, 0, 2, 0, 3, 4], [2, 1], &[21, P32 - 11])
    };
    assert_eq!(answers[6].run, expected);
}

#[test]
fn with_a_rounding_number() {
    let steps = [BEGUN, HALF_WAY, COMPLETE];
    assert_eq!(told_of(&K_WITH_ROUNDING, &ROUNDED_TICKET, &[1, 2]), steps);
    assert_eq!(told_of(&K, &ROUNDED_TICKET, &[1, 2]), [BEGUN, CAUGHT]);
    assert_eq!(told_of(&K_WITH_ROUNDING, &TICKET, &[1, 2]), [BEGUN, CAUGHT]);
}

/// A ticket with the A and the claims of K's examples, and a B of zeros.
fn without_b() -> Vec<u8> {
    Parts {
        b: vec![0; 4],
        ..Parts::true_ones(&K, &A, &B)
    }
    .ticket(&K)
}

#[test]
fn u_comes_from_the_ticket_lent_at_row_0() {
    // With a u of zeros the ticket is caught.
    assert_eq!(told_of(&K, &without_b(), &[1, 2]), [BEGUN, CAUGHT]);
    // Lent at row 1 its B is not asked.
    let first = run_step(&run_begin(&K, &TICKET, &[1, 2]).run, &TICKET);
    let second = run_step(&first.run, &without_b());
    let expected = state(K, &[1, 2], [1, 0], &[11, P32 - 9]);
    assert_eq!(second, marked(Mark::Complete, expected, [0, 0, 0, 12]));
    // At row 0 of the next vector it is asked anew.
    let filled_next = Run {
        vector: 1,
        row: 0,
        ..filled()
    };
    let mut expected = Run {
        caught: 1,
        ..filled_next
    };
    expected.u[..2].copy_from_slice(&[0, 0]);
    let caught = run_step(&filled_next, &without_b());
    assert_eq!(caught, marked(Mark::Caught, expected, [12, 1, 0, 20]));
}

#[test]
fn claims_and_a_come_from_the_ticket_lent_at_their_row() {
    let first = run_step(&run_begin(&K, &TICKET, &[1, 2]).run, &TICKET);
    let expected = Run { caught: 1, ..first.run };
    // 1 more in the third quotient, then another row 1 of A.
    let of_claims = with_claims([-2, 3, 3, -1], [3, 4, 3, 8]);
    let mut of_a = TICKET;
    of_a[20..24].copy_from_slice(&residue(6).to_le_bytes());
    for ticket in [&of_claims[..], &of_a] {
        let second = run_step(&first.run, ticket);
        assert_eq!(second, marked(Mark::Caught, expected, [12, 0, 1, 12]));
    }
    // Row 0 is past: d's ticket is false there alone.
    assert_eq!(run_step(&first.run, &ticket_of_d()).mark, Mark::Complete);
}
