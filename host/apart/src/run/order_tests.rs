//! The refusals of begin, step and addition: every set of faults at once, of which
//! the first in the order decides, and the state that is handed back.

use super::tests::{filled, k_with, marked, refusal, state, P32};
use super::*;
use crate::examples::{K, TICKET};

/// What is lent and handed in.
struct Input {
    run: Run,
    ticket: Vec<u8>,
    vector: Vec<u32>,
}

/// A fault that can stand beside every other, and the refusal that it is when no
/// earlier one is there.
type Fault = (fn(&mut Input), u32, u32);

fn set_value(ticket: &mut [u8], record: usize, value: u32) {
    ticket[8 * record + 4..8 * record + 8].copy_from_slice(&value.to_le_bytes());
}

/// "1, 2, 3", with 19 "after 2".
const OF_SETTING: [Fault; 4] = [
    (|input| input.run.setting.rows = 33, 1, 0),
    (|input| input.run.setting.bound = 0, 2, 0),
    (|input| input.run.setting.rounding = 10, 19, 0),
    (|input| input.run.setting.width = 4, 3, 0),
];

/// "4; then record after record, each by 5, 6 and its own range".
const OF_TICKET: [Fault; 6] = [
    (|input| input.ticket.truncate(127), 4, 0),
    (|input| input.ticket[0] = 2, 5, 0),
    (|input| set_value(&mut input.ticket, 1, P32), 6, 1),
    (|input| set_value(&mut input.ticket, 2, 9), 7, 2),
    (|input| set_value(&mut input.ticket, 8, 16), 8, 8),
    (|input| set_value(&mut input.ticket, 12, 10), 9, 12),
];

/// "then 10, 11", and 21 "once every list number has passed 11".
const OF_LIST: [Fault; 3] = [
    (|input| input.run.list_length += 1, 10, 0),
    (|input| input.run.list[1] = P32, 11, 1),
    (|input| input.run.list[2..4].copy_from_slice(&[0, 0]), 21, 1),
];

/// "after the tests of 10, 11 and 21 on the vector, places counted in the
/// lengthened list": behind two vectors of two.
const OF_VECTOR: [Fault; 4] = [
    (|input| input.vector.push(1), 10, 0),
    (|input| input.vector[1] = P32, 11, 5),
    (|input| input.vector.fill(0), 21, 2),
    (|input| input.run.caught = 1, 22, 0),
];

/// For every set of these faults, the input with them and its refusal, if there
/// is any. The faults are applied from the last to the first.
fn for_every_set(faults: &[Fault], test: impl Fn(&Input, Option<(u32, u32)>)) {
    for chosen in 0_u32..1 << faults.len() {
        let mut input = Input {
            run: filled(),
            ticket: TICKET.to_vec(),
            vector: vec![3, 4],
        };
        let mut first = None;
        for (index, (apply, number, place)) in faults.iter().enumerate().rev() {
            if chosen >> index & 1 == 1 {
                apply(&mut input);
                first = Some((*number, *place));
            }
        }
        test(&input, first);
    }
}

#[test]
fn every_set_of_faults_in_begin() {
    let faults = [&OF_SETTING[..], &OF_TICKET, &OF_LIST].concat();
    for_every_set(&faults, |input, first| {
        let list = &input.run.list[..input.run.list_length as usize];
        let given = run_begin(&input.run.setting, &input.ticket, list);
        let expected = match first {
            // "begin's one of zeros"
            Some((number, place)) => refusal(zeros(), number, place),
            None => {
                let begun = state(k_with(2), &[1, 2, 0, 5], [0, 0], &[]);
                marked(Mark::UnderWay, begun, [0, 0, 0, 0])
            }
        };
        assert_eq!(given, expected);
    });
}

/// States that a step may meet: under way in row 1 and in row 0, caught,
/// complete.
fn at_every_mark(run: Run) -> [Run; 6] {
    [
        run,
        Run { row: 0, ..run },
        Run { caught: 1, ..run },
        Run { vector: 2, ..run },
        Run { row: 2, ..run },
        Run {
            vector: u32::MAX,
            row: u32::MAX,
            caught: u32::MAX,
            ..run
        },
    ]
}

#[test]
fn every_set_of_faults_in_a_step() {
    let faults = [&OF_SETTING[..], &OF_TICKET, &OF_LIST].concat();
    for_every_set(&faults, |input, first| {
        for run in at_every_mark(input.run) {
            let given = run_step(&run, &input.ticket);
            match first {
                // "a refusal gives the former state", finished ones too.
                Some((number, place)) => assert_eq!(given, refusal(run, number, place)),
                None => assert_ne!(given.mark, Mark::Refused),
            }
        }
    });
}

#[test]
fn every_set_of_faults_in_an_addition() {
    let faults = [&OF_SETTING[..], &OF_LIST, &OF_VECTOR].concat();
    for_every_set(&faults, |input, first| {
        let given = run_add(&input.run, &input.vector);
        match first {
            Some((number, place)) => assert_eq!(given, refusal(input.run, number, place)),
            None => assert_eq!((given.mark, given.answer.products), (Mark::UnderWay, 8)),
        }
    });
}

#[test]
fn the_table_of_numbers_in_begin() {
    let refused = |setting: &Setting, ticket: &[u8], list: &[u32], number, place| {
        assert_eq!(run_begin(setting, ticket, list), refusal(zeros(), number, place));
    };
    refused(&Setting { columns: 33, ..K }, &TICKET, &[1, 2], 1, 0);
    refused(&Setting { scale: 1, ..K }, &TICKET, &[1, 2], 2, 0);
    refused(&Setting { rounding: 10, ..K }, &TICKET, &[1, 2], 19, 0);
    refused(&Setting { width: 4, ..K }, &TICKET, &[1, 2], 3, 0);
    refused(&K, &[], &[1, 2], 4, 0);
    refused(&K, &TICKET, &[1, 2, 3], 10, 0);
    refused(&K, &TICKET, &[1, P32], 11, 1);
    refused(&K, &TICKET, &[0, 0], 21, 0);
    // Lists that no state could hold.
    for length in [256, 257, 258, 512, 514, 65_538] {
        refused(&K, &TICKET, &vec![1; length], 10, 0);
    }
    refused(&Setting::from([u32::MAX; 8]), &[], &[], 1, 0);
    refused(&Setting::from([0; 8]), &[], &[], 1, 0);
}

#[test]
fn a_state_of_zeros_or_of_the_greatest_numbers() {
    let greatest = Run {
        setting: Setting::from([u32::MAX; 8]),
        list: [u32::MAX; 256],
        list_length: u32::MAX,
        vector: u32::MAX,
        row: u32::MAX,
        u: [u32::MAX; 64],
        caught: u32::MAX,
    };
    for run in [zeros(), greatest] {
        for ticket in [&[][..], &TICKET] {
            assert_eq!(run_step(&run, ticket), refusal(run, 1, 0));
        }
        for vector in [&[][..], &[1, 2], &[u32::MAX; 300]] {
            assert_eq!(run_add(&run, vector), refusal(run, 1, 0));
        }
        // With K's numbers in the setting the list is next.
        let run = Run { setting: K, ..run };
        assert_eq!(run_step(&run, &[]), refusal(run, 4, 0));
        assert_eq!(run_step(&run, &TICKET), refusal(run, 10, 0));
        assert_eq!(run_add(&run, &[1, 2]), refusal(run, 10, 0));
        let run = Run { list_length: 2, ..run };
        let number = if run.list[0] == 0 { 21 } else { 11 };
        assert_eq!(run_step(&run, &TICKET), refusal(run, number, 0));
        assert_eq!(run_add(&run, &[1, 2]), refusal(run, number, 0));
    }
}
