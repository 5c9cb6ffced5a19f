//! Additions: where the vector goes, the numbers after it, and 22 in each of its
//! causes.

use super::tests::{answers_to, filled, k_with, marked, refusal, state, ticket_of_d, P32};
use super::*;
use crate::examples::{K, K_WITH_ROUNDING, ROUNDED_TICKET, TICKET};
use crate::make::true_ticket;

#[test]
fn before_the_first_row() {
    let begun = run_begin(&K, &TICKET, &[1, 2]);
    let longer = run_add(&begun.run, &[0, 5]);
    let expected = state(k_with(2), &[1, 2, 0, 5], [0, 0], &[]);
    assert_eq!(longer, marked(Mark::UnderWay, expected, [0, 0, 0, 0]));
    // The same state as of a begin with both vectors.
    assert_eq!(longer, run_begin(&k_with(2), &TICKET, &[1, 2, 0, 5]));
}

#[test]
fn in_the_middle_of_a_vector() {
    let first = run_step(&run_begin(&K, &TICKET, &[1, 2]).run, &TICKET);
    let longer = run_add(&first.run, &[0, 5]);
    let expected = state(k_with(2), &[1, 2, 0, 5], [0, 1], &[11, P32 - 9]);
    assert_eq!(longer, marked(Mark::UnderWay, expected, [0, 0, 1, 8]));

    // The first vector's end is no longer the run's.
    let second = run_step(&longer.run, &TICKET);
    let expected = state(k_with(2), &[1, 2, 0, 5], [1, 0], &[11, P32 - 9]);
    assert_eq!(second, marked(Mark::UnderWay, expected, [0, 1, 0, 12]));
    let third = run_step(&second.run, &TICKET);
    let expected = state(k_with(2), &[1, 2, 0, 5], [1, 1], &[30, P32 - 40]);
    assert_eq!(third, marked(Mark::UnderWay, expected, [0, 1, 1, 20]));
    let fourth = run_step(&third.run, &TICKET);
    let expected = state(k_with(2), &[1, 2, 0, 5], [2, 0], &[30, P32 - 40]);
    assert_eq!(fourth, marked(Mark::Complete, expected, [0, 0, 0, 24]));
}

#[test]
fn an_addition_strengthens_the_check() {
    // (0, 5) does not catch the ticket of d, and (1, 5) does.
    let ticket = ticket_of_d();
    let answers = answers_to(&K, &ticket, &[0, 5]);
    assert_eq!(answers[2].mark, Mark::Complete);
    let longer = run_add(&answers[1].run, &[1, 5]);
    assert_eq!(longer.answer, Answer::from([0, 0, 1, 8]));
    let second = run_step(&longer.run, &ticket);
    assert_eq!(
        (second.mark, second.answer),
        (Mark::UnderWay, Answer::from([0, 1, 0, 12]))
    );
    let third = run_step(&second.run, &ticket);
    let expected = Run {
        caught: 1,
        ..state(k_with(2), &[0, 5, 1, 5], [1, 0], &[29, P32 - 33])
    };
    assert_eq!(third, marked(Mark::Caught, expected, [12, 1, 0, 20]));
    assert_eq!(run_add(&third.run, &[1, 2]), refusal(third.run, 22, 0));
}

#[test]
fn between_two_vectors_and_several_at_once() {
    let mut last = run_begin(&k_with(2), &TICKET, &[1, 2, 0, 5]);
    for _ in 0..2 {
        last = run_step(&last.run, &TICKET);
    }
    for vectors in 3..=8 {
        last = run_add(&last.run, &[vectors, 0]);
        assert_eq!((last.mark, last.answer), (Mark::UnderWay, Answer::from([0, 1, 0, 12])));
        assert_eq!((last.run.setting, last.run.list_length), (k_with(vectors), 2 * vectors));
    }
    let list = [1, 2, 0, 5, 3, 0, 4, 0, 5, 0, 6, 0, 7, 0, 8, 0];
    assert_eq!(last.run, state(k_with(8), &list, [1, 0], &[11, P32 - 9]));
    // "or holds eight vectors"
    assert_eq!(run_add(&last.run, &[9, 0]), refusal(last.run, 22, 0));
}

#[test]
fn nothing_else_of_a_state_changes() {
    let run = filled();
    let mut expected = run;
    expected.setting.vectors = 3;
    expected.list[4..6].copy_from_slice(&[P32 - 1, 0]);
    expected.list_length = 6;
    assert_eq!(
        run_add(&run, &[P32 - 1, 0]),
        marked(Mark::UnderWay, expected, [0, 0, 1, 8])
    );
}

#[test]
fn the_tests_of_the_vector() {
    // Places behind s vectors of 2, eight of them too.
    for s in 1..=8 {
        let list: Vec<u32> = [1, 2].repeat(s as usize);
        let run = state(k_with(s), &list, [0, 0], &[]);
        for length in [0, 1, 3, 4, 2 * s as usize + 2, 256, 1000] {
            // Whatever the numbers are.
            for number in [0, 1, P32] {
                assert_eq!(run_add(&run, &vec![number; length]), refusal(run, 10, 0));
            }
        }
        for number in [P32, P32 + 1, 2 * P32, u32::MAX] {
            assert_eq!(run_add(&run, &[number, 1]), refusal(run, 11, 2 * s));
            assert_eq!(run_add(&run, &[0, number]), refusal(run, 11, 2 * s + 1));
            assert_eq!(run_add(&run, &[number, number]), refusal(run, 11, 2 * s));
        }
        assert_eq!(run_add(&run, &[0, 0]), refusal(run, 21, s));
        for vector in [[0, 1], [1, 0], [0, P32 - 1]] {
            if s == 8 {
                assert_eq!(run_add(&run, &vector), refusal(run, 22, 0));
            } else {
                assert_eq!(run_add(&run, &vector).mark, Mark::UnderWay);
            }
        }
    }
}

#[test]
fn number_22_in_each_of_its_causes() {
    let at = |vector, row, caught| Run {
        vector,
        row,
        caught,
        ..filled()
    };
    for run in [
        // Caught.
        at(0, 0, 1),
        at(1, 1, 1),
        at(0, 0, 2),
        at(0, 0, 1 << 31),
        at(0, 0, u32::MAX),
        // Complete: t or row at or beyond its end.
        at(2, 0, 0),
        at(3, 0, 0),
        at(u32::MAX, 0, 0),
        at(0, 2, 0),
        at(0, 3, 0),
        at(1, u32::MAX, 0),
        at(u32::MAX, u32::MAX, 0),
        // Both.
        at(2, 0, 1),
        at(0, 2, u32::MAX),
    ] {
        assert_eq!(run_add(&run, &[1, 2]), refusal(run, 22, 0));
        // The tests of the vector stand before it.
        assert_eq!(run_add(&run, &[1]), refusal(run, 10, 0));
        assert_eq!(run_add(&run, &[1, P32]), refusal(run, 11, 5));
        assert_eq!(run_add(&run, &[0, 0]), refusal(run, 21, 2));
    }
    for run in [at(0, 0, 0), at(0, 1, 0), at(1, 0, 0), at(1, 1, 0)] {
        assert_eq!(run_add(&run, &[1, 2]).mark, Mark::UnderWay);
    }
}

#[test]
fn products_are_worked_out_from_t_and_row() {
    // ℓ = 3, m = 4, n = 5: mn = 20, n + m = 9 and mn + ℓn + ℓm = 47.
    let setting = Setting::from([3, 4, 5, 3, 10, 6, 6]);
    for (t, row, products) in [
        (0, 0, 0),
        (0, 1, 29),
        (0, 2, 38),
        (1, 0, 47),
        (1, 2, 85),
        (2, 0, 94),
        (2, 1, 123),
        (2, 2, 132),
    ] {
        let run = state(setting, &[1; 15], [t, row], &[]);
        let longer = Setting { vectors: 4, ..setting };
        let expected = state(longer, &[1; 20], [t, row], &[]);
        assert_eq!(
            run_add(&run, &[1; 5]),
            marked(Mark::UnderWay, expected, [0, t, row, products])
        );
    }
}

#[test]
fn with_a_rounding_number() {
    let begun = run_begin(&K_WITH_ROUNDING, &ROUNDED_TICKET, &[1, 2]);
    let longer = run_add(&begun.run, &[0, 5]);
    let setting = Setting {
        vectors: 2,
        ..K_WITH_ROUNDING
    };
    let expected = state(setting, &[1, 2, 0, 5], [0, 0], &[]);
    assert_eq!(longer, marked(Mark::UnderWay, expected, [0, 0, 0, 0]));
    // o not below α.
    let mut run = begun.run;
    run.setting.rounding = 10;
    assert_eq!(run_add(&run, &[0, 5]), refusal(run, 19, 0));
}

#[test]
fn to_the_end_of_the_longest_list() {
    let setting = Setting::from([1, 1, 32, 1, 10, 8, 5]);
    let ticket = true_ticket(&setting, &[1], &[1; 32]);
    let mut last = run_begin(&setting, &ticket, &[1; 32]);
    for s in 2..=8_u32 {
        last = run_add(&last.run, &[s; 32]);
        let list: Vec<u32> = (1..=s).flat_map(|t| [t; 32]).collect();
        let expected = state(Setting { vectors: s, ..setting }, &list, [0, 0], &[]);
        assert_eq!(last, marked(Mark::UnderWay, expected, [0, 0, 0, 0]));
    }
    assert_eq!(last.run.list_length, 256);
    let run = last.run;
    assert_eq!(run_add(&run, &[9; 32]), refusal(run, 22, 0));
    assert_eq!(run_add(&run, &[9; 31]), refusal(run, 10, 0));
    assert_eq!(run_add(&run, &[P32; 32]), refusal(run, 11, 256));
    let mut vector = [1; 32];
    vector[31] = P32;
    assert_eq!(run_add(&run, &vector), refusal(run, 11, 287));
    assert_eq!(run_add(&run, &[0; 32]), refusal(run, 21, 8));
}
