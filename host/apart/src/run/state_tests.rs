//! States that no run need have handed back: each gets its answer.

use super::tests::{filled, k_with, marked, refusal, state, ticket_of_d, P32};
use super::*;
use crate::examples::{with_claims, K, TICKET};
use crate::make::true_ticket;
use crate::P;

/// Numbers around those of the states below and far from them.
const COUNTS: [u32; 12] = [0, 1, 2, 3, 4, 7, 8, 31, 255, 256, 1 << 31, u32::MAX];

#[test]
fn every_t_row_and_caught() {
    // mn + ℓn + ℓm = 12, mn = 4 and n + m = 4. Each row is equal: the state's u
    // is B times either vector, as these are the same.
    for s in 1..=8 {
        for t in COUNTS {
            for row in COUNTS {
                for caught in [0, 1, 2, 1 << 31, u32::MAX] {
                    let list: Vec<u32> = [1, 2].repeat(s as usize);
                    let run = Run {
                        caught,
                        ..state(k_with(s), &list, [t, row], &[11, P32 - 9])
                    };
                    let complete = |run| marked(Mark::Complete, run, [0, 0, 0, 12 * s]);
                    let expected = if t >= s || row >= 2 {
                        complete(run)
                    } else if caught != 0 {
                        marked(Mark::Caught, run, [12, t, row, 12 * t + [8, 12][row as usize]])
                    } else if row == 0 {
                        let run = Run { row: 1, ..run };
                        marked(Mark::UnderWay, run, [0, t, 1, 12 * t + 8])
                    } else {
                        let run = Run {
                            vector: t + 1,
                            row: 0,
                            ..run
                        };
                        if t + 1 == s {
                            complete(run)
                        } else {
                            marked(Mark::UnderWay, run, [0, t + 1, 0, 12 * (t + 1)])
                        }
                    };
                    assert_eq!(run_step(&run, &TICKET), expected);
                }
            }
        }
    }
}

#[test]
fn a_false_ticket_does_not_change_what_is_finished() {
    for (vector, row, caught, mark) in [
        (2, 0, 0, Mark::Complete),
        (0, 2, 0, Mark::Complete),
        (2, 0, 1, Mark::Complete),
        (0, 2, 1, Mark::Complete),
        (1, 1, 1, Mark::Caught),
        (0, 0, 1, Mark::Caught),
    ] {
        let run = Run {
            vector,
            row,
            caught,
            ..filled()
        };
        for ticket in [&TICKET[..], &ticket_of_d()] {
            let given = run_step(&run, ticket);
            assert_eq!((given.run, given.mark), (run, mark));
        }
    }
}

#[test]
fn other_sizes() {
    // ℓ = 3, m = 4, n = 5: mn = 20, n + m = 9 and mn + ℓn + ℓm = 47.
    let setting = Setting::from([3, 4, 5, 4, 10, 6, 6]);
    let ticket = true_ticket(&setting, &[1; 12], &[1; 20]);
    let at = |t, row| state(setting, &[1; 20], [t, row], &[5; 4]);
    for (t, row, expected) in [
        (0, 0, [0, 0, 1, 29]),
        (0, 1, [0, 0, 2, 38]),
        (0, 2, [0, 1, 0, 47]),
        (1, 0, [0, 1, 1, 76]),
        (2, 1, [0, 2, 2, 132]),
        (3, 0, [0, 3, 1, 170]),
        (3, 1, [0, 3, 2, 179]),
        (3, 2, [0, 0, 0, 188]),
        (4, 0, [0, 0, 0, 188]),
        (0, 3, [0, 0, 0, 188]),
    ] {
        assert_eq!(run_step(&at(t, row), &ticket).answer, Answer::from(expected));
    }
    for (t, row, expected) in [(0, 0, 29), (0, 2, 47), (2, 1, 132), (3, 2, 188)] {
        let caught = Run {
            caught: 1,
            ..at(t, row)
        };
        let expected = marked(Mark::Caught, caught, [12, t, row, expected]);
        assert_eq!(run_step(&caught, &ticket), expected);
    }
}

#[test]
fn nothing_else_of_a_state_changes() {
    // Row 1 of the first vector, whose u is that of c with p more in both
    // numbers: equal, and u stays as it came.
    let run = filled();
    let expected = Run {
        vector: 1,
        row: 0,
        ..run
    };
    assert_eq!(run_step(&run, &TICKET), marked(Mark::UnderWay, expected, [0, 1, 0, 12]));
    // Row 0 of the second, (0, 5): the first two numbers of u only.
    let run = expected;
    let mut expected = Run { row: 1, ..run };
    expected.u[..2].copy_from_slice(&[30, P32 - 40]);
    assert_eq!(run_step(&run, &TICKET), marked(Mark::UnderWay, expected, [0, 1, 1, 20]));
    // Its row 1.
    let run = expected;
    let expected = Run {
        vector: 2,
        row: 0,
        ..run
    };
    assert_eq!(run_step(&run, &TICKET), marked(Mark::Complete, expected, [0, 0, 0, 24]));
    // Caught in row 1.
    let run = filled();
    let expected = Run { caught: 1, ..run };
    let ticket = with_claims([-2, 3, 3, -1], [3, 4, 3, 8]);
    assert_eq!(run_step(&run, &ticket), marked(Mark::Caught, expected, [12, 0, 1, 12]));
}

/// In row 1 the claims are 23 and -2 and the row of A is (5, 4).
#[test]
fn every_u_in_a_later_row() {
    let numbers = [
        0,
        1,
        11,
        12,
        P32 - 9,
        P32 - 1,
        P32,
        P32 + 1,
        P32 + 11,
        2 * P32 - 9,
        2 * P32,
        u32::MAX,
    ];
    for u0 in numbers {
        for u1 in numbers {
            for x in [[1, 2], [0, 5], [P32 - 1, 1]] {
                let run = state(K, &x, [0, 1], &[u0, u1, 77]);
                let [c0, c1] = x.map(i128::from);
                let difference = 23 * c0 - 2 * c1 - 5 * i128::from(u0) - 4 * i128::from(u1);
                let expected = if difference.rem_euclid(P) == 0 {
                    marked(
                        Mark::Complete,
                        Run {
                            vector: 1,
                            row: 0,
                            ..run
                        },
                        [0, 0, 0, 12],
                    )
                } else {
                    marked(Mark::Caught, Run { caught: 1, ..run }, [12, 0, 1, 12])
                };
                assert_eq!(run_step(&run, &TICKET), expected);
            }
        }
    }
    let complete = |u| run_step(&state(K, &[1, 2], [0, 1], u), &TICKET).mark == Mark::Complete;
    assert!(complete(&[11, P32 - 9]));
    assert!(complete(&[P32 + 11, P32 - 9]));
    assert!(complete(&[11, 2 * P32 - 9]));
    assert!(!complete(&[12, P32 - 9]));
    assert!(!complete(&[P32, P32]));
}

#[test]
fn any_u_before_row_0() {
    for number in [0, 1, P32, u32::MAX] {
        let run = Run {
            u: [number; 64],
            ..state(K, &[1, 2], [0, 0], &[])
        };
        let mut expected = Run { row: 1, ..run };
        expected.u[..2].copy_from_slice(&[11, P32 - 9]);
        assert_eq!(run_step(&run, &TICKET), marked(Mark::UnderWay, expected, [0, 0, 1, 8]));
    }
}

#[test]
fn each_length_of_the_list() {
    // 2 is right for K; the others leave 2 in their low bits, or are the ends.
    for length in [0, 1, 3, 4, 255, 256, 257, 258, 65_538, (1 << 31) + 2, u32::MAX] {
        let run = Run {
            list_length: length,
            ..state(K, &[1; 256], [0, 0], &[])
        };
        for run in [run, Run { vector: 1, ..run }, Run { caught: 1, ..run }] {
            assert_eq!(run_step(&run, &TICKET), refusal(run, 10, 0));
            assert_eq!(run_step(&run, &TICKET[1..]), refusal(run, 4, 0));
            assert_eq!(run_add(&run, &[1, 2]), refusal(run, 10, 0));
            assert_eq!(run_add(&run, &[P32]), refusal(run, 10, 0));
        }
    }
}

#[test]
fn each_length_of_the_longest_list() {
    let setting = Setting::from([1, 1, 32, 8, 10, 8, 5]);
    let ticket = true_ticket(&setting, &[1], &[1; 32]);
    let run = state(setting, &[1; 256], [0, 0], &[]);
    let given = run_step(&run, &ticket);
    assert_eq!(
        (given.mark, given.answer),
        (Mark::UnderWay, Answer::from([0, 1, 0, 65]))
    );
    for length in [0, 32, 224, 255, 257, 288, 512, u32::MAX] {
        let run = Run {
            list_length: length,
            ..run
        };
        assert_eq!(run_step(&run, &ticket), refusal(run, 10, 0));
        assert_eq!(run_add(&run, &[1; 32]), refusal(run, 10, 0));
    }
    // Its last number is read.
    let mut last = run;
    last.list[255] = P32;
    assert_eq!(run_step(&last, &ticket), refusal(last, 11, 255));
    last.list[224..].fill(0);
    assert_eq!(run_step(&last, &ticket), refusal(last, 21, 7));
}

#[test]
fn numbers_past_the_list_are_not_read() {
    for number in [0, 1, P32, u32::MAX] {
        let mut run = state(K, &[1, 2], [0, 1], &[11, P32 - 9]);
        run.list[2..].fill(number);
        let expected = Run {
            vector: 1,
            row: 0,
            ..run
        };
        assert_eq!(run_step(&run, &TICKET), marked(Mark::Complete, expected, [0, 0, 0, 12]));
    }
}
