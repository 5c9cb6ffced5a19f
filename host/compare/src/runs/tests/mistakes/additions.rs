//! Mistakes in an addition.

use apart::{run_add, Answer, Mark, Run, RunAnswer};

use super::{right_vector, sizes_of, Mistake};
use crate::cases::refused;
use crate::runs::sides::apart;
use crate::runs::stated::{refusal, told};
use crate::runs::Call;

/// The answer to an addition, changed.
fn of_add(call: &Call, change: impl Fn(&Run, &[u32], &mut RunAnswer)) -> RunAnswer {
    let mut answer = apart(call);
    if let Call::Add { run, vector } = call {
        change(run, vector, &mut answer);
    }
    answer
}

/// The same where the vector is added.
fn of_added(call: &Call, change: impl Fn(&Run, &mut RunAnswer)) -> RunAnswer {
    of_add(call, |run, _, answer| {
        if answer.mark == Mark::UnderWay {
            change(run, answer);
        }
    })
}

pub const ENDED: [Mistake; 5] = [
    ("nine vectors", |call| {
        of_add(call, |run, _, answer| {
            if answer.answer.number == 22 && told(run).mark == Mark::UnderWay {
                answer.run.setting.vectors += 1;
                *answer = told(&answer.run);
            }
        })
    }),
    ("seven vectors at most", |call| {
        of_added(call, |run, answer| {
            if run.setting.vectors == 7 {
                *answer = refusal(run, refused(22, 0));
            }
        })
    }),
    ("a caught run takes vectors", |call| {
        of_add(call, |run, vector, answer| {
            if answer.answer.number == 22 && run.caught != 0 {
                *answer = run_add(&Run { caught: 0, ..*run }, vector);
                answer.run.caught = run.caught;
            }
        })
    }),
    ("a complete run takes vectors", |call| {
        of_add(call, |run, vector, answer| {
            if answer.answer.number == 22 && told(run).mark == Mark::Complete {
                let started = Run {
                    vector: 0,
                    row: 0,
                    caught: 0,
                    ..*run
                };
                *answer = run_add(&started, vector);
            }
        })
    }),
    ("22 before the vector", |call| {
        of_add(call, |run, _, answer| {
            if [10, 11, 21].contains(&answer.answer.number) {
                let of_run = run_add(run, &right_vector(run));
                if of_run.answer.number == 22 {
                    *answer = of_run;
                }
            }
        })
    }),
];

pub const ADDED: [Mistake; 5] = [
    ("s is not raised", |call| {
        of_added(call, |run, answer| answer.run.setting.vectors = run.setting.vectors)
    }),
    ("the length is not raised", |call| {
        of_added(call, |run, answer| answer.run.list_length = run.list_length)
    }),
    ("zeros past the vector", |call| {
        of_added(call, |_, answer| {
            let end = answer.run.list_length as usize;
            answer.run.list[end..].fill(0);
        })
    }),
    ("row is set back", |call| of_added(call, |_, answer| answer.run.row = 0)),
    ("no products so far", |call| {
        of_added(call, |_, answer| answer.answer = Answer::from([0; 4]))
    }),
];

pub const VECTORS: [Mistake; 4] = [
    ("the index in the vector", |call| {
        of_add(call, |run, _, answer| {
            let held = run.setting.vectors.wrapping_mul(run.setting.columns);
            if answer.answer.number == 11 && answer.answer.place >= held {
                answer.answer.place -= held;
            }
        })
    }),
    ("zeros by their index", |call| {
        of_add(call, |run, _, answer| {
            if answer.answer.number == 21 && answer.answer.place == run.setting.vectors {
                answer.answer.place *= run.setting.columns;
            }
        })
    }),
    ("a longer vector is cut", |call| {
        of_add(call, |run, vector, answer| {
            let [_, _, columns, _] = sizes_of(run);
            if answer.answer.number == 10 && vector.len() > columns {
                *answer = run_add(run, &vector[..columns]);
            }
        })
    }),
    ("a refusal hands back the vector", |call| {
        of_add(call, |run, vector, answer| {
            if answer.mark == Mark::Refused {
                let past = run.list.iter().skip(run.list_length as usize).count();
                let start = run.list.len() - past;
                let count = vector.len().min(past);
                answer.run.list[start..start + count].copy_from_slice(&vector[..count]);
            }
        })
    }),
];

pub const UNTESTED: [Mistake; 2] = [
    ("fitting is not tested in an addition", |call| {
        of_add(call, |run, _, answer| {
            if answer.answer.number == 3 {
                *answer = told(run);
            }
        })
    }),
    ("the list is not tested in an addition", |call| {
        of_add(call, |run, _, answer| {
            let of_state = run_add(run, &right_vector(run)).answer.number;
            if [10, 11, 21].contains(&of_state) {
                *answer = told(run);
            }
        })
    }),
];
