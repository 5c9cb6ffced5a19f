//! Mistakes in a step.

use apart::{run_add, run_step, Answer, Mark, Run, RunAnswer};

use super::{right_vector, sizes_of, Mistake};
use crate::cases::{caught, refused};
use crate::families::craft::P;
use crate::runs::sides::apart;
use crate::runs::stated::{refusal, told, ZEROS};
use crate::runs::Call;
use crate::setting::Setting;

/// The answer to a step, changed.
fn of_step(call: &Call, change: impl Fn(&Run, &[u8], &mut RunAnswer)) -> RunAnswer {
    let mut answer = apart(call);
    if let Call::Step { run, ticket } = call {
        change(run, ticket, &mut answer);
    }
    answer
}

/// The same where the step makes a row.
fn of_row(call: &Call, change: impl Fn(&Run, &[u8], &mut RunAnswer)) -> RunAnswer {
    of_step(call, |run, ticket, answer| {
        if answer.mark != Mark::Refused && told(run).mark == Mark::UnderWay {
            change(run, ticket, answer);
        }
    })
}

pub const ENDED: [Mistake; 5] = [
    ("a run that has ended is not tested", |call| {
        of_step(call, |run, _, answer| {
            let is_of_setting = [1, 2, 3, 19].contains(&answer.answer.number);
            if answer.mark == Mark::Refused && !is_of_setting && told(run).mark != Mark::UnderWay {
                *answer = told(run);
            }
        })
    }),
    ("caught beyond the end", |call| {
        of_step(call, |run, _, answer| {
            if answer.mark == Mark::Complete && run.caught != 0 {
                answer.mark = Mark::Caught;
                answer.answer = Answer::from([12, run.vector, run.row, 0]);
            }
        })
    }),
    ("caught by 1 alone", |call| match call {
        Call::Step { run, ticket } if run.caught > 1 => run_step(&Run { caught: 0, ..**run }, ticket),
        _ => apart(call),
    }),
    ("complete by t alone", |call| {
        of_step(call, |run, _, answer| {
            if answer.mark == Mark::Complete && run.vector < run.setting.vectors && run.row >= run.setting.rows {
                answer.mark = Mark::UnderWay;
            }
        })
    }),
    ("complete by row alone", |call| {
        of_step(call, |run, _, answer| {
            if answer.mark == Mark::Complete && run.vector >= run.setting.vectors && run.row < run.setting.rows {
                answer.mark = Mark::UnderWay;
            }
        })
    }),
];

pub const U: [Mistake; 5] = [
    ("the state's u in row 0", |call| {
        of_row(call, |run, _, answer| {
            if run.row == 0 {
                answer.run.u = run.u;
            }
        })
    }),
    ("u anew in every row", |call| {
        of_row(call, |run, ticket, answer| {
            let first = run_step(&Run { row: 0, ..*run }, ticket);
            *answer = run_step(&Run { u: first.run.u, ..*run }, ticket);
        })
    }),
    ("u handed back reduced", |call| {
        of_row(call, |run, _, answer| {
            let [_, inner, ..] = sizes_of(run);
            answer.run.u[..inner].iter_mut().for_each(|number| *number %= P);
        })
    }),
    ("u of p or more is caught", |call| {
        of_row(call, |run, _, answer| {
            let [_, inner, ..] = sizes_of(run);
            if run.row > 0 && run.u[..inner].iter().any(|&number| number >= P) {
                *answer = told(&Run { caught: 1, ..*run });
            }
        })
    }),
    ("zeros past m numbers of u", |call| {
        of_row(call, |run, _, answer| {
            let [_, inner, ..] = sizes_of(run);
            answer.run.u[inner..].fill(0);
        })
    }),
];

pub const ROWS: [Mistake; 6] = [
    ("row is not set back", |call| {
        of_row(call, |run, _, answer| {
            if answer.run.vector > run.vector {
                answer.run.row = run.setting.rows;
            }
        })
    }),
    ("row goes up when caught", |call| {
        of_row(call, |_, _, answer| {
            if answer.mark == Mark::Caught {
                answer.run.row += 1;
            }
        })
    }),
    ("caught is not kept", |call| {
        of_row(call, |_, _, answer| answer.run.caught = 0)
    }),
    ("complete a step late", |call| {
        of_row(call, |_, _, answer| {
            if answer.mark == Mark::Complete {
                answer.mark = Mark::UnderWay;
            }
        })
    }),
    ("o is left out", |call| {
        of_row(call, |run, ticket, answer| {
            let mut without = *run;
            without.setting.rounding = 0;
            *answer = run_step(&without, ticket);
            answer.run.setting = run.setting;
        })
    }),
    ("the first vector over and over", |call| {
        of_row(call, |run, ticket, answer| {
            let [_, _, columns, _] = sizes_of(run);
            let mut first = *run;
            first.list.copy_within(..columns, run.vector as usize * columns);
            *answer = run_step(&first, ticket);
            answer.run.list = run.list;
        })
    }),
];

pub const PRODUCTS: [Mistake; 3] = [
    ("mn counts before row 0", |call| {
        let mut answer = apart(call);
        if answer.mark == Mark::UnderWay && answer.answer.row == 0 {
            answer.answer.products += answer.run.setting.inner * answer.run.setting.columns;
        }
        answer
    }),
    ("mn does not count", |call| {
        let mut answer = apart(call);
        if answer.mark == Mark::UnderWay && answer.answer.row > 0 {
            answer.answer.products -= answer.run.setting.inner * answer.run.setting.columns;
        }
        answer
    }),
    ("the next row counts", |call| {
        let mut answer = apart(call);
        if answer.mark == Mark::UnderWay {
            let setting = Setting::plain(answer.run.setting);
            let next = caught(&setting, answer.run.vector as usize, answer.run.row as usize);
            answer.answer.products = next.products;
        }
        answer
    }),
];

pub const LISTS: [Mistake; 4] = [
    ("numbers past the list are tested", |call| {
        of_step(call, |run, _, answer| {
            let past = (run.list_length as usize..256).find(|&index| run.list[index] >= P);
            match past {
                Some(index) if answer.mark != Mark::Refused => *answer = refusal(run, refused(11, index)),
                _ => (),
            }
        })
    }),
    ("longer lists are cut", |call| {
        of_step(call, |run, ticket, answer| {
            let right = run.setting.vectors.wrapping_mul(run.setting.columns);
            if answer.answer.number == 10 && run.list_length > right {
                let cut = Run {
                    list_length: right,
                    ..*run
                };
                *answer = run_step(&cut, ticket);
                answer.run.list_length = run.list_length;
            }
        })
    }),
    ("the list before the ticket", |call| {
        of_step(call, |run, _, answer| {
            if (4..10).contains(&answer.answer.number) {
                let of_list = run_add(run, &right_vector(run));
                if [10, 11, 21].contains(&of_list.answer.number) {
                    *answer = of_list;
                }
            }
        })
    }),
    ("a refusal hands back zeros", |call| {
        let mut answer = apart(call);
        if answer.mark == Mark::Refused {
            answer.run = ZEROS;
        }
        answer
    }),
];
