//! Challenge checks by steps, beside the whole check. Each step reads the ticket anew.

use std::hint::black_box;

use dikdumar::{Mark, Run, RunAnswer};

use super::{Clock, Input, Number, Plan, VECTORS};
use crate::table::{Stepped, Table};

/// For each count of vectors all steps of a run, and its beginning, which makes the tests
/// that each step makes anew, and no row.
pub struct Runs([(Number, Number); 2]);

impl Runs {
    pub fn new<'a>(input: &'a Input, clock: &mut Clock<'a>) -> Runs {
        Runs(VECTORS.map(|vectors| {
            let (setting, list) = input.challenge(vectors);
            let ticket = &input.ticket;
            let begun = dikdumar::run_begin(setting, ticket, list).run;
            let checked = dikdumar::challenge_check(setting, ticket, list);
            assert_eq!(to_its_end(begun, ticket).answer, checked);
            let steps = clock.add(move || to_its_end(black_box(begun), black_box(ticket)));
            let reading =
                clock.add(move || dikdumar::run_begin(black_box(setting), black_box(ticket), black_box(list)));
            (steps, reading)
        }))
    }

    pub fn lines(&self, plan: &Plan, input: &Input, clock: &Clock, table: &mut Table) {
        for (index, vectors) in VECTORS.into_iter().enumerate() {
            let (steps, reading) = self.0[index];
            table.stepped.push(Stepped {
                size: input.size(),
                vectors,
                steps: vectors * input.setting.rows,
                run: clock.nanoseconds(steps),
                reading: clock.nanoseconds(reading),
                check: clock.nanoseconds(plan.challenge_check[index][0]),
            });
        }
    }
}

/// The answer that ends a run.
fn to_its_end(mut run: Run, ticket: &[u8]) -> RunAnswer {
    loop {
        let told = dikdumar::run_step(run, ticket);
        if told.mark != Mark::UnderWay {
            return told;
        }
        run = told.run;
    }
}
