//! Random runs, and random states.

use apart::Run;

use super::craft::{any_number, any_numbers, some_vector, Handed, Lent};
use super::Visitor;
use crate::cases::TicketCase;
use crate::families::craft::{list, sizes_up_to, true_parts, well_formed_list, P};
use crate::families::random::damage;
use crate::families::rounding::fitting;
use crate::families::rounding::random::random_setting_with_rounding;
use crate::generator::Generator;
use crate::setting::{Form, Setting};

/// Runs with steps and additions in any order, mostly right ones, and with a number of the
/// state changed now and then.
pub fn runs(visit: &mut Visitor) {
    let mut generator = Generator::new(1361);
    for _ in 0..15_000 {
        let sizes = sizes_up_to(&mut generator, [4, 4, 4, 6]);
        visit_random_run(visit, &mut generator, sizes, 20);
    }
    for _ in 0..60 {
        let sizes = sizes_up_to(&mut generator, [32, 64, 32, 8]);
        visit_random_run(visit, &mut generator, sizes, 20);
    }
}

fn visit_random_run(visit: &mut Visitor, generator: &mut Generator, sizes: [u32; 4], calls: usize) {
    let setting = fitting(generator, Form::Plain, sizes);
    let parts = true_parts(generator, &setting);
    let handed = Handed::of(generator, &setting, &parts);
    let list = well_formed_list(generator, &setting);
    let ticket = |index: usize| &handed.tickets[index].1;
    let begun = visit.begin("a begin", &setting, ticket(0), &list);
    let mut run = begun.expect("it is known what reading the ticket gives").run;
    for _ in 0..calls {
        let told = match generator.below(16) {
            0..8 => visit.step("a step", &run, ticket(0)),
            8..10 => visit.step("a step", &run, ticket(generator.below(handed.tickets.len()))),
            10..12 => Some(visit.add("an addition", &run, &some_vector(generator, &setting))),
            12 => {
                let (what, vector) = &handed.vectors[generator.below(handed.vectors.len())];
                Some(visit.add(what, &run, vector))
            }
            13 => {
                let damaged = damaged(generator, &setting, &ticket(0).bytes);
                visit.step("damaged at random", &run, &damaged)
            }
            _ => {
                change(generator, &mut run);
                visit.step("a number changed", &run, ticket(0))
            }
        };
        // Where it is not known what the ticket gives, the run goes on from where it was.
        run = told.map_or(run, |told| told.run);
    }
}

/// The ticket damaged at random. Some damages leave it as it is, and change what would be
/// handed in beside it.
fn damaged(generator: &mut Generator, setting: &Setting, ticket: &[u8]) -> Lent {
    let mut case = TicketCase {
        what: "damaged",
        setting: *setting,
        ticket: ticket.to_vec(),
        list: list(generator, setting),
        expected: None,
    };
    damage(generator, &mut case);
    Lent::any(setting, case.ticket)
}

/// Changes one number of a state, by one or to any other.
fn change(generator: &mut Generator, run: &mut Run) {
    let [in_list, in_u] = [generator.below(run.list.len()), generator.below(run.u.len())];
    let columns = (run.setting.columns as usize).clamp(1, 256);
    let number = match generator.below(12) {
        0 => &mut run.setting.vectors,
        1 => &mut run.setting.rounding,
        2 => &mut run.list[in_list],
        3 => &mut run.list[in_list % columns],
        4 => &mut run.list_length,
        5..7 => &mut run.vector,
        7..9 => &mut run.row,
        9 => &mut run.u[in_u],
        10 => &mut run.u[in_u % 4],
        _ => &mut run.caught,
    };
    *number = match generator.below(4) {
        0 => number.wrapping_add(1),
        1 => number.wrapping_sub(1),
        2 => any_number(generator),
        _ => generator.below(4) as u32,
    };
}

/// States of random numbers, of which the setting is mostly within its limits and the list
/// mostly of its length.
pub fn states(visit: &mut Visitor) {
    let mut generator = Generator::new(1362);
    for round in 0..150_000 {
        let setting = random_setting_with_rounding(&mut generator, Form::Plain);
        let right = setting.vectors.wrapping_mul(setting.columns);
        let mut run = Run {
            setting: setting.numbers().into(),
            list: any_numbers(&mut generator),
            list_length: right,
            vector: generator.below(9) as u32,
            row: generator.below(40) as u32,
            u: any_numbers(&mut generator),
            caught: generator.below(2) as u32,
        };
        if !generator.once_in(4) {
            run.list = run.list.map(|number| number % P);
        }
        if generator.once_in(4) {
            change(&mut generator, &mut run);
        }
        if round % 2 == 0 {
            let length = generator.below(257);
            visit.step("zeros for a ticket", &run, &Lent::any(&setting, vec![0; length]));
        } else {
            let mut vector: Vec<u32> = (0..setting.columns.min(300))
                .map(|_| any_number(&mut generator))
                .collect();
            if !generator.once_in(4) {
                vector.iter_mut().for_each(|number| *number %= P);
            }
            visit.add("a random vector", &run, &vector);
        }
    }
}

#[cfg(test)]
mod tests {
    use apart::Mark;

    use super::*;
    use crate::cases::Kind;
    use crate::comparison::Numbers;
    use crate::runs::{Case, Cases};

    fn met(family: Cases) -> (Numbers, [u32; 2]) {
        let mut numbers = Numbers::default();
        let mut stated = [0; 2];
        let mut visit = |case: &Case| {
            stated[usize::from(case.stated.is_some())] += 1;
            if let Some(told) = &case.stated {
                numbers.count(case.call.kind(), told.answer.number);
                numbers.count_mark(case.call.kind(), told.mark);
            }
        };
        family(&mut Visitor(&mut visit));
        (numbers, stated)
    }

    /// The families would be of no use if they seldom met a number or a mark.
    #[test]
    fn every_number_and_every_mark_is_met_often() {
        let (numbers, [unknown, known]) = met(runs);
        for mark in [Mark::UnderWay, Mark::Caught, Mark::Complete, Mark::Refused] {
            assert!(numbers.of_mark(Kind::RunStep, mark) > 10_000, "{numbers:?}");
        }
        for number in [0, 4, 5, 10, 11, 12, 19, 21] {
            assert!(numbers.of(Kind::RunStep, number) > 300, "{number}: {numbers:?}");
        }
        for number in [0, 10, 11, 21, 22] {
            assert!(numbers.of(Kind::RunAdd, number) > 300, "{number}: {numbers:?}");
        }
        assert!(unknown > 5_000 && known > 10 * unknown, "{unknown} {known}");

        let (numbers, _) = met(states);
        for number in [1, 2, 3, 4, 19] {
            assert!(numbers.of(Kind::RunStep, number) > 300, "{number}: {numbers:?}");
        }
        for number in [0, 1, 2, 3, 10, 11, 19, 22] {
            assert!(numbers.of(Kind::RunAdd, number) > 300, "{number}: {numbers:?}");
        }
    }
}
