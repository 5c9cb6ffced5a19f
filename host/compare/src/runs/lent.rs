//! What is handed to runs: tickets, the same throughout or not, and vectors.

use apart::{Mark, Run};

use super::craft::{settings, state, Handed, Lent};
use super::Visitor;
use crate::families::craft::{falsify, list_without_zero, sizes, true_parts, P};
use crate::families::damage::{parts_of, FAULTS};
use crate::families::rounding::fitting;
use crate::generator::Generator;
use crate::parts::Parts;
use crate::setting::{Form, Setting};

/// States of a run from its first row to its last, then two that are complete, and one
/// that is caught.
fn states(generator: &mut Generator, setting: &Setting, parts: &Parts, list: &[u32]) -> Vec<Run> {
    let (last, end) = (setting.vectors - 1, setting.rows - 1);
    let mut states: Vec<Run> = [[0, 0], [0, end], [last, 0], [last, end], [last + 1, 0], [0, end + 1]]
        .map(|place| state(generator, setting, parts, list, place))
        .into();
    states.push(Run { caught: 1, ..states[1] });
    states
}

/// Every fault in the first and in the last record of each part, every length around the
/// right one, and tickets of other numbers, at states that are under way, caught and
/// complete.
pub fn tickets(visit: &mut Visitor) {
    let mut generator = Generator::new(1331);
    for setting in settings(&mut generator) {
        let parts = true_parts(&mut generator, &setting);
        let list = list_without_zero(&mut generator, &setting);
        let right = Lent::of(&setting, &parts);
        let mut tickets = Vec::new();
        for (first, count, ..) in parts_of(&setting) {
            for record in [first, first + count - 1] {
                tickets.extend(FAULTS.map(|fault| Lent::spoilt(&setting, &parts, record, fault)));
            }
        }
        let length = right.bytes.len();
        let longer = [&right.bytes[..], &[0; 9]].concat();
        let lengths = (0..18).chain(length - 9..length).chain(length + 1..=length + 9);
        tickets.extend(lengths.map(|other| Lent::any(&setting, longer[..other].to_vec())));
        let [rows, _, columns, _] = sizes(&setting);
        for place in 0..rows * columns {
            let mut wrong = parts.clone();
            falsify(&mut generator, &setting, &mut wrong, place / columns, place % columns);
            tickets.push(Lent::of(&setting, &wrong));
        }
        tickets.push(Lent::of(&setting, &true_parts(&mut generator, &setting)));
        tickets.push(right);
        for run in states(&mut generator, &setting, &parts, &list) {
            for ticket in &tickets {
                visit.step("a ticket of its own", &run, ticket);
            }
        }
    }
}

/// Two true tickets, one that is refused, and both with an untrue claim in the last row, in
/// every order: u is that of the ticket lent in row 0, and all else that of the ticket lent
/// at the step.
pub fn sequences(visit: &mut Visitor) {
    let mut generator = Generator::new(1332);
    let all = [[2, 2, 2, 2], [3, 1, 2, 1], [2, 3, 1, 2], [1, 2, 3, 4]];
    for sizes_of_run in all.into_iter().cycle().take(12) {
        let setting = fitting(&mut generator, Form::Plain, sizes_of_run);
        let [rows, _, columns, _] = sizes(&setting);
        let both = [(); 2].map(|()| true_parts(&mut generator, &setting));
        let mut tickets: Vec<Lent> = both.iter().map(|parts| Lent::of(&setting, parts)).collect();
        tickets.push(Lent::spoilt_somewhere(&mut generator, &setting, &both[0]));
        for mut parts in both {
            let j = generator.below(columns);
            falsify(&mut generator, &setting, &mut parts, rows - 1, j);
            tickets.push(Lent::of(&setting, &parts));
        }
        let list = list_without_zero(&mut generator, &setting);
        let begun = visit.begin("a begin", &setting, &tickets[0], &list);
        let run = begun.expect("it is known what reading the ticket gives").run;
        visit_sequences(visit, &run, &tickets, 6);
    }
}

/// So many steps, each with any of the tickets.
fn visit_sequences(visit: &mut Visitor, run: &Run, tickets: &[Lent], steps: usize) {
    if steps == 0 {
        return;
    }
    for ticket in tickets {
        let told = visit.step("one of several tickets", run, ticket);
        let told = told.expect("it is known what reading the ticket gives");
        // A run that has ended stays as it is.
        if told.mark == Mark::UnderWay || told.mark == Mark::Refused {
            visit_sequences(visit, &told.run, tickets, steps - 1);
        }
    }
}

/// Vectors of every length around n, of one number over and over, and with one number of p
/// or more or one that is not 0 at every index, at states of each kind.
pub fn vectors(visit: &mut Visitor) {
    let mut generator = Generator::new(1333);
    for setting in settings(&mut generator) {
        let columns = setting.columns as usize;
        let parts = true_parts(&mut generator, &setting);
        let list = list_without_zero(&mut generator, &setting);
        let handed = Handed::of(&mut generator, &setting, &parts);
        let mut vectors: Vec<Vec<u32>> = handed.vectors.iter().map(|(_, vector)| vector.clone()).collect();
        for number in [0, 1, P - 1, P, u32::MAX] {
            let lengths = (0..=columns + 2).chain([2 * columns, 8 * columns, 256, 257, 1000]);
            vectors.extend(lengths.map(|length| vec![number; length]));
        }
        for index in 0..columns {
            let mut one = vec![0; columns];
            for number in [1, P - 1, P, u32::MAX] {
                one[index] = number;
                vectors.push(one.clone());
            }
        }
        for run in states(&mut generator, &setting, &parts, &list) {
            for vector in &vectors {
                visit.add("a vector of its own", &run, vector);
            }
        }
    }
}

#[cfg(test)]
mod tests {
    use super::*;
    use crate::runs::Case;

    /// The family would be of no use if its runs ended alike, or with their first ticket.
    #[test]
    fn sequences_end_in_every_way() {
        let mut marks = [0; 4];
        let mut visit = |case: &Case| {
            let told = case.stated.expect("every call is stated");
            marks[told.mark as usize] += 1;
        };
        sequences(&mut Visitor(&mut visit));
        assert!(marks.iter().all(|&count| count > 500), "{marks:?}");
    }
}
