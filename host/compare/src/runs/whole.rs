//! Whole runs, from begin to end, to which one ticket is lent throughout: their ends are
//! held to the challenge check with the final list.

use apart::{Mark, RunAnswer};

use super::craft::{some_vector, Lent};
use super::Visitor;
use crate::families::craft::{falsify, first_of_zeros, list_without_zero, sizes, sizes_up_to, true_parts, P};
use crate::families::false_tickets::HIDE;
use crate::families::rounding::fitting;
use crate::generator::Generator;
use crate::setting::{Form, Setting};

/// Every size up to 3, from one to three vectors and up to two additions at all places, of
/// a true ticket and of tickets with one untrue claim, in every place, each with two lists.
/// Where there are several columns, one vector in two hides it.
pub fn small_sizes(visit: &mut Visitor) {
    let mut generator = Generator::new(1301);
    for index in 0..3_u32.pow(4) {
        let sizes_of_run = [1, 3, 9, 27].map(|unit| index / unit % 3 + 1);
        let setting = fitting(&mut generator, Form::Plain, sizes_of_run);
        let [rows, _, columns, vectors] = sizes(&setting);
        let right = true_parts(&mut generator, &setting);
        let longest = Setting {
            vectors: setting.vectors + 2,
            ..setting
        };
        for place in (0..=rows * columns).chain(0..=rows * columns) {
            let mut parts = right.clone();
            let mut list = list_without_zero(&mut generator, &longest);
            // The last is the true one.
            if place < rows * columns {
                let (i, j) = (place / columns, place % columns);
                falsify(&mut generator, &setting, &mut parts, i, j);
                for x in list.chunks_mut(columns).filter(|x| x.len() > 1) {
                    x[j] *= generator.below(2) as u32;
                }
            }
            let ticket = Lent::of(&setting, &parts);
            let (first, additions) = list.split_at(vectors * columns);
            let additions: Vec<&[u32]> = additions.chunks(columns).collect();
            let begun = begin(visit, &setting, &ticket, first);
            visit_every_way(visit, &begun, &ticket, &additions);
        }
    }
}

fn begin(visit: &mut Visitor, setting: &Setting, ticket: &Lent, list: &[u32]) -> RunAnswer {
    let begun = visit.begin("a begin", setting, ticket, list);
    begun.expect("it is known what reading the ticket gives")
}

/// The run from here on in every way: at each state the next of these vectors is added, or
/// a row is made.
fn visit_every_way(visit: &mut Visitor, told: &RunAnswer, ticket: &Lent, additions: &[&[u32]]) {
    if told.mark != Mark::UnderWay {
        visit_ended(visit, told, ticket);
        return;
    }
    if let Some((vector, left)) = additions.split_first() {
        let longer = visit.add("an addition", &told.run, vector);
        visit_every_way(visit, &longer, ticket, left);
    }
    let next = visit.step_on("a step", &told.run, ticket);
    visit_every_way(visit, &next, ticket, additions);
}

/// A run that has ended gives its answer again, and takes no vector.
fn visit_ended(visit: &mut Visitor, told: &RunAnswer, ticket: &Lent) {
    visit.step_on("a step of a run that has ended", &told.run, ticket);
    let vector = &told.run.list[..told.run.setting.columns as usize];
    visit.add("an addition to a run that has ended", &told.run, vector);
}

/// A run over this list up to its end, which begins with some of the vectors.
fn visit_run(visit: &mut Visitor, generator: &mut Generator, setting: &Setting, ticket: &Lent, list: &[u32]) {
    let vectors = generator.between(1, i64::from(setting.vectors)) as u32;
    visit_run_from(visit, generator, &Setting { vectors, ..*setting }, ticket, list);
}

/// A run over this list up to its end. It begins with the vectors of the setting, and the
/// others are added before it is complete.
fn visit_run_from(visit: &mut Visitor, generator: &mut Generator, setting: &Setting, ticket: &Lent, list: &[u32]) {
    let [_, _, columns, vectors] = sizes(setting);
    let (first, additions) = list.split_at(vectors * columns);
    let mut additions = additions.chunks(columns);
    let mut told = begin(visit, setting, ticket, first);
    while told.mark == Mark::UnderWay {
        let run = &told.run;
        let is_last = run.vector + 1 == run.setting.vectors && run.row + 1 == run.setting.rows;
        let addition = if is_last || generator.once_in(4) {
            additions.next()
        } else {
            None
        };
        told = match addition {
            Some(vector) => visit.add("an addition", run, vector),
            None => visit.step_on("a step", run, ticket),
        };
    }
    visit_ended(visit, &told, ticket);
}

/// One untrue claim in each row, which the vectors before t hide, for each t.
pub fn caught_everywhere(visit: &mut Visitor) {
    let mut generator = Generator::new(1302);
    for _ in 0..24 {
        let [rows, inner, columns, _] = sizes_up_to(&mut generator, [4, 5, 4, 1]);
        for vectors in 1..=8 {
            let setting = fitting(&mut generator, Form::Plain, [rows, inner, columns + 1, vectors]);
            let [rows, _, columns, vectors] = sizes(&setting);
            let right = true_parts(&mut generator, &setting);
            for t in 0..vectors {
                for i in 0..rows {
                    let j = generator.below(columns);
                    let mut parts = right.clone();
                    falsify(&mut generator, &setting, &mut parts, i, j);
                    let mut list = list_without_zero(&mut generator, &setting);
                    list.chunks_mut(columns).take(t).for_each(|x| x[j] = 0);
                    let ticket = Lent::of(&setting, &parts);
                    visit_run(visit, &mut generator, &setting, &ticket, &list);
                }
            }
        }
    }
}

/// False tickets whose errors cancel with every vector of the list, and the same with one
/// number of the list changed, which mostly shows them.
pub fn hidden(visit: &mut Visitor) {
    let mut generator = Generator::new(1303);
    for _ in 0..400 {
        for hide in HIDE {
            let (setting, parts, mut list) = hide(&mut generator, Form::Plain);
            let ticket = Lent::of(&setting, &parts);
            let index = generator.below(list.len());
            for _ in 0..2 {
                if first_of_zeros(&setting, &list).is_none() {
                    visit_run(visit, &mut generator, &setting, &ticket, &list);
                }
                list[index] = (list[index] + 1) % P;
            }
        }
    }
}

/// 32 by 64 by 32: a true ticket, one that the last row of the eighth vector shows, and one
/// that the first row of the fourth does. All begin with one vector and get seven more; a
/// ninth is refused.
pub fn largest(visit: &mut Visitor) {
    let mut generator = Generator::new(1304);
    let setting = fitting(&mut generator, Form::Plain, [32, 64, 32, 8]);
    let [rows, _, columns, _] = sizes(&setting);
    let right = true_parts(&mut generator, &setting);
    let ninth = some_vector(&mut generator, &setting);
    for caught in [None, Some((7, rows - 1)), Some((3, 0))] {
        let mut parts = right.clone();
        let mut list = list_without_zero(&mut generator, &setting);
        if let Some((t, i)) = caught {
            falsify(&mut generator, &setting, &mut parts, i, columns - 1);
            let hiding = list.chunks_mut(columns).take(t);
            hiding.for_each(|x| x[columns - 1] = 0);
        }
        let ticket = Lent::of(&setting, &parts);
        let of_one = Setting { vectors: 1, ..setting };
        visit_run_from(visit, &mut generator, &of_one, &ticket, &list);
        // With all of them from the beginning.
        let mut told = begin(visit, &setting, &ticket, &list);
        for _ in 0..rows + 2 {
            visit.add("a ninth vector", &told.run, &ninth);
            told = visit.step_on("a step", &told.run, &ticket);
        }
    }
}

#[cfg(test)]
mod tests {
    use super::*;
    use crate::families::craft::K;
    use crate::runs::{Call, Case, Cases};

    /// The step that ends a run, with its state, is met again as that of a run that has
    /// ended.
    fn visit_ends(cases: impl FnOnce(&mut Visitor), take: &mut dyn FnMut(&RunAnswer)) {
        let mut visit = |case: &Case| {
            if case.what == "a step of a run that has ended" {
                take(&case.stated.expect("every step is stated"));
            }
        };
        cases(&mut Visitor(&mut visit));
    }

    /// With two rows: of one vector in one way, of two in two, of three in 4 + 3.
    #[test]
    fn additions_are_made_at_every_place() {
        let mut generator = Generator::new(1);
        let ticket = Lent::of(&K, &true_parts(&mut generator, &K));
        let mut ends = [0; 4];
        let cases = |visit: &mut Visitor| {
            let begun = begin(visit, &K, &ticket, &[1, 2]);
            visit_every_way(visit, &begun, &ticket, &[&[3, 4], &[5, 6]]);
        };
        visit_ends(cases, &mut |told| {
            assert_eq!(told.mark, Mark::Complete);
            ends[told.run.setting.vectors as usize] += 1;
        });
        assert_eq!(ends, [0, 1, 2, 7]);
    }

    /// The families would be of no use if their runs ended alike.
    #[test]
    fn runs_end_in_every_way() {
        let ends = |cases: Cases| {
            let [mut complete, mut caught] = [0; 2];
            let mut places = [[0; 4]; 8];
            visit_ends(cases, &mut |told| match told.mark {
                Mark::Caught => {
                    caught += 1;
                    let place = places.get_mut(told.run.vector as usize);
                    if let Some(count) = place.and_then(|rows| rows.get_mut(told.run.row as usize)) {
                        *count += 1;
                    }
                }
                _ => complete += 1,
            });
            (complete, caught, places)
        };
        let (complete, caught, _) = ends(small_sizes);
        assert!(complete > 5_000 && caught > 5_000, "{complete} {caught}");
        let (complete, caught, places) = ends(caught_everywhere);
        assert!(complete == 0 && caught > 2_000, "{complete} {caught}");
        assert!(places.iter().flatten().all(|&count| count > 5), "{places:?}");
        let (complete, caught, _) = ends(hidden);
        assert!(complete > 1_000 && caught > 500, "{complete} {caught}");
    }

    #[test]
    fn the_largest_runs_get_eight_vectors_and_no_ninth() {
        let mut refused = 0;
        let mut visit = |case: &Case| {
            let told = case.stated.expect("every call is stated");
            if let Call::Add { run, .. } = case.call {
                if told.answer.number == 22 && run.caught == 0 && run.vector < 8 {
                    assert_eq!(run.setting.vectors, 8);
                    refused += 1;
                }
            }
        };
        largest(&mut Visitor(&mut visit));
        let mut ends = Vec::new();
        visit_ends(largest, &mut |told| {
            ends.push((told.mark, told.run.setting.vectors, told.answer.place))
        });
        assert_eq!(
            ends,
            [(Mark::Complete, 8, 0), (Mark::Caught, 8, 7), (Mark::Caught, 8, 3)]
        );
        assert!(refused > 90, "{refused}");
    }
}
