//! Tickets whose claims are off by one number in every column of a row. A vector
//! whose numbers add up to 0 modulo p accepts them, unless it is of zeros, and every
//! other catches them.

use super::{fitting, largest_rounding};
use crate::cases::{accepted, accepted_in_full, caught, refused, untrue, TicketCase, Visitor};
use crate::families::craft::{list, sizes, sizes_up_to, true_parts, unless_zeros, P};
use crate::families::settings::refusal;
use crate::families::writer::visit_written;
use crate::generator::Generator;
use crate::parts::Parts;
use crate::setting::{Form, Setting};

/// Small sizes, and now and then any.
fn some_sizes(generator: &mut Generator, round: usize) -> [u32; 4] {
    let most = if round.is_multiple_of(100) {
        [32, 64, 32, 8]
    } else {
        [4, 5, 5, 8]
    };
    sizes_up_to(generator, most)
}

/// Tickets written with one o and read with another: every claim is off by what one
/// is more than the other.
pub fn other_roundings(visit: &mut Visitor, form: Form) {
    let mut generator = Generator::new(1011);
    let mut round = 0;
    while round < 1_500 {
        let sizes = some_sizes(&mut generator, round);
        let written = fitting(&mut generator, form, sizes);
        let largest = largest_rounding(&written);
        if largest == 0 {
            continue;
        }
        round += 1;
        let parts = true_parts(&mut generator, &written);
        visit_written(visit, &mut generator, "with its own o", &written, &parts);
        let near = [written.rounding.wrapping_sub(1), written.rounding + 1, 0, largest];
        let other = match generator.below(4) {
            0 => generator.between(0, i64::from(largest)) as u32,
            // Up to α, so that some do not fit and others are refused by 19.
            1 => generator.between(0, i64::from(written.scale)) as u32,
            _ => generator.choose(&near),
        };
        let read = Setting {
            rounding: other,
            ..written
        };
        let shift = i64::from(written.rounding) - i64::from(other);
        visit_shifted(visit, &mut generator, &read, &parts, &vec![shift; sizes[0] as usize]);
    }
}

/// Rows of a true ticket shifted each by a number of its own, or by 0, as far as the
/// quotients' range goes.
pub fn rows(visit: &mut Visitor, form: Form) {
    let mut generator = Generator::new(1012);
    for round in 0..2_000 {
        let sizes_of_ticket = some_sizes(&mut generator, round);
        let setting = fitting(&mut generator, form, sizes_of_ticket);
        let mut parts = true_parts(&mut generator, &setting);
        let [rows, _, columns, _] = sizes(&setting);
        let shifts: Vec<i64> = (0..rows)
            .map(|i| shift_row(&mut generator, &setting, &mut parts, i * columns..(i + 1) * columns))
            .collect();
        visit_shifted(visit, &mut generator, &setting, &parts, &shifts);
    }
}

/// Adds a number to αq + r at each of these places, and says which.
fn shift_row(generator: &mut Generator, setting: &Setting, parts: &mut Parts, places: std::ops::Range<usize>) -> i64 {
    let alpha = i64::from(setting.scale);
    let end = alpha << (setting.width - 1);
    let claim = |parts: &Parts, place: usize| alpha * parts.quotients[place] + parts.remainders[place];
    // All stay from -2^(v-1)·α to 2^(v-1)·α - 1.
    let least = places.clone().map(|place| -end - claim(parts, place)).max();
    let greatest = places.clone().map(|place| end - 1 - claim(parts, place)).min();
    let (least, greatest) = (least.expect("a column"), greatest.expect("a column"));
    let shift = match generator.below(4) {
        0 => 0,
        1 => generator.between(least.max(-2), greatest.min(2)),
        2 => generator.choose(&[least, greatest]),
        _ => generator.between(least, greatest),
    };
    for place in places {
        let shifted = claim(parts, place) + shift;
        parts.quotients[place] = shifted.div_euclid(alpha);
        parts.remainders[place] = shifted.rem_euclid(alpha);
    }
    shift
}

/// A list of random vectors, of which the first ones add up to 0 modulo p.
fn balanced(generator: &mut Generator, setting: &Setting, count: usize) -> Vec<u32> {
    let mut list = list(generator, setting);
    for vector in list.chunks_mut(setting.columns as usize).take(count) {
        let last = vector.len() - 1;
        vector[last] = (P - total(&vector[..last])) % P;
    }
    list
}

/// The sum modulo p.
fn total(numbers: &[u32]) -> u32 {
    let sum: u64 = numbers.iter().copied().map(u64::from).sum();
    (sum % u64::from(P)) as u32
}

/// Both checks of a ticket within the ranges whose claims are off by these numbers,
/// row by row, with lists of which no vector, some or all add up to 0. No shift but 0
/// is 0 modulo p.
fn visit_shifted(visit: &mut Visitor, generator: &mut Generator, setting: &Setting, parts: &Parts, shifts: &[i64]) {
    let what = "all claims of a row off by one number";
    let [_, _, columns, vectors] = sizes(setting);
    let refusal = refusal(setting);
    let row = shifts.iter().position(|&shift| shift != 0);
    let in_full = match row {
        Some(i) => untrue(setting, i * columns),
        None => accepted_in_full(setting),
    };
    let ticket = parts.ticket(setting);
    visit.full(what, setting, &ticket, Some(refusal.unwrap_or(in_full)));
    for count in [0, generator.below(vectors + 1), vectors] {
        let list = balanced(generator, setting, count);
        let unbalanced = list.chunks(columns).position(|vector| total(vector) != 0);
        let by_list = match (unbalanced, row) {
            (Some(t), Some(i)) => caught(setting, t, i),
            _ => accepted(setting),
        };
        let by_list = unless_zeros(setting, &list, by_list);
        visit.challenge(&TicketCase {
            what,
            setting: *setting,
            ticket: ticket.clone(),
            list,
            expected: Some(refusal.unwrap_or(by_list)),
        });
    }
    // A list that is refused decides before the claims do.
    visit.challenge(&TicketCase {
        what: "off by one number, and a list with p",
        setting: *setting,
        ticket,
        list: vec![P; vectors * columns],
        expected: Some(refusal.unwrap_or(refused(11, 0))),
    });
}

#[cfg(test)]
mod tests {
    use super::*;
    use crate::cases::{Call, Case, Cases};

    /// The families would be of no use without the cases that they are made for.
    #[test]
    fn false_tickets_are_accepted_and_caught_early_and_late() {
        let families: [Cases; 2] = [other_roundings, rows];
        for (index, family) in families.into_iter().enumerate() {
            for form in [Form::Plain, Form::Bias] {
                let mut false_one = false;
                let [mut by_cancelling, mut early, mut late, mut refusals] = [0; 4];
                let mut visit = |case: &Case| {
                    let answer = case.expected.as_ref().expect("every case is stated").answer;
                    match case.call {
                        Call::Full { .. } => false_one = answer.number == 16,
                        Call::Writer { .. } => false_one = false,
                        Call::Challenge { .. } => match (answer.number, answer.place) {
                            (0, _) => by_cancelling += u32::from(false_one),
                            (12, 0) => early += 1,
                            (12, _) => late += 1,
                            (3 | 19, _) => refusals += 1,
                            _ => (),
                        },
                    }
                };
                family(&mut Visitor(&mut visit), form);
                assert!(
                    by_cancelling > 1_000 && early > 1_000 && late > 300,
                    "{by_cancelling} {early} {late}"
                );
                assert!(refusals > 100 || index == 1, "{refusals}");
            }
        }
    }

    #[test]
    fn balanced_vectors_add_up_to_0() {
        let setting = Setting::from([1, 1, 3, 8, 2, 1, 1]);
        let list = balanced(&mut Generator::new(1), &setting, 5);
        let totals: Vec<u32> = list.chunks(3).map(total).collect();
        assert_eq!(totals[..5], [0; 5]);
        assert!(totals[5..].iter().all(|&total| total != 0));
    }
}
