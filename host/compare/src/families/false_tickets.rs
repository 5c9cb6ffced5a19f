//! False tickets within the ranges: accepted with lists made for it, caught by
//! the others, early or late.

use super::craft::{
    claims_case, differences, falsify, fitting, full_by_sums, list, list_without_zero, sizes, sizes_up_to, true_parts,
    unless_zeros, visit_claims, P,
};
use crate::cases::{accepted, caught, untrue, TicketCase, Visitor};
use crate::generator::Generator;
use crate::parts::Parts;
use crate::setting::{Form, Setting};

const SMALL: [u32; 4] = [5, 5, 5, 8];

/// A ticket within the ranges, mostly a false one, and a list that is accepted with
/// it, if no vector is of zeros.
pub type Hidden = (Setting, Parts, Vec<u32>);

/// Visits a case that is accepted, if no vector is of zeros, and the same with one
/// number of the list changed, which mostly is not.
pub fn visit_accepted(visit: &mut Visitor, generator: &mut Generator, setting: &Setting, parts: &Parts, list: &[u32]) {
    visit.challenge(&TicketCase {
        what: "false, the list made for it",
        setting: *setting,
        ticket: parts.ticket(setting),
        list: list.to_vec(),
        expected: Some(unless_zeros(setting, list, accepted(setting))),
    });
    let mut other = list.to_vec();
    let index = generator.below(other.len());
    other[index] = (other[index] + 1) % P;
    visit_claims(visit, "false, one number changed", setting, parts, &other);
}

/// Some columns are false, in some rows, and X(j) is 0 in each of these. Where all
/// columns are false, as where there is but one, every vector is of zeros.
pub fn zeros(visit: &mut Visitor, form: Form) {
    let mut generator = Generator::new(501);
    for round in 0..10_000 {
        let most = if round % 100 == 0 { [32, 64, 32, 8] } else { SMALL };
        let (setting, parts, list) = zeros_up_to(&mut generator, form, most);
        visit_accepted(visit, &mut generator, &setting, &parts, &list);
    }
}

fn zeros_up_to(generator: &mut Generator, form: Form, most: [u32; 4]) -> Hidden {
    let sizes_of_ticket = sizes_up_to(generator, most);
    let setting = fitting(generator, form, sizes_of_ticket);
    let [rows, _, columns, _] = sizes(&setting);
    let mut parts = true_parts(generator, &setting);
    let mut list = list(generator, &setting);
    // From one false column up to all of them.
    for _ in 0..=generator.below(columns) {
        let j = generator.below(columns);
        for _ in 0..=generator.below(rows) {
            let i = generator.below(rows);
            falsify(generator, &setting, &mut parts, i, j);
        }
        for vector in list.chunks_mut(columns) {
            vector[j] = 0;
        }
    }
    (setting, parts, list)
}

fn residue(x: i128) -> u64 {
    x.rem_euclid(apart::P) as u64
}

fn multiply(x: u64, y: u64) -> u64 {
    x * y % u64::from(P)
}

/// The inverse modulo p by Fermat: x^(p - 2).
fn inverse(x: u64) -> u64 {
    let mut power = 1;
    for bit in (0..31).rev() {
        power = multiply(power, power);
        if (P - 2) >> bit & 1 == 1 {
            power = multiply(power, x);
        }
    }
    power
}

/// Differences that cancel: in one row over several columns; in several rows by
/// the same step up in one column and down in another, so that equal numbers
/// cancel them; in two rows over three columns, whose vector product is at right
/// angles to both.
pub fn cancelling(visit: &mut Visitor, form: Form) {
    let mut generator = Generator::new(502);
    for _ in 0..5_000 {
        for hide in [one_row, same_steps, two_rows] {
            let (setting, parts, list) = hide(&mut generator, form);
            visit_accepted(visit, &mut generator, &setting, &parts, &list);
        }
    }
}

/// All ways of hiding what is false from a list, in small tickets.
pub const HIDE: [fn(&mut Generator, Form) -> Hidden; 4] = [one_row, same_steps, two_rows, |generator, form| {
    zeros_up_to(generator, form, SMALL)
}];

/// A small setting of at least two columns, and the parts of a true ticket.
fn two_columns_or_more(generator: &mut Generator, form: Form) -> (Setting, Parts) {
    let mut sizes_of_ticket = sizes_up_to(generator, SMALL);
    sizes_of_ticket[2] += 1;
    let setting = fitting(generator, form, sizes_of_ticket);
    let parts = true_parts(generator, &setting);
    (setting, parts)
}

fn one_row(generator: &mut Generator, form: Form) -> Hidden {
    let (setting, mut parts) = two_columns_or_more(generator, form);
    let [rows, _, columns, _] = sizes(&setting);
    let i = generator.below(rows);
    for j in 0..columns {
        // The last column is always false, others mostly.
        if j == columns - 1 || !generator.once_in(3) {
            falsify(generator, &setting, &mut parts, i, j);
        }
    }
    let differences = differences(&setting, &parts);
    let row = &differences[i * columns..(i + 1) * columns];
    let mut list = list(generator, &setting);
    for x in list.chunks_mut(columns) {
        let others: i128 = (0..columns - 1).map(|j| row[j] * i128::from(x[j])).sum();
        let last = inverse(residue(row[columns - 1]));
        x[columns - 1] = multiply(residue(-others), last) as u32;
    }
    (setting, parts, list)
}

fn same_steps(generator: &mut Generator, form: Form) -> Hidden {
    let (setting, mut parts) = two_columns_or_more(generator, form);
    let [rows, _, columns, _] = sizes(&setting);
    let up = generator.below(columns);
    let down = (up + 1 + generator.below(columns - 1)) % columns;
    let half = 1 << (setting.width - 1);
    for i in 0..rows {
        let (up, down) = (i * columns + up, i * columns + down);
        if parts.quotients[up] + 1 < half && parts.quotients[down] > -half {
            parts.quotients[up] += 1;
            parts.quotients[down] -= 1;
        }
    }
    let mut list = list_without_zero(generator, &setting);
    for x in list.chunks_mut(columns) {
        x[down] = x[up];
    }
    (setting, parts, list)
}

fn two_rows(generator: &mut Generator, form: Form) -> Hidden {
    let [_, inner, _, vectors] = sizes_up_to(generator, SMALL);
    let setting = fitting(generator, form, [2, inner, 3, vectors]);
    let mut parts = true_parts(generator, &setting);
    for i in 0..2 {
        for j in 0..3 {
            falsify(generator, &setting, &mut parts, i, j);
        }
    }
    let d = differences(&setting, &parts);
    let mut list = list_without_zero(generator, &setting);
    for x in list.chunks_mut(3) {
        let times = u64::from(x[0]);
        for (j, number) in x.iter_mut().enumerate() {
            let (k, l) = ((j + 1) % 3, (j + 2) % 3);
            *number = multiply(residue(d[k] * d[3 + l] - d[l] * d[3 + k]), times) as u32;
        }
    }
    (setting, parts, list)
}

/// False in one row only, and every vector before t is 0 in its false columns:
/// caught in vector t and that row, and in no other. With one column these vectors are
/// of zeros, and refused.
pub fn caught_late(visit: &mut Visitor, form: Form) {
    let mut generator = Generator::new(503);
    for round in 0..24 {
        let [rows, inner, columns, _] = match round {
            0 => [32, 64, 32, 8],
            1 => [32, 1, 1, 8],
            2 => [1, 1, 1, 8],
            _ => sizes_up_to(&mut generator, [6, 6, 6, 8]),
        };
        for vectors in 1..=8 {
            let setting = fitting(&mut generator, form, [rows, inner, columns, vectors]);
            let right = true_parts(&mut generator, &setting);
            let [rows, _, columns, vectors] = sizes(&setting);
            for t in 0..vectors {
                for i in 0..rows {
                    // Only the ends and some in between of many rows.
                    if rows > 8 && ![0, 1, rows / 2, rows - 2, rows - 1].contains(&i) {
                        continue;
                    }
                    let j = generator.below(columns);
                    let mut parts = right.clone();
                    falsify(&mut generator, &setting, &mut parts, i, j);
                    let mut list = list_without_zero(&mut generator, &setting);
                    for vector in list.chunks_mut(columns).take(t) {
                        vector[j] = 0;
                    }
                    let case = TicketCase {
                        what: "caught in a later vector or row",
                        setting,
                        ticket: parts.ticket(&setting),
                        expected: Some(unless_zeros(&setting, &list, caught(&setting, t, i))),
                        list,
                    };
                    visit.challenge(&case);
                    let in_full = untrue(&setting, i * columns + j);
                    visit.full(case.what, &setting, &case.ticket, Some(in_full));
                }
            }
        }
    }
}

/// One and two untrue claims under two vectors of two numbers, each number of the
/// list being 0, 1, 2, p - 2 or p - 1.
pub fn small_lists(visit: &mut Visitor, form: Form) {
    let mut generator = Generator::new(504);
    let numbers = [0, 1, 2, P - 2, P - 1];
    for _ in 0..12 {
        let setting = fitting(&mut generator, form, [2, 3, 2, 2]);
        let mut parts = true_parts(&mut generator, &setting);
        for _ in 0..=generator.below(2) {
            let (i, j) = (generator.below(2), generator.below(2));
            falsify(&mut generator, &setting, &mut parts, i, j);
        }
        for pick in 0..numbers.len().pow(4) {
            let list = [1, 5, 25, 125].map(|unit| numbers[pick / unit % 5]);
            visit.challenge(&claims_case("false or true again", &setting, &parts, &list));
        }
        let expected = full_by_sums(&setting, &parts);
        visit.full("false or true again", &setting, &parts.ticket(&setting), Some(expected));
    }
}
