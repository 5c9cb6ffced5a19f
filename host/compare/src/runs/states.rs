//! States made by hand, under steps and additions of every kind.

use apart::Run;

use super::craft::{any_number, settings, state, Handed};
use super::Visitor;
use crate::families::craft::{list_without_zero, sizes, true_parts, well_formed_list, P};
use crate::families::rounding::fitting;
use crate::generator::Generator;
use crate::setting::Form;

/// Numbers around the end of a count, and where a byte, a signed number or all numbers end.
fn around(count: u32) -> Vec<u32> {
    let mut numbers = vec![0, 1, count - 1, count, count + 1, 256, 1 << 31, u32::MAX];
    numbers.sort_unstable();
    numbers.dedup();
    numbers
}

/// t and row in and beyond their ends, caught or not.
pub fn places(visit: &mut Visitor) {
    let mut generator = Generator::new(1321);
    for setting in settings(&mut generator) {
        let parts = true_parts(&mut generator, &setting);
        let handed = Handed::of(&mut generator, &setting, &parts);
        let list = list_without_zero(&mut generator, &setting);
        for t in around(setting.vectors) {
            for row in around(setting.rows) {
                let run = state(&mut generator, &setting, &parts, &list, [t, row]);
                for caught in [0, 1, 2, 1 << 31, u32::MAX] {
                    handed.visit(visit, &Run { caught, ..run });
                }
            }
        }
    }
}

/// Lengths of the list from 0 to the last number, with different numbers past it.
pub fn list_lengths(visit: &mut Visitor) {
    let mut generator = Generator::new(1322);
    for setting in settings(&mut generator) {
        let [_, _, columns, vectors] = sizes(&setting);
        let parts = true_parts(&mut generator, &setting);
        let handed = Handed::of(&mut generator, &setting, &parts);
        let list = list_without_zero(&mut generator, &setting);
        let right = (vectors * columns) as u32;
        let mut lengths = around(right);
        lengths.extend([right - setting.columns, right + setting.columns, 255, 257, 65_536]);
        // What would be right if the upper bits were dropped.
        lengths.extend([8, 16, 24, 31].map(|bits| right.wrapping_add(1 << bits)));
        for past in [0, 1, P, u32::MAX] {
            let mut run = state(&mut generator, &setting, &parts, &list, [0, 0]);
            run.list[list.len()..].fill(past);
            for &list_length in &lengths {
                handed.visit(visit, &Run { list_length, ..run });
            }
        }
    }
}

/// Numbers of every kind at every index, in the list and past it; then zeros, in every
/// vector.
pub fn list_numbers(visit: &mut Visitor) {
    let mut generator = Generator::new(1323);
    for setting in settings(&mut generator) {
        let columns = setting.columns as usize;
        let parts = true_parts(&mut generator, &setting);
        let handed = Handed::of(&mut generator, &setting, &parts);
        let (_, ticket) = &handed.tickets[0];
        let (_, vector) = &handed.vectors[0];
        let list = well_formed_list(&mut generator, &setting);
        let run = state(&mut generator, &setting, &parts, &list, [0, 0]);
        for index in 0..run.list.len() {
            for number in [0, 1, P - 1, P, P + 1, 2 * P, u32::MAX] {
                let mut run = run;
                run.list[index] = number;
                visit.step("one number replaced", &run, ticket);
                visit.add("one number replaced", &run, vector);
            }
        }
        for start in (0..list.len()).step_by(columns) {
            let mut run = run;
            run.list[start..start + columns].fill(0);
            handed.visit(visit, &run);
        }
    }
}

/// Numbers of every kind in u, one of them, in every row; and any numbers in all of them.
pub fn products(visit: &mut Visitor) {
    let mut generator = Generator::new(1324);
    for sizes_of_run in [[2, 2, 2, 2], [3, 1, 1, 1], [2, 5, 3, 2], [2, 63, 1, 1], [2, 64, 2, 1]] {
        let setting = fitting(&mut generator, Form::Plain, sizes_of_run);
        let parts = true_parts(&mut generator, &setting);
        let handed = Handed::of(&mut generator, &setting, &parts);
        let list = list_without_zero(&mut generator, &setting);
        for t in 0..setting.vectors {
            for row in 0..setting.rows {
                let right = state(&mut generator, &setting, &parts, &list, [t, row]);
                visit_products(visit, &mut generator, &handed, &right);
            }
        }
    }
}

fn visit_products(visit: &mut Visitor, generator: &mut Generator, handed: &Handed, right: &Run) {
    let (_, ticket) = &handed.tickets[0];
    for index in 0..right.u.len() {
        // The same modulo p.
        let same = right.u[index].checked_add(P);
        let numbers = [0, 1, P - 1, P, P + 1, 2 * P - 1, 2 * P, u32::MAX];
        for number in numbers.into_iter().chain(same) {
            let mut run = *right;
            run.u[index] = number;
            visit.step("one number of u", &run, ticket);
        }
    }
    let mut beyond = *right;
    beyond.u = right.u.map(|number| number.checked_add(P).unwrap_or(number));
    handed.visit(visit, &beyond);
    let mut any = *right;
    any.u = any.u.map(|_| any_number(generator));
    handed.visit(visit, &any);
}
