//! True tickets, which every well-formed list is accepted with, and which the
//! full check accepts.

use super::craft::{claims_case, fitting, full_by_sums, list, sizes, true_parts, unless_zeros, LARGEST, P};
use crate::cases::{accepted, accepted_in_full, TicketCase, Visitor};
use crate::generator::Generator;
use crate::setting::{Form, Setting};

/// Lists of each kind: random, one number over and over, one number that is not
/// 0 in each vector. That of zeros is not well formed, and the random one not always.
pub fn lists(generator: &mut Generator, setting: &Setting) -> Vec<Vec<u32>> {
    let [_, _, columns, vectors] = sizes(setting);
    let count = vectors * columns;
    let mut lists = vec![
        list(generator, setting),
        vec![0; count],
        vec![1; count],
        vec![P - 1; count],
    ];
    let mut units = vec![0; count];
    for vector in units.chunks_mut(columns) {
        vector[generator.below(columns)] = 1;
    }
    lists.push(units);
    lists
}

/// Every well-formed list is accepted with the ticket, and the full check accepts
/// it.
fn visit_true(visit: &mut Visitor, generator: &mut Generator, setting: &Setting) {
    let mut case = TicketCase {
        what: "true",
        setting: *setting,
        ticket: true_parts(generator, setting).ticket(setting),
        list: Vec::new(),
        expected: None,
    };
    for list in lists(generator, setting) {
        case.expected = Some(unless_zeros(setting, &list, accepted(setting)));
        case.list = list;
        visit.challenge(&case);
    }
    visit.full("true", setting, &case.ticket, Some(accepted_in_full(setting)));
}

/// Sizes at, next to and between the limits, up to the largest with every number
/// of vectors.
pub fn sizes_and_largest() -> impl Iterator<Item = [u32; 4]> {
    let outer = [1, 2, 3, 5, 8, 16, 31, 32];
    let inner = [1, 2, 3, 7, 8, 16, 33, 63, 64];
    let mixed = outer.into_iter().flat_map(move |rows| {
        inner
            .into_iter()
            .flat_map(move |inner| outer.map(move |columns| [rows, inner, columns]))
    });
    let vectors = (1..=8).cycle();
    let largest = (1..=8).map(|vectors| [LARGEST.rows, LARGEST.inner, LARGEST.columns, vectors]);
    mixed
        .zip(vectors)
        .map(|([rows, inner, columns], vectors)| [rows, inner, columns, vectors])
        .chain(largest)
}

pub fn many_sizes(visit: &mut Visitor, form: Form) {
    let mut generator = Generator::new(101);
    for sizes in sizes_and_largest() {
        let setting = fitting(&mut generator, form, sizes);
        visit_true(visit, &mut generator, &setting);
    }
}

/// Every size up to 4 with every number of vectors.
pub fn small_sizes(visit: &mut Visitor, form: Form) {
    let mut generator = Generator::new(102);
    for index in 0..4_u32.pow(3) * 8 {
        let sizes = [
            index / 8 % 4 + 1,
            index / 32 % 4 + 1,
            index / 128 % 4 + 1,
            index % 8 + 1,
        ];
        let setting = fitting(&mut generator, form, sizes);
        let parts = true_parts(&mut generator, &setting);
        for list in lists(&mut generator, &setting) {
            visit.challenge(&claims_case("true", &setting, &parts, &list));
        }
        let expected = full_by_sums(&setting, &parts);
        visit.full("true", &setting, &parts.ticket(&setting), Some(expected));
    }
}
