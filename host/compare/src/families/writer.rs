//! The families of cases for the writer, and the pieces that they are made of.

pub mod fitting;
pub mod operands;
pub mod outputs;
pub mod random;
pub mod refusals;

use apart::examples::{A, B, BIAS};

use super::craft::{k, list, sizes, unless_zeros};
use crate::cases::{accepted, accepted_in_full, TicketCase, Visitor, WriterCase, Writing};
use crate::generator::Generator;
use crate::parts::Parts;
use crate::setting::{Form, Setting};

/// The operands of these parts, which are of at most 32 bits, and an output that
/// holds these bytes. The parts are those of a true ticket, which is written.
pub fn writer_case(what: &'static str, setting: &Setting, parts: &Parts, output: Vec<u8>) -> WriterCase {
    let operand = |entries: &[i64]| entries.iter().map(|&entry| entry as i32).collect();
    WriterCase {
        what,
        setting: *setting,
        a: operand(&parts.a),
        b: operand(&parts.b),
        bias: operand(&parts.bias),
        output,
        expected: Some(Writing::Ticket(parts.ticket(setting))),
    }
}

/// The operands of case b, or the same with a bias, and an output longer than the
/// ticket by `past` bytes.
pub fn writer_case_b(form: Form, past: usize) -> WriterCase {
    let setting = k(form);
    let parts = Parts::true_ones(&setting, &A, &B, &BIAS);
    let output = Filling::Inverse.output(&parts.ticket(&setting), past);
    writer_case("case b", &setting, &parts, output)
}

/// What an output holds before a ticket is written into it.
#[derive(Clone, Copy, Debug)]
enum Filling {
    Byte(u8),
    /// A byte that goes with the index.
    Index,
    /// Within the ticket's length no byte as the ticket has it, and past it as
    /// above.
    Inverse,
}

impl Filling {
    const ALL: [Filling; 6] = [
        Filling::Inverse,
        Filling::Index,
        Filling::Byte(0x00),
        Filling::Byte(0xFF),
        Filling::Byte(0xA5),
        Filling::Byte(0x01),
    ];

    /// An output for this ticket, longer than it by `past` bytes.
    fn output(self, ticket: &[u8], past: usize) -> Vec<u8> {
        let by_index = |index: usize| (7 * index + 3) as u8;
        (0..ticket.len() + past)
            .map(|index| match self {
                Filling::Byte(byte) => byte,
                Filling::Index => by_index(index),
                Filling::Inverse => ticket.get(index).map_or(by_index(index), |byte| !byte),
            })
            .collect()
    }
}

/// An entry, by its row, its column and the bound.
type Pattern = fn(usize, usize, i64) -> i64;

pub const PATTERNS: [Pattern; 9] = [
    |_, _, bound| bound,
    |_, _, bound| -bound,
    |_, _, _| 0,
    // All equal.
    |_, _, bound| bound.min(1),
    |_, _, bound| -(bound + 1) / 2,
    // Alternating.
    |row, column, bound| if (row + column) % 2 == 0 { bound } else { -bound },
    // Rows of one sign, and columns.
    |row, _, bound| if row % 2 == 0 { bound } else { -bound },
    |_, column, bound| if column % 2 == 0 { -bound } else { bound },
    // The sign changes in every row once.
    |row, column, bound| if column <= row { -bound } else { bound },
];

/// The parts of the true ticket for operands of these patterns. The bias has that
/// of B, so that the largest sums have the largest bias.
pub fn of_patterns(setting: &Setting, in_a: Pattern, in_b: Pattern) -> Parts {
    let [rows, inner, columns, _] = sizes(setting);
    let matrix = |rows: usize, columns: usize, bound: u32, pattern: Pattern| -> Vec<i64> {
        (0..rows * columns)
            .map(|index| pattern(index / columns, index % columns, i64::from(bound)))
            .collect()
    };
    let a = matrix(rows, inner, setting.bound, in_a);
    let b = matrix(inner, columns, setting.bound, in_b);
    let bias = matrix(rows, columns, setting.greatest_bias(), in_b);
    Parts::true_ones(setting, &a, &b, &bias)
}

/// Writes the true ticket of these parts, into an output of its length or a
/// longer one. The ticket then goes through the full check and, with a random
/// list, through the challenge check.
pub fn visit_written(
    visit: &mut Visitor,
    generator: &mut Generator,
    what: &'static str,
    setting: &Setting,
    parts: &Parts,
) {
    let lists = vec![list(generator, setting)];
    visit_written_with_lists(visit, generator, what, setting, parts, lists);
}

/// The same with each of these lists, which are of the right length and of numbers
/// below p.
pub fn visit_written_with_lists(
    visit: &mut Visitor,
    generator: &mut Generator,
    what: &'static str,
    setting: &Setting,
    parts: &Parts,
    lists: Vec<Vec<u32>>,
) {
    let ticket = parts.ticket(setting);
    let past = generator.choose(&[0, 0, 1, 8, 33]);
    let output = generator.choose(&Filling::ALL).output(&ticket, past);
    visit.write(&writer_case(what, setting, parts, output));
    visit.full(what, setting, &ticket, Some(accepted_in_full(setting)));
    let mut case = TicketCase {
        what,
        setting: *setting,
        ticket,
        list: Vec::new(),
        expected: None,
    };
    for list in lists {
        case.expected = Some(unless_zeros(setting, &list, accepted(setting)));
        case.list = list;
        visit.challenge(&case);
    }
}

#[cfg(test)]
mod tests {
    use apart::examples::{BIAS_TICKET, TICKET};

    use super::*;

    /// A writer that leaves a byte out would go unnoticed with an output that
    /// holds it already.
    #[test]
    fn no_byte_of_the_inverse_is_right() {
        for (form, ticket) in [(Form::Plain, TICKET.as_slice()), (Form::Bias, &BIAS_TICKET)] {
            let case = writer_case_b(form, 5);
            assert_eq!(case.output.len(), ticket.len() + 5);
            assert!(case.output.iter().zip(ticket).all(|(before, after)| before != after));
        }
    }

    #[test]
    fn every_pattern_is_within_the_bound() {
        for bound in [0, 1, 2, 8, 32_767, 1 << 30] {
            for pattern in PATTERNS {
                for place in 0..100 {
                    assert!(pattern(place / 10, place % 10, bound).abs() <= bound);
                }
            }
        }
    }
}
