//! What bias tickets have beside the families of both forms: examples worked out
//! by hand, each number at the edge of fitting, errors of the bias alone, and
//! tickets handed to the calls of the other form.

use apart::examples::{BIAS_TICKET, TICKET};
use apart::make::residue;
use apart::Answer;

use super::craft::{
    self, falsify_bias, fields, fitting, list_without_zero, set_value, sizes, sizes_up_to, true_parts, unless_zeros,
    zeros, Field, K, K_WITH_BIAS, P,
};
use super::false_tickets::visit_accepted;
use super::lengths::small_settings;
use super::settings::{refusal, visit_greatest_sums};
use super::true_tickets::sizes_and_largest;
use super::writer::writer_case_b;
use crate::cases::{accepted, accepted_in_full, caught, refused, untrue, TicketCase, Visitor, WriterCase, Writing};
use crate::generator::Generator;
use crate::setting::{Form, Setting};

/// One more than the limit of W. No setting fits with W from 1073676290 on.
const BEYOND: u32 = (1 << 30) + 1;

fn with_bound(bias_bound: u32) -> Setting {
    Setting {
        bias_bound: Some(bias_bound),
        ..K
    }
}

fn case_c() -> TicketCase {
    craft::case_c(Form::Bias)
}

/// The true ticket with another value in one record.
fn with_value(record: usize, value: u32) -> Vec<u8> {
    let mut ticket = BIAS_TICKET.to_vec();
    set_value(&mut ticket, record, value);
    ticket
}

/// Examples under K with W = 23. A and B are those of the marked examples, the
/// bias is (-4, 23), (-23, 5), so S + c = -21, 57, 0, 3.
pub fn examples(visit: &mut Visitor, _: Form) {
    visit.challenge(&TicketCase {
        expected: Some(Answer::from([0, 0, 0, 16])),
        ticket: BIAS_TICKET.to_vec(),
        ..case_c()
    });
    visit.full("true", &K_WITH_BIAS, &BIAS_TICKET, Some(Answer::from([0, 0, 0, 8])));
    for past in [0, 1, 100] {
        visit.write(&WriterCase {
            expected: Some(Writing::Ticket(BIAS_TICKET.to_vec())),
            ..writer_case_b(Form::Bias, past)
        });
    }
    refused_settings(visit);
    refused_tickets(visit);
    refused_operands(visit);
    untrue_claims(visit);
}

/// The refusals 1, 2, 17 and 3, by all three calls.
fn refused_settings(visit: &mut Visitor) {
    let beyond = with_bound(BEYOND);
    for (what, setting, number) in [
        ("n = 33", Setting { columns: 33, ..beyond }, 1),
        ("α = 1", Setting { scale: 1, ..beyond }, 2),
        ("W = 2^30 + 1", beyond, 17),
        ("W = 2^30 + 1, v = 4", Setting { width: 4, ..beyond }, 17),
        ("W = 2^32 - 1", with_bound(u32::MAX), 17),
        ("W = 2^30", with_bound(BEYOND - 1), 3),
        ("W = 24", with_bound(24), 3),
        (
            "v = 4",
            Setting {
                width: 4,
                ..K_WITH_BIAS
            },
            3,
        ),
    ] {
        visit.checks(&TicketCase {
            what,
            setting,
            expected: Some(refused(number, 0)),
            ..case_c()
        });
        visit.write(&WriterCase {
            what,
            setting,
            expected: Some(Writing::Refusal(refused(number, 0))),
            ..writer_case_b(Form::Bias, 0)
        });
    }
}

/// The refusals of a ticket and of a list.
fn refused_tickets(visit: &mut Visitor) {
    let mut kind_of_quotients = BIAS_TICKET;
    kind_of_quotients[64] = 3;
    for (what, ticket, number, record) in [
        ("0 bytes", Vec::new(), 4, 0),
        ("a plain ticket", TICKET.to_vec(), 4, 0),
        ("record 8 begins 03", kind_of_quotients.to_vec(), 5, 8),
        ("p in record 8", with_value(8, P), 6, 8),
        ("entry -9 in record 0", with_value(0, residue(-9)), 7, 0),
        ("24 in record 8", with_value(8, 24), 18, 8),
        ("-24 in record 11", with_value(11, residue(-24)), 18, 11),
        ("quotient 16 in record 12", with_value(12, 16), 8, 12),
        ("10 in record 16", with_value(16, 10), 9, 16),
    ] {
        visit.checks(&TicketCase {
            what,
            ticket,
            expected: Some(refused(number, record)),
            ..case_c()
        });
    }
    for (what, list, number, index) in [("3 numbers", vec![1, 2, 3], 10, 0), ("p at index 1", vec![1, P], 11, 1)] {
        visit.challenge(&TicketCase {
            what,
            list,
            expected: Some(refused(number, index)),
            ..case_c()
        });
    }
}

/// The refusals of the writer, 13, 14, 18 and 15.
fn refused_operands(visit: &mut Visitor) {
    let case = |what, number, place| WriterCase {
        what,
        expected: Some(Writing::Refusal(refused(number, place))),
        ..writer_case_b(Form::Bias, 0)
    };
    for case in [
        WriterCase {
            a: vec![3, -2, 5],
            ..case("A of 3", 13, 0)
        },
        WriterCase {
            b: Vec::new(),
            ..case("no B", 13, 1)
        },
        WriterCase {
            bias: vec![0; 5],
            ..case("a bias of 5", 13, 2)
        },
        WriterCase {
            b: vec![9, 6, 7, -8],
            bias: vec![24; 4],
            ..case("9 first in B", 14, 4)
        },
        WriterCase {
            bias: vec![24, 23, -23, 5],
            ..case("24 first in the bias", 18, 8)
        },
        WriterCase {
            bias: vec![-4, 23, -23, i32::MIN],
            output: Vec::new(),
            ..case("-2^31 last in the bias, and no output", 18, 11)
        },
        WriterCase {
            output: vec![0xA5; 159],
            ..case("159 bytes", 15, 0)
        },
    ] {
        visit.write(&case);
    }
}

/// Tickets that one entry of the bias makes false.
fn untrue_claims(visit: &mut Visitor) {
    for (what, ticket, list, by_list, in_full) in [
        ("6 for 5", with_value(11, 6), [1, 2], [12, 0, 1, 16], [16, 3, 0, 8]),
        (
            "6 for 5, X = (1, 0)",
            with_value(11, 6),
            [1, 0],
            [0, 0, 0, 16],
            [16, 3, 0, 8],
        ),
        ("22 for 23", with_value(9, 22), [1, 2], [12, 0, 0, 10], [16, 1, 0, 4]),
        ("0 for -4", with_value(8, 0), [1, 2], [12, 0, 0, 10], [16, 0, 0, 2]),
        (
            "0 for -4, X = (0, 5)",
            with_value(8, 0),
            [0, 5],
            [0, 0, 0, 16],
            [16, 0, 0, 2],
        ),
    ] {
        let case = TicketCase {
            what,
            ticket,
            list: list.to_vec(),
            expected: Some(Answer::from(by_list)),
            ..case_c()
        };
        visit.challenge(&case);
        visit.full(what, &case.setting, &case.ticket, Some(Answer::from(in_full)));
    }
}

/// For settings that fit the largest m, α, T, v and W with which they still do,
/// the others being as they are, and one more.
pub fn largest_that_fit(visit: &mut Visitor, form: Form) {
    let mut generator = Generator::new(951);
    for _ in 0..1_500 {
        let [_, inner, _, _] = sizes_up_to(&mut generator, [1, 64, 1, 1]);
        let setting = fitting(&mut generator, form, [1, inner, 1, 1]);
        for (index, field) in fields(form).iter().enumerate() {
            // Rows, columns and vectors play no part.
            if ![0, 2, 3].contains(&index) {
                let largest = largest_of(field, &setting);
                visit_greatest_sums(visit, largest);
                visit_greatest_sums(visit, with_number(field, &largest, 1));
            }
        }
    }
}

/// The setting with a number raised.
fn with_number(field: &Field, setting: &Setting, more: u32) -> Setting {
    let mut setting = *setting;
    *(field.of)(&mut setting) += more;
    setting
}

/// The setting, which fits, with the largest number that fits: from there on, none
/// does.
fn largest_of(field: &Field, setting: &Setting) -> Setting {
    let mut largest = *setting;
    for bit in (0..30).rev() {
        let larger = with_number(field, &largest, 1 << bit);
        if refusal(&larger).is_none() {
            largest = larger;
        }
    }
    largest
}

/// A setting of these sizes with a bias that is not 0 alone.
fn with_some_bias(generator: &mut Generator, sizes: [u32; 4]) -> Setting {
    loop {
        let setting = fitting(generator, Form::Bias, sizes);
        if setting.greatest_bias() > 0 {
            return setting;
        }
    }
}

/// True tickets with one entry of the bias changed, in the first, a middle and the
/// last column of each row. The lists catch it in the first vector or in the last,
/// or are 0 there. Those that have a vector of zeros by that are refused.
pub fn false_through_bias(visit: &mut Visitor, _: Form) {
    let mut generator = Generator::new(952);
    let small = (0..4_u32.pow(3)).map(|index| [index % 4 + 1, index / 4 % 4 + 1, index / 16 + 1, index % 3 + 1]);
    for sizes_of_ticket in small.chain(sizes_and_largest().step_by(9)) {
        let setting = with_some_bias(&mut generator, sizes_of_ticket);
        let [rows, _, columns, _] = sizes(&setting);
        let right = true_parts(&mut generator, &setting);
        let mut of_row = vec![0, columns / 2, columns - 1];
        of_row.dedup();
        for i in 0..rows {
            for &j in &of_row {
                let mut parts = right.clone();
                falsify_bias(&mut generator, &setting, &mut parts, i * columns + j);
                visit_one_false(visit, &mut generator, &setting, &parts.ticket(&setting), [i, j]);
            }
        }
    }
}

/// A ticket that is false in one place.
fn visit_one_false(
    visit: &mut Visitor,
    generator: &mut Generator,
    setting: &Setting,
    ticket: &[u8],
    [i, j]: [usize; 2],
) {
    let what = "false through the bias alone";
    let [_, _, columns, vectors] = sizes(setting);
    let everywhere = list_without_zero(generator, setting);
    // The list with 0 in column j of the first vectors.
    let without = |count: usize| {
        let mut list = everywhere.clone();
        for vector in list.chunks_mut(columns).take(count) {
            vector[j] = 0;
        }
        list
    };
    let mut there_only = vec![0; everywhere.len()];
    there_only[j] = 1;
    for (list, expected) in [
        (without(0), caught(setting, 0, i)),
        (there_only, caught(setting, 0, i)),
        (without(vectors - 1), caught(setting, vectors - 1, i)),
        (without(vectors), accepted(setting)),
    ] {
        visit.challenge(&TicketCase {
            what,
            setting: *setting,
            ticket: ticket.to_vec(),
            expected: Some(unless_zeros(setting, &list, expected)),
            list,
        });
    }
    visit.full(what, setting, ticket, Some(untrue(setting, i * columns + j)));
}

/// Errors of the bias that cancel: in each row one entry up and another down by as
/// much, and equal numbers of the list there; and changes of the bias that the
/// claims follow, so that the ticket is true again.
pub fn cancelling(visit: &mut Visitor, _: Form) {
    let mut generator = Generator::new(953);
    for _ in 0..3_000 {
        let mut sizes_of_ticket = sizes_up_to(&mut generator, [5, 5, 4, 8]);
        sizes_of_ticket[2] += 1;
        let setting = with_some_bias(&mut generator, sizes_of_ticket);
        up_and_down(visit, &mut generator, &setting);
        true_again(visit, &mut generator, &setting);
    }
}

fn up_and_down(visit: &mut Visitor, generator: &mut Generator, setting: &Setting) {
    let [rows, _, columns, _] = sizes(setting);
    let bound = i64::from(setting.greatest_bias());
    let mut parts = true_parts(generator, setting);
    let up = generator.below(columns);
    let down = (up + 1 + generator.below(columns - 1)) % columns;
    for i in 0..rows {
        let (up, down) = (i * columns + up, i * columns + down);
        let most = (bound - parts.bias[up]).min(bound + parts.bias[down]);
        let step = generator.between(0, most);
        parts.bias[up] += step;
        parts.bias[down] -= step;
    }
    let mut list = list_without_zero(generator, setting);
    for x in list.chunks_mut(columns) {
        x[down] = x[up];
    }
    visit_accepted(visit, generator, setting, &parts, &list);
}

/// In every place where it stays within the ranges, a step of α in the bias and of
/// 1 in the quotient, or of 1 in the bias and in the remainder.
fn true_again(visit: &mut Visitor, generator: &mut Generator, setting: &Setting) {
    let bound = i64::from(setting.greatest_bias());
    let alpha = i64::from(setting.scale);
    let half = 1 << (setting.width - 1);
    let mut parts = true_parts(generator, setting);
    for place in 0..parts.bias.len() {
        let sign = generator.choose(&[-1, 1]);
        let (step, of_quotient, of_remainder) = generator.choose(&[(alpha, 1, 0), (1, 0, 1)]);
        let entry = parts.bias[place] + sign * step;
        let quotient = parts.quotients[place] + sign * of_quotient;
        let remainder = parts.remainders[place] + sign * of_remainder;
        if entry.abs() <= bound && (-half..half).contains(&quotient) && (0..alpha).contains(&remainder) {
            parts.bias[place] = entry;
            parts.quotients[place] = quotient;
            parts.remainders[place] = remainder;
        }
    }
    let case = TicketCase {
        what: "true again",
        setting: *setting,
        ticket: parts.ticket(setting),
        list: list_without_zero(generator, setting),
        expected: Some(accepted(setting)),
    };
    visit.challenge(&case);
    visit.full(case.what, setting, &case.ticket, Some(accepted_in_full(setting)));
}

/// The tickets of zeros of one form under settings of the other: those of the same
/// sizes, whose length is another, and all that ask for the same length, where the
/// first head of a record that is another decides.
pub fn of_the_other_form(visit: &mut Visitor, _: Form) {
    let [plain, bias] = [Form::Plain, Form::Bias].map(tickets_of_zeros);
    for (written, read) in [(&plain, &bias), (&bias, &plain)] {
        for (of, ticket) in written {
            for (setting, right) in read {
                let expected = if right.len() == ticket.len() {
                    refused(5, first_other_head(ticket, right))
                } else if of.numbers() == setting.numbers() {
                    refused(4, 0)
                } else {
                    continue;
                };
                visit.checks(&TicketCase {
                    what: "a ticket of the other form",
                    setting: *setting,
                    ticket: ticket.clone(),
                    list: vec![1; setting.columns as usize],
                    expected: Some(expected),
                });
            }
        }
    }
}

fn tickets_of_zeros(form: Form) -> Vec<(Setting, Vec<u8>)> {
    small_settings(form)
        .into_iter()
        .map(|setting| (setting, zeros(&setting).ticket(&setting)))
        .collect()
}

/// The first record whose kind, row or column is not that of the right ticket. The
/// kinds of the two forms are never all the same.
fn first_other_head(ticket: &[u8], right: &[u8]) -> usize {
    ticket
        .chunks(8)
        .zip(right.chunks(8))
        .position(|(record, right)| record[..4] != right[..4])
        .expect("a plain ticket has no record of kind 5")
}

#[cfg(test)]
mod tests {
    use super::*;
    use crate::cases::{Case, Cases, Kind};

    fn stated(family: Cases) -> Vec<(Kind, Setting, Answer)> {
        let mut stated = Vec::new();
        let mut visit = |case: &Case| {
            let expected = case.expected.as_ref().expect("every case is stated");
            stated.push((case.kind(), case.setting, expected.answer));
        };
        family(&mut Visitor(&mut visit), Form::Bias);
        stated
    }

    /// The families would be of no use without the cases that they are made for.
    #[test]
    fn the_edge_of_fitting_is_met_from_both_sides() {
        let cases = stated(largest_that_fit);
        let count = |number| cases.iter().filter(|case| case.2.number == number).count();
        assert!(count(0) > 10_000 && count(3) > 10_000, "{} {}", count(0), count(3));
        assert!(count(1) > 0 && count(2) > 0, "{} {}", count(1), count(2));
    }

    #[test]
    fn the_largest_under_k() {
        // m, T and W stay, since 2·8² + 23 + 9 = 160. 2^5·65536 and 2^27·10 are below p.
        for (index, expected) in [(1, 2), (4, 65_536), (5, 8), (6, 27), (7, 23)] {
            let field = &fields(Form::Bias)[index];
            let mut largest = largest_of(field, &K_WITH_BIAS);
            assert_eq!(*(field.of)(&mut largest), expected, "{index}");
        }
    }

    #[test]
    fn tickets_of_the_other_form_are_refused_by_4_and_5() {
        let cases = stated(of_the_other_form);
        for kind in [Kind::Challenge, Kind::Full, Kind::BiasChallenge, Kind::BiasFull] {
            for number in [4, 5] {
                let count = cases
                    .iter()
                    .filter(|case| (case.0, case.2.number) == (kind, number))
                    .count();
                assert!(count > 100, "{}, {number}: {count}", kind.name());
            }
        }
    }
}
