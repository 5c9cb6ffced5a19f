//! Tickets that are damaged in single places.

use apart::make::residue;
use apart::Answer;

use super::craft::{
    case_c, claims_case, counts, falsify, fitting, list, list_without_zero, set_value, shapes, shapes_and_largest,
    sizes, true_parts, P,
};
use super::true_tickets::sizes_and_largest;
use crate::cases::{caught, refused, untrue, TicketCase, Visitor};
use crate::generator::Generator;
use crate::parts::Parts;
use crate::setting::{Form, Setting};

/// A true ticket with a random list, whose damage is not yet done.
fn case_to_damage(generator: &mut Generator, setting: &Setting) -> TicketCase {
    let parts = true_parts(generator, setting);
    TicketCase {
        what: "damaged",
        setting: *setting,
        ticket: parts.ticket(setting),
        list: list(generator, setting),
        expected: None,
    }
}

/// Every byte of small tickets, by one bit each, by all and by one up and down.
pub fn every_position(visit: &mut Visitor, form: Form) {
    let mut generator = Generator::new(201);
    for setting in &shapes(form) {
        let mut case = case_to_damage(&mut generator, setting);
        for index in 0..case.ticket.len() {
            let right = case.ticket[index];
            let bits = (0..8).map(|bit| right ^ (1 << bit));
            let others = [right ^ 0xFF, right.wrapping_add(1), right.wrapping_sub(1)];
            for wrong in bits.chain(others) {
                case.ticket[index] = wrong;
                visit.checks(&case);
            }
            case.ticket[index] = right;
        }
    }
}

/// Every byte of the ticket of case c and of that of case d, at all 256 values.
/// With a bias record 8 is the first entry of the bias, else the first quotient.
pub fn every_position_and_value(visit: &mut Visitor, form: Form) {
    let true_one = case_c(form);
    let mut false_one = case_c(form);
    set_value(&mut false_one.ticket, 8, residue(-1));
    for (ticket, list) in [(&true_one.ticket, [1, 2]), (&false_one.ticket, [0, 5])] {
        let mut case = TicketCase {
            what: "one byte replaced",
            ticket: ticket.clone(),
            list: list.to_vec(),
            expected: None,
            ..case_c(form)
        };
        for (index, &right) in ticket.iter().enumerate() {
            for value in 0..=255 {
                case.ticket[index] = value;
                visit.checks(&case);
            }
            case.ticket[index] = right;
        }
    }
}

/// One untrue claim, in the last column, the last row or both, and a list that
/// catches it. The list may be 0 everywhere else.
pub fn last_column_and_row(visit: &mut Visitor, form: Form) {
    let mut generator = Generator::new(202);
    for sizes_of_ticket in sizes_and_largest() {
        let setting = fitting(&mut generator, form, sizes_of_ticket);
        let [rows, _, columns, _] = sizes(&setting);
        let right = true_parts(&mut generator, &setting);
        let places = [
            (rows - 1, columns - 1),
            (0, columns - 1),
            (rows - 1, 0),
            (generator.below(rows), columns - 1),
            (rows - 1, generator.below(columns)),
        ];
        for (i, j) in places {
            let mut parts = right.clone();
            falsify(&mut generator, &setting, &mut parts, i, j);
            let everywhere = list_without_zero(&mut generator, &setting);
            let mut there_only = everywhere.clone();
            for vector in there_only.chunks_mut(columns) {
                let number = vector[j];
                vector.fill(0);
                vector[j] = number;
            }
            let ticket = parts.ticket(&setting);
            for list in [everywhere, there_only] {
                visit.challenge(&TicketCase {
                    what: "one untrue claim",
                    setting,
                    ticket: ticket.clone(),
                    list,
                    expected: Some(caught(&setting, 0, i)),
                });
            }
            let in_full = untrue(&setting, i * columns + j);
            visit.full("one untrue claim", &setting, &ticket, Some(in_full));
        }
    }
}

/// The first and the last record of each part alone: another number within the
/// range, one out of range, and each of its first four bytes. Bias tickets are of
/// fewer sizes.
pub fn last_records(visit: &mut Visitor, form: Form) {
    let mut generator = Generator::new(203);
    let step = match form {
        Form::Plain => 1,
        Form::Bias => 3,
    };
    for sizes_of_ticket in sizes_and_largest().step_by(step) {
        let setting = fitting(&mut generator, form, sizes_of_ticket);
        let mut case = case_to_damage(&mut generator, &setting);
        let right = case.ticket.clone();
        for (first, count, number, out_of_range) in parts_of(&setting) {
            let last = first + count - 1;
            for record in [first, last] {
                set_value(&mut case.ticket, record, out_of_range);
                case.expected = Some(refused(number, record));
                visit.checks(&case);
                set_value(&mut case.ticket, record, P);
                case.expected = Some(refused(6, record));
                visit.checks(&case);
                for small in [0, 1, residue(-1)] {
                    set_value(&mut case.ticket, record, small);
                    case.expected = None;
                    visit.checks(&case);
                }
                case.ticket.clone_from(&right);
                for byte in 0..4 {
                    case.ticket[8 * record + byte] ^= 1;
                    case.expected = Some(refused(5, record));
                    visit.checks(&case);
                    case.ticket[8 * record + byte] ^= 1;
                }
            }
        }
    }
}

/// For each part its first record, how many it has, the number of its range and
/// a value just outside. A plain ticket has no bias.
pub fn parts_of(setting: &Setting) -> Vec<(usize, usize, u32, u32)> {
    let [a, b, bias, claims] = counts(setting);
    let mut parts = vec![
        (0, a, 7, setting.bound + 1),
        (a, b, 7, P - setting.bound - 1),
        (a + b, bias, 18, P - setting.greatest_bias() - 1),
        (a + b + bias, claims, 8, 1 << (setting.width - 1)),
        (a + b + bias + claims, claims, 9, setting.scale),
    ];
    parts.retain(|&(_, count, ..)| count > 0);
    parts
}

/// What can be wrong with a record.
#[derive(Clone, Copy, PartialEq, Eq)]
pub enum Fault {
    /// One of its first four bytes.
    Head(usize),
    /// A value of p or more.
    Value(u32),
    /// A value outside the range of its part.
    Range,
}

pub const FAULTS: [Fault; 7] = [
    Fault::Head(0),
    Fault::Head(1),
    Fault::Head(2),
    Fault::Head(3),
    Fault::Value(P),
    Fault::Value(u32::MAX),
    Fault::Range,
];

/// Puts a fault into a record and says which number it has.
pub fn spoil(setting: &Setting, ticket: &mut [u8], record: usize, fault: Fault) -> u32 {
    match fault {
        Fault::Head(byte) => {
            ticket[8 * record + byte] ^= 0x04;
            5
        }
        Fault::Value(value) => {
            set_value(ticket, record, value);
            6
        }
        Fault::Range => {
            let (_, _, number, value) = parts_of(setting)
                .into_iter()
                .rfind(|&(first, ..)| first <= record)
                .expect("the first part begins at record 0");
            set_value(ticket, record, value);
            number
        }
    }
}

/// Two faults in two records, or in one, with lists right and wrong: the first
/// record decides, and in it the lower number.
pub fn two_faults(visit: &mut Visitor, form: Form) {
    let mut generator = Generator::new(204);
    for setting in &shapes(form) {
        let right = case_to_damage(&mut generator, setting);
        let records = right.ticket.len() / 8;
        for one in 0..records {
            for two in one..records {
                for first in FAULTS {
                    for second in FAULTS {
                        let mut case = right.clone();
                        case.what = "two faults";
                        let lower = spoil(setting, &mut case.ticket, one, first);
                        let other = spoil(setting, &mut case.ticket, two, second);
                        case.expected = match (first, second) {
                            _ if one < two => Some(refused(lower, one)),
                            // Both in the same byte or the same value: the
                            // second takes the place of the first.
                            (Fault::Head(x), Fault::Head(y)) if x == y => None,
                            (Fault::Head(_), _) | (_, Fault::Head(_)) => Some(refused(5, one)),
                            _ => Some(refused(other, one)),
                        };
                        match generator.below(4) {
                            0 => case.list.clear(),
                            1 => case.list[0] = P,
                            _ => (),
                        }
                        if case.expected.is_some() {
                            visit.checks(&case);
                        }
                    }
                }
            }
        }
    }
    visit_faults_of_all(visit, form);
}

fn visit_faults_of_all(visit: &mut Visitor, form: Form) {
    let mut generator = Generator::new(205);
    for setting in shapes_and_largest(form) {
        visit_more_and_more(visit, &mut generator, &setting, None);
    }
}

/// One fault more and more, from the last test to the first: a false claim, a
/// list number, the list's length, a record, the ticket's length, and those of the
/// setting, where an o may be given that no α is above. Each later one decides.
pub fn visit_more_and_more(visit: &mut Visitor, generator: &mut Generator, setting: &Setting, beyond: Option<u32>) {
    let mut parts: Parts = true_parts(generator, setting);
    falsify(generator, setting, &mut parts, 0, 0);
    let list = list_without_zero(generator, setting);
    let mut case = claims_case("faults of all kinds", setting, &parts, &list);
    let mut next = |case: &mut TicketCase, expected: Answer| {
        case.expected = Some(expected);
        visit.checks(case);
    };
    next(&mut case, caught(setting, 0, 0));
    let last = case.list.len() - 1;
    case.list[last] = P;
    next(&mut case, refused(11, last));
    case.list.push(0);
    next(&mut case, refused(10, 0));
    let records = case.ticket.len() / 8;
    for fault in [Fault::Range, Fault::Value(P), Fault::Head(3)] {
        let number = spoil(setting, &mut case.ticket, records - 1, fault);
        next(&mut case, refused(number, records - 1));
    }
    case.ticket.push(0);
    next(&mut case, refused(4, 0));
    case.setting.scale = 65_536;
    case.setting.width = 30;
    next(&mut case, refused(3, 0));
    if let Some(rounding) = beyond {
        case.setting.rounding = rounding;
        next(&mut case, refused(19, 0));
    }
    if setting.form() == Form::Bias {
        case.setting.bias_bound = Some((1 << 30) + 1);
        next(&mut case, refused(17, 0));
    }
    case.setting.width = 31;
    next(&mut case, refused(2, 0));
    case.setting.vectors = 9;
    next(&mut case, refused(1, 0));
}
