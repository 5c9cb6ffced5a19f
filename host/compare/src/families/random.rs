//! Random cases. Most are a ticket within the ranges, damaged in ways drawn at
//! random, none, one or several.

use super::craft::{claims_case, falsify, fields, fitting, k, list, set_value, sizes, sizes_up_to, true_parts, P};
use crate::cases::{TicketCase, Visitor};
use crate::generator::Generator;
use crate::parts::Parts;
use crate::setting::{Form, Setting};

/// How many random cases there are: fewer of bias tickets, so that the whole
/// comparison stays short.
pub fn rounds(form: Form, plain: usize) -> usize {
    match form {
        Form::Plain => plain,
        Form::Bias => plain / 2,
    }
}

pub fn small(visit: &mut Visitor, form: Form) {
    let sizes = |generator: &mut Generator| sizes_up_to(generator, [4, 4, 4, 3]);
    tickets(visit, form, 701, rounds(form, 400_000), sizes);
}

pub fn medium(visit: &mut Visitor, form: Form) {
    let sizes = |generator: &mut Generator| sizes_up_to(generator, [12, 12, 12, 8]);
    tickets(visit, form, 702, rounds(form, 20_000), sizes);
}

pub fn large(visit: &mut Visitor, form: Form) {
    let sizes = |generator: &mut Generator| sizes_up_to(generator, [32, 64, 32, 8]);
    tickets(visit, form, 703, rounds(form, 500), sizes);
}

/// The largest sizes, always.
pub fn largest(visit: &mut Visitor, form: Form) {
    tickets(visit, form, 705, 40, |_| [32, 64, 32, 8]);
}

fn tickets(visit: &mut Visitor, form: Form, seed: u64, count: usize, sizes: fn(&mut Generator) -> [u32; 4]) {
    let mut generator = Generator::new(seed);
    for _ in 0..count {
        let sizes = sizes(&mut generator);
        let setting = fitting(&mut generator, form, sizes);
        let (parts, list) = within_ranges(&mut generator, &setting);
        let mut case = claims_case("within the ranges, random", &setting, &parts, &list);
        if !generator.once_in(3) {
            damage(&mut generator, &mut case);
        }
        visit.checks(&case);
    }
}

/// A ticket within the ranges, one in two of them false in one place or several,
/// and a list of the right length whose numbers are below p, often with zeros.
pub fn within_ranges(generator: &mut Generator, setting: &Setting) -> (Parts, Vec<u32>) {
    let [rows, _, columns, _] = sizes(setting);
    let mut parts = true_parts(generator, setting);
    if generator.once_in(2) {
        for _ in 0..=generator.below(3) {
            let (i, j) = (generator.below(rows), generator.below(columns));
            falsify(generator, setting, &mut parts, i, j);
        }
    }
    let mut list = list(generator, setting);
    if generator.once_in(2) {
        let j = generator.below(columns);
        let vectors = generator.below(list.len() / columns + 1);
        for vector in list.chunks_mut(columns).take(vectors) {
            vector[j] = 0;
        }
    }
    (parts, list)
}

/// Damages a case in one way or in two.
pub fn damage(generator: &mut Generator, case: &mut TicketCase) {
    let damages = if generator.once_in(4) { 2 } else { 1 };
    for _ in 0..damages {
        generator.choose(&DAMAGES)(generator, case);
    }
    case.what = "damaged at random";
    case.expected = None;
}

type Damage = fn(&mut Generator, &mut TicketCase);

const DAMAGES: [Damage; 11] = [
    one_byte,
    one_bit,
    one_value,
    value_near_a_limit,
    two_records_change_places,
    one_record_over_another,
    other_ticket_length,
    other_list_length,
    one_list_number,
    one_number_of_the_setting,
    one_number_of_the_setting_by_one,
];

/// An index into something that an earlier damage may have emptied.
fn index(generator: &mut Generator, length: usize) -> Option<usize> {
    (length > 0).then(|| generator.below(length))
}

fn one_byte(generator: &mut Generator, case: &mut TicketCase) {
    if let Some(index) = index(generator, case.ticket.len()) {
        case.ticket[index] = generator.word() as u8;
    }
}

fn one_bit(generator: &mut Generator, case: &mut TicketCase) {
    if let Some(index) = index(generator, case.ticket.len()) {
        case.ticket[index] ^= 1 << generator.below(8);
    }
}

fn one_value(generator: &mut Generator, case: &mut TicketCase) {
    if let Some(record) = index(generator, case.ticket.len() / 8) {
        let value = generator.word() >> generator.below(32);
        set_value(&mut case.ticket, record, value);
    }
}

fn value_near_a_limit(generator: &mut Generator, case: &mut TicketCase) {
    if let Some(record) = index(generator, case.ticket.len() / 8) {
        let half = 1 << (case.setting.width.clamp(1, 30) - 1);
        let mut limits = vec![0, case.setting.bound, case.setting.scale, half, 2 * half, P];
        limits.extend(case.setting.bias_bound);
        let limit = generator.choose(&limits);
        let limit = if generator.once_in(2) {
            P.wrapping_sub(limit)
        } else {
            limit
        };
        let step = generator.below(5) as u32;
        set_value(&mut case.ticket, record, limit.wrapping_add(step).wrapping_sub(2));
    }
}

fn two_records_change_places(generator: &mut Generator, case: &mut TicketCase) {
    let records = case.ticket.len() / 8;
    if let (Some(one), Some(two)) = (index(generator, records), index(generator, records)) {
        for byte in 0..8 {
            case.ticket.swap(8 * one + byte, 8 * two + byte);
        }
    }
}

fn one_record_over_another(generator: &mut Generator, case: &mut TicketCase) {
    let records = case.ticket.len() / 8;
    if let (Some(from), Some(to)) = (index(generator, records), index(generator, records)) {
        case.ticket.copy_within(8 * from..8 * from + 8, 8 * to);
    }
}

fn other_ticket_length(generator: &mut Generator, case: &mut TicketCase) {
    let length = case.ticket.len();
    let other = match generator.below(4) {
        0 => generator.below(length + 1),
        1 => length + generator.below(17),
        2 => length + 8,
        _ => length.saturating_sub(8),
    };
    case.ticket.resize(other, 0);
}

fn other_list_length(generator: &mut Generator, case: &mut TicketCase) {
    let length = case.list.len();
    let other = match generator.below(3) {
        0 => generator.below(length + 1),
        1 => length + 1 + generator.below(8),
        _ => length.saturating_sub(1),
    };
    case.list.resize(other, 0);
}

fn one_list_number(generator: &mut Generator, case: &mut TicketCase) {
    if let Some(index) = index(generator, case.list.len()) {
        case.list[index] = match generator.below(3) {
            0 => generator.word(),
            1 => generator.between(i64::from(P) - 2, i64::from(P) + 2) as u32,
            _ => P | generator.word(),
        };
    }
}

fn one_number_of_the_setting(generator: &mut Generator, case: &mut TicketCase) {
    let fields = fields(case.setting.form());
    let field = &fields[generator.below(fields.len())];
    *(field.of)(&mut case.setting) = generator.word() >> generator.below(32);
}

fn one_number_of_the_setting_by_one(generator: &mut Generator, case: &mut TicketCase) {
    let fields = fields(case.setting.form());
    let field = &fields[generator.below(fields.len())];
    let number = (field.of)(&mut case.setting);
    *number = match generator.below(2) {
        0 => number.wrapping_add(1),
        _ => number.wrapping_sub(1),
    };
}

/// A setting of random numbers, mostly within the limits.
pub fn random_setting(generator: &mut Generator, form: Form) -> Setting {
    let mut setting = k(form);
    for field in fields(form) {
        let [least, greatest] = [field.least, field.greatest].map(i64::from);
        *(field.of)(&mut setting) = match generator.below(32) {
            0 => generator.word(),
            1 => generator.word() >> generator.below(32),
            // 2^32 - 1 below 0.
            2 => generator.between(least - 1, least) as u32,
            3 => generator.between(greatest, greatest + 1) as u32,
            // Any number of bits, since small bounds fit more often.
            _ => {
                let bits = generator.between(0, i64::from(field.greatest.ilog2()).max(16));
                generator.between(least, greatest.min(least + (1 << bits) - 1)) as u32
            }
        };
    }
    setting
}

/// Settings of random numbers with no byte or with zeros, so that the tests 1 to
/// 5 decide.
pub fn settings(visit: &mut Visitor, form: Form) {
    let mut generator = Generator::new(704);
    for round in 0..rounds(form, 400_000) {
        let setting = random_setting(&mut generator, form);
        let length = if round % 2 == 0 { 0 } else { generator.below(257) };
        visit.checks(&TicketCase {
            what: "a random setting",
            setting,
            ticket: vec![0; length],
            list: Vec::new(),
            expected: None,
        });
    }
}
