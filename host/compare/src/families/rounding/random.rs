//! Random cases with a rounding number.

use super::fitting;
use crate::cases::{refused, TicketCase, Visitor};
use crate::families::craft::{by_list, claims_case, full_by_sums, sizes_up_to, visit_claims};
use crate::families::random::{damage, random_setting, rounds, within_ranges};
use crate::families::settings::refusal;
use crate::families::writer::random::{visit_operands, visit_setting};
use crate::generator::Generator;
use crate::parts::ticket_length;
use crate::setting::{Form, Setting};

/// Sizes up to these, so many times.
const SIZES: [([u32; 4], usize); 3] = [([4, 4, 4, 3], 12_000), ([12, 12, 12, 8], 600), ([32, 64, 32, 8], 30)];

/// Tickets within the ranges, true and false, with the o of their setting and with
/// another, and damaged ones.
pub fn tickets(visit: &mut Visitor, form: Form) {
    let mut generator = Generator::new(1031);
    for (most, count) in SIZES {
        for _ in 0..rounds(form, count) {
            let sizes = sizes_up_to(&mut generator, most);
            let setting = fitting(&mut generator, form, sizes);
            visit_ticket(visit, &mut generator, &setting);
        }
    }
}

fn visit_ticket(visit: &mut Visitor, generator: &mut Generator, setting: &Setting) {
    let (parts, list) = within_ranges(generator, setting);
    match generator.below(3) {
        0 => visit_claims(visit, "within the ranges, random", setting, &parts, &list),
        1 => {
            let other = Setting {
                rounding: any_rounding(generator, setting),
                ..*setting
            };
            let refusal = refusal(&other);
            visit.challenge(&TicketCase {
                expected: Some(refusal.unwrap_or_else(|| by_list(&other, &parts, &list))),
                ..claims_case("another o", &other, &parts, &list)
            });
            let in_full = refusal.unwrap_or_else(|| full_by_sums(&other, &parts));
            visit.full("another o", &other, &parts.ticket(&other), Some(in_full));
        }
        _ => {
            let mut case = claims_case("damaged", setting, &parts, &list);
            damage(generator, &mut case);
            visit.checks(&case);
        }
    }
}

/// An o near that of the setting, below α or around it, or of any number of bits.
fn any_rounding(generator: &mut Generator, setting: &Setting) -> u32 {
    let [alpha, o] = [setting.scale, setting.rounding].map(i64::from);
    match generator.below(8) {
        0..3 => generator.between((o - 1).max(0), o + 1) as u32,
        3..6 => generator.between(0, (alpha - 1).max(0)) as u32,
        6 => generator.between((alpha - 1).max(0), alpha) as u32,
        _ => generator.word() >> generator.below(32),
    }
}

/// A setting of random numbers, mostly within the limits.
pub fn random_setting_with_rounding(generator: &mut Generator, form: Form) -> Setting {
    let setting = random_setting(generator, form);
    Setting {
        rounding: any_rounding(generator, &setting),
        ..setting
    }
}

/// Settings of random numbers with no byte or with zeros, so that the tests 1 to 5,
/// 17 and 19 decide.
pub fn settings(visit: &mut Visitor, form: Form) {
    let mut generator = Generator::new(1032);
    for round in 0..rounds(form, 7_000) {
        let setting = random_setting_with_rounding(&mut generator, form);
        let length = if round % 2 == 0 { 0 } else { 8 * generator.below(33) };
        let number = if ticket_length(&setting) == length as u128 {
            5
        } else {
            4
        };
        visit.checks(&TicketCase {
            what: "a random setting",
            setting,
            ticket: vec![0; length],
            list: Vec::new(),
            expected: Some(refusal(&setting).unwrap_or(refused(number, 0))),
        });
    }
}

pub fn operands(visit: &mut Visitor, form: Form) {
    let mut generator = Generator::new(1033);
    for (most, count) in SIZES {
        for _ in 0..rounds(form, count / 4) {
            let sizes = sizes_up_to(&mut generator, most);
            let setting = fitting(&mut generator, form, sizes);
            visit_operands(visit, &mut generator, &setting);
        }
    }
}

pub fn settings_of_the_writer(visit: &mut Visitor, form: Form) {
    let mut generator = Generator::new(1034);
    for _ in 0..rounds(form, 8_000) {
        let setting = random_setting_with_rounding(&mut generator, form);
        visit_setting(visit, &mut generator, setting);
    }
}
