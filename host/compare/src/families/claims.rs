//! Written tickets with single claims or operands changed, which the full check
//! finds at the right place.

use super::craft::{fitting, full_by_sums, list_without_zero, shapes, sizes_up_to, true_parts, LARGEST};
use super::true_tickets::sizes_and_largest;
use crate::cases::{caught, refused, untrue, TicketCase, Visitor};
use crate::generator::Generator;
use crate::parts::Parts;
use crate::setting::{Form, Setting};

/// A change of a claim: what is added to the quotient, how often α is added to
/// the remainder, and what else is.
struct Change {
    what: &'static str,
    quotient: i64,
    scales: i64,
    remainder: i64,
}

const fn change(what: &'static str, quotient: i64, scales: i64, remainder: i64) -> Change {
    Change {
        what,
        quotient,
        scales,
        remainder,
    }
}

/// The last two balance the sum, and leave the remainder's range.
const CHANGES: [Change; 6] = [
    change("q + 1", 1, 0, 0),
    change("q - 1", -1, 0, 0),
    change("r + 1", 0, 0, 1),
    change("r - 1", 0, 0, -1),
    change("q + 1 with r - α", 1, -1, 0),
    change("q - 1 with r + α", -1, 1, 0),
];

impl Change {
    fn make(&self, setting: &Setting, parts: &mut Parts, place: usize) {
        parts.quotients[place] += self.quotient;
        parts.remainders[place] += self.scales * i64::from(setting.scale) + self.remainder;
    }
}

/// Every change of the claim at one place of a true ticket: untrue there where it
/// stays in range, refused at its record where it does not.
pub fn visit_changes(visit: &mut Visitor, generator: &mut Generator, setting: &Setting, right: &Parts, place: usize) {
    let half = 1 << (setting.width - 1);
    let alpha = i64::from(setting.scale);
    let first_quotient = right.a.len() + right.b.len() + right.bias.len();
    let first_remainder = first_quotient + right.quotients.len();
    for change in &CHANGES {
        let mut parts = right.clone();
        change.make(setting, &mut parts, place);
        let (in_full, by_list) = if !(-half..half).contains(&parts.quotients[place]) {
            let refusal = refused(8, first_quotient + place);
            (refusal, refusal)
        } else if !(0..alpha).contains(&parts.remainders[place]) {
            let refusal = refused(9, first_remainder + place);
            (refusal, refusal)
        } else {
            let row = place / setting.columns as usize;
            (untrue(setting, place), caught(setting, 0, row))
        };
        let case = TicketCase {
            what: change.what,
            setting: *setting,
            ticket: parts.ticket(setting),
            list: list_without_zero(generator, setting),
            expected: Some(by_list),
        };
        visit.full(change.what, setting, &case.ticket, Some(in_full));
        visit.challenge(&case);
    }
}

/// Every claim of small tickets.
pub fn every_claim(visit: &mut Visitor, form: Form) {
    let mut generator = Generator::new(901);
    let mut settings = shapes(form).to_vec();
    for index in 0..4 * 4_u32.pow(3) {
        let sizes = [index % 4 + 1, index / 4 % 4 + 1, index / 16 % 4 + 1, index % 3 + 1];
        settings.push(fitting(&mut generator, form, sizes));
    }
    for setting in settings {
        let right = true_parts(&mut generator, &setting);
        for place in 0..right.quotients.len() {
            visit_changes(visit, &mut generator, &setting, &right, place);
        }
    }
}

/// The first claim, the last, the ends of the first row, and two more of larger
/// tickets.
pub fn some_claims(visit: &mut Visitor, form: Form) {
    let mut generator = Generator::new(902);
    for [rows, inner, columns, _] in sizes_and_largest().step_by(3) {
        let vectors = generator.between(1, 2) as u32;
        let setting = fitting(&mut generator, form, [rows, inner, columns, vectors]);
        visit_some(visit, &mut generator, &setting);
    }
    for _ in 0..3 {
        let setting = fitting(&mut generator, form, [LARGEST.rows, LARGEST.inner, LARGEST.columns, 1]);
        visit_some(visit, &mut generator, &setting);
    }
}

pub fn visit_some(visit: &mut Visitor, generator: &mut Generator, setting: &Setting) {
    let right = true_parts(generator, setting);
    let count = right.quotients.len();
    let columns = setting.columns as usize;
    let mut places = vec![0, count - 1, columns - 1, count - columns];
    places.extend([generator.below(count), generator.below(count)]);
    places.sort_unstable();
    places.dedup();
    for place in places {
        visit_changes(visit, generator, setting, &right, place);
    }
}

/// Every pair of claims of small tickets, each changed at random: the first that
/// is not true counts, unless one of them is out of range.
pub fn two_claims(visit: &mut Visitor, form: Form) {
    let mut generator = Generator::new(903);
    let mut settings = shapes(form).to_vec();
    for _ in 0..60 {
        let sizes = sizes_up_to(&mut generator, [5, 5, 5, 2]);
        settings.push(fitting(&mut generator, form, sizes));
    }
    for setting in settings {
        let right = true_parts(&mut generator, &setting);
        let count = right.quotients.len();
        for one in 0..count {
            for two in one + 1..count {
                let mut parts = right.clone();
                for place in [one, two] {
                    CHANGES[generator.below(CHANGES.len())].make(&setting, &mut parts, place);
                }
                let expected = full_by_sums(&setting, &parts);
                visit.full("two claims changed", &setting, &parts.ticket(&setting), Some(expected));
            }
        }
    }
}

/// One operand of a written ticket up or down by one. The first claim that it has
/// a part in becomes untrue, unless its factor is 0.
pub fn operands(visit: &mut Visitor, form: Form) {
    let mut generator = Generator::new(904);
    let mut settings = shapes(form).to_vec();
    for _ in 0..100 {
        let sizes = sizes_up_to(&mut generator, [5, 5, 5, 2]);
        settings.push(fitting(&mut generator, form, sizes));
    }
    for setting in settings {
        let right = true_parts(&mut generator, &setting);
        for record in 0..right.a.len() + right.b.len() + right.bias.len() {
            visit_operand(visit, &setting, &right, record);
        }
    }
    for [rows, inner, columns, _] in sizes_and_largest().step_by(20) {
        let setting = fitting(&mut generator, form, [rows, inner, columns, 1]);
        let right = true_parts(&mut generator, &setting);
        let of_a = right.a.len();
        let count = of_a + right.b.len() + right.bias.len();
        for record in [0, of_a - 1, of_a, count - 1, generator.below(count)] {
            visit_operand(visit, &setting, &right, record);
        }
    }
}

fn visit_operand(visit: &mut Visitor, setting: &Setting, right: &Parts, record: usize) {
    for step in [-1, 1] {
        let mut parts = right.clone();
        let [of_a, of_b] = [parts.a.len(), parts.b.len()];
        let (entry, bound, number) = if record < of_a {
            (&mut parts.a[record], setting.bound, 7)
        } else if record < of_a + of_b {
            (&mut parts.b[record - of_a], setting.bound, 7)
        } else {
            (&mut parts.bias[record - of_a - of_b], setting.greatest_bias(), 18)
        };
        *entry += step;
        let expected = if entry.abs() > i64::from(bound) {
            refused(number, record)
        } else {
            full_by_sums(setting, &parts)
        };
        visit.full(
            "an operand changed by one",
            setting,
            &parts.ticket(setting),
            Some(expected),
        );
    }
}

#[cfg(test)]
mod tests {
    use super::*;
    use crate::cases::{Call, Case, Cases};

    /// The families would be of no use without the cases that they are made for.
    #[test]
    fn each_number_is_met() {
        let families: [(Cases, Form, &[u32]); 6] = [
            (every_claim, Form::Plain, &[8, 9, 16]),
            (two_claims, Form::Plain, &[8, 9, 16]),
            (operands, Form::Plain, &[0, 7, 16]),
            (every_claim, Form::Bias, &[8, 9, 16]),
            (two_claims, Form::Bias, &[9, 16]),
            (operands, Form::Bias, &[0, 7, 16, 18]),
        ];
        for (family, form, numbers) in families {
            let mut counts = [0; 20];
            let mut visit = |case: &Case| {
                if let Call::Full { .. } = case.call {
                    let stated = case.expected.as_ref().expect("every case is stated");
                    counts[stated.answer.number as usize] += 1;
                }
            };
            family(&mut Visitor(&mut visit), form);
            for &number in numbers {
                assert!(counts[number as usize] > 10, "{number}: {counts:?}");
            }
        }
    }
}
