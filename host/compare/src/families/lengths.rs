//! Tickets of other lengths, and of the right length for other sizes.

use super::craft::{counts, in_form, list, shapes_and_largest, true_parts, zeros, LARGEST};
use crate::cases::{accepted, accepted_in_full, refused, TicketCase, Visitor};
use crate::generator::Generator;
use crate::parts::ticket_length;
use crate::setting::{Form, Setting};

/// Every length from 0 to some records past the right one, filled with zeros or
/// with the ticket over again. For the largest setting only those around the
/// right one and around the ends of the parts.
pub fn tickets(visit: &mut Visitor, form: Form) {
    let mut generator = Generator::new(301);
    for setting in shapes_and_largest(form) {
        let ticket = true_parts(&mut generator, &setting).ticket(&setting);
        let right = ticket.len();
        let list = list(&mut generator, &setting);
        let [a, b, bias, claims] = counts(&setting);
        let lengths: Vec<usize> = if setting.rows == LARGEST.rows {
            let mut ends = vec![0, 8 * a, 8 * (a + b), 8 * (a + b + bias), right - 8 * claims, right];
            ends.dedup();
            ends.iter().flat_map(|&end| end.saturating_sub(9)..=end + 9).collect()
        } else {
            (0..=right + 80).chain([2 * right]).collect()
        };
        for length in lengths {
            for longer in [[0].as_slice(), &ticket] {
                let case = TicketCase {
                    what: "cut off or lengthened",
                    setting,
                    ticket: ticket
                        .iter()
                        .chain(longer.iter().cycle())
                        .copied()
                        .take(length)
                        .collect(),
                    list: list.clone(),
                    expected: Some(if length == right {
                        accepted(&setting)
                    } else {
                        refused(4, 0)
                    }),
                };
                visit.challenge(&case);
                let in_full = if length == right {
                    accepted_in_full(&setting)
                } else {
                    refused(4, 0)
                };
                visit.full(case.what, &setting, &case.ticket, Some(in_full));
            }
        }
    }
}

/// Every size up to 6.
pub fn small_settings(form: Form) -> Vec<Setting> {
    (0..6_u32.pow(3))
        .map(|index| Setting {
            rows: index % 6 + 1,
            inner: index / 6 % 6 + 1,
            columns: index / 36 + 1,
            vectors: 1,
            ..in_form(LARGEST, form)
        })
        .collect()
}

/// The ticket of zeros of one size under the setting of another that asks for the
/// same length: only the heads of the records tell them apart.
pub fn other_sizes(visit: &mut Visitor, form: Form) {
    let settings = small_settings(form);
    for written in &settings {
        let ticket = zeros(written).ticket(written);
        for &setting in &settings {
            if ticket_length(&setting) == ticket.len() as u128 {
                visit.checks(&TicketCase {
                    what: "zeros of another size",
                    setting,
                    ticket: ticket.clone(),
                    list: vec![1; setting.columns as usize],
                    expected: (setting == *written).then(|| accepted(&setting)),
                });
            }
        }
    }
}
