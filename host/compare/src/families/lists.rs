//! Lists of other lengths, and list numbers at and beyond p. The full check takes
//! no list, so it is asked once for each ticket.

use super::craft::{list, shapes_and_largest, true_parts, unless_zeros, P};
use crate::cases::{accepted, accepted_in_full, refused, TicketCase, Visitor};
use crate::generator::Generator;
use crate::setting::Form;

/// Every length from 0 to some numbers past the right one.
pub fn lengths(visit: &mut Visitor, form: Form) {
    let mut generator = Generator::new(401);
    for setting in shapes_and_largest(form) {
        let ticket = true_parts(&mut generator, &setting).ticket(&setting);
        visit.full(
            "the ticket of the lists",
            &setting,
            &ticket,
            Some(accepted_in_full(&setting)),
        );
        let right = (setting.vectors * setting.columns) as usize;
        for filling in [0, 1, P - 1, P, u32::MAX] {
            for length in (0..=right + 40).chain([2 * right, 1000]) {
                let expected = match length {
                    _ if length != right => refused(10, 0),
                    _ if filling >= P => refused(11, 0),
                    _ if filling == 0 => refused(21, 0),
                    _ => accepted(&setting),
                };
                visit.challenge(&TicketCase {
                    what: "a list of one number over and over",
                    setting,
                    ticket: ticket.clone(),
                    list: vec![filling; length],
                    expected: Some(expected),
                });
            }
        }
    }
}

/// Numbers around p, and the largest, at every index; then two of them.
pub fn numbers(visit: &mut Visitor, form: Form) {
    let mut generator = Generator::new(402);
    for setting in shapes_and_largest(form) {
        let mut case = TicketCase {
            what: "one number replaced",
            setting,
            ticket: true_parts(&mut generator, &setting).ticket(&setting),
            list: list(&mut generator, &setting),
            expected: None,
        };
        let in_full = accepted_in_full(&setting);
        visit.full("the ticket of the lists", &setting, &case.ticket, Some(in_full));
        for index in 0..case.list.len() {
            let former = case.list[index];
            for number in [0, 1, P - 2, P - 1, P, P + 1, P + 2, u32::MAX - 1, u32::MAX] {
                case.list[index] = number;
                case.expected = Some(if number < P {
                    unless_zeros(&setting, &case.list, accepted(&setting))
                } else {
                    refused(11, index)
                });
                visit.challenge(&case);
            }
            // The first index decides, also where the later number is the
            // larger one.
            let later = index + generator.below(case.list.len() - index);
            let former_later = case.list[later];
            case.list[later] = u32::MAX;
            case.list[index] = P;
            case.expected = Some(refused(11, index));
            visit.challenge(&case);
            case.list[later] = former_later;
            case.list[index] = former;
        }
    }
}
