//! Outputs that are too short, of the right length and longer, whatever they
//! hold before.

use super::{writer_case, Filling};
use crate::cases::{refused, Visitor, Writing};
use crate::families::craft::{shapes_and_largest, true_parts, LARGEST};
use crate::generator::Generator;
use crate::setting::{Form, Setting};

/// Every length up to some bytes past the right one, and much longer ones. For
/// the largest setting only some of them.
pub fn lengths(visit: &mut Visitor, form: Form) {
    let mut generator = Generator::new(821);
    for setting in shapes_and_largest(form) {
        let parts = true_parts(&mut generator, &setting);
        let ticket = parts.ticket(&setting);
        for length in lengths_to_try(&setting, ticket.len()) {
            for filling in Filling::ALL {
                let mut output = filling.output(&ticket, length.saturating_sub(ticket.len()));
                output.truncate(length);
                let mut case = writer_case("outputs of all lengths", &setting, &parts, output);
                if length < ticket.len() {
                    case.expected = Some(Writing::Refusal(refused(15, 0)));
                }
                visit.write(&case);
            }
        }
    }
}

fn lengths_to_try(setting: &Setting, right: usize) -> Vec<usize> {
    let short: Vec<usize> = if setting.rows == LARGEST.rows {
        let some = [0, 1, 7, 8, 9, 255, 256, 257, right / 2, right - 9, right - 8, right - 7];
        some.into_iter().chain([right - 2, right - 1]).collect()
    } else {
        (0..right).collect()
    };
    let longer = [1, 2, 7, 8, 9, 16, 63, 64, 1000, 70_000].map(|past| right + past);
    short.into_iter().chain([right, 2 * right]).chain(longer).collect()
}
