//! Begins of runs.

use apart::Answer;

use super::craft::Lent;
use super::stated::{refusal, told, ZEROS};
use super::{Call, Visitor};
use crate::cases;
use crate::families::craft::true_parts;
use crate::families::rounding::fitting;
use crate::families::true_tickets::{lists, sizes_and_largest};
use crate::families::{damage, examples, lengths, lists, rounding, settings, zeros};
use crate::generator::Generator;
use crate::setting::{Form, Setting};

/// Families of cases, with the refusals of a challenge check among them.
const FAMILIES: [cases::Cases; 15] = [
    examples::table,
    examples::marked,
    settings::limits,
    settings::pairs_of_limits,
    rounding::limits::below_and_beyond,
    rounding::limits::faults_of_all,
    lengths::tickets,
    damage::every_position,
    damage::last_column_and_row,
    lists::lengths,
    lists::numbers,
    zeros::examples,
    zeros::every_set,
    zeros::numbers_beyond,
    zeros::other_refusals,
];

/// The begins with what their challenge checks are handed. A begin is refused as these
/// are, and where they go on to the rows it is under way.
pub fn refusals(visit: &mut Visitor) {
    for cases in FAMILIES {
        let mut take = |case: &cases::Case| {
            if let cases::Call::Challenge { ticket, list } = case.call {
                let setting = case.setting;
                let call = Call::Begin { setting, ticket, list };
                let stated = case.expected.as_ref().map(|reply| begun(&setting, list, reply.answer));
                visit.case(case.what, call, stated, false);
            }
        };
        cases(&mut cases::Visitor(&mut take), Form::Plain);
    }
}

/// What begin makes of what the challenge check has this answer to.
fn begun(setting: &Setting, list: &[u32], checked: Answer) -> apart::RunAnswer {
    if ![0, 12].contains(&checked.number) {
        return refusal(&ZEROS, checked);
    }
    let mut run = ZEROS;
    run.setting = setting.numbers().into();
    run.list[..list.len()].copy_from_slice(list);
    run.list_length = list.len() as u32;
    told(&run)
}

/// True tickets of many sizes, with lists of each kind.
pub fn states(visit: &mut Visitor) {
    let mut generator = Generator::new(1311);
    for sizes in sizes_and_largest().step_by(3) {
        let setting = fitting(&mut generator, Form::Plain, sizes);
        let ticket = Lent::of(&setting, &true_parts(&mut generator, &setting));
        for list in lists(&mut generator, &setting) {
            visit.begin("true", &setting, &ticket, &list);
        }
    }
}
