//! Vectors of zeros, which are refused by 21 with their t: one and several, beside
//! all that is refused before them, and with tickets that are caught after them; and
//! zeros that fill no vector, with which true tickets are accepted.

use apart::examples::{A, B, BIAS};
use apart::Answer;

use super::craft::{
    by_sums, falsify, fields, first_of_zeros, full_by_sums, in_form, k, list_without_zero, shapes_and_largest, sizes,
    sizes_up_to, true_parts, well_formed_list, LARGEST, P,
};
use super::damage::{parts_of, spoil, FAULTS};
use super::false_tickets::HIDE;
use super::rounding::fitting;
use super::settings::refusal;
use super::true_tickets::lists;
use crate::cases::{accepted, caught, refused, TicketCase, Visitor};
use crate::generator::Generator;
use crate::parts::Parts;
use crate::setting::{Form, Setting};

/// Numbers that 11 refuses. p and 2p leave 0, and are no zeros.
const BEYOND: [u32; 4] = [P, 1 << 31, 2 * P, u32::MAX];

/// A true ticket and a false one, which has one untrue claim in this row.
struct Both {
    setting: Setting,
    row: usize,
    parts: [Parts; 2],
    tickets: [Vec<u8>; 2],
}

impl Both {
    fn new(setting: Setting, row: usize, parts: [Parts; 2]) -> Both {
        let tickets = parts.each_ref().map(|parts| parts.ticket(&setting));
        Both {
            setting,
            row,
            parts,
            tickets,
        }
    }

    fn under(generator: &mut Generator, setting: Setting) -> Both {
        let [rows, _, columns, _] = sizes(&setting);
        let right = true_parts(generator, &setting);
        let mut wrong = right.clone();
        let (row, column) = (generator.below(rows), generator.below(columns));
        falsify(generator, &setting, &mut wrong, row, column);
        Both::new(setting, row, [right, wrong])
    }

    /// Under a setting of few rows and any rounding number.
    fn of(generator: &mut Generator, form: Form, columns: usize, vectors: usize) -> Both {
        let [rows, inner, ..] = sizes_up_to(generator, [4, 4, 1, 1]);
        let setting = fitting(generator, form, [rows, inner, columns as u32, vectors as u32]);
        Both::under(generator, setting)
    }

    /// The challenge checks of the true ticket and of the false one, with their answers.
    fn state(&self, visit: &mut Visitor, what: &'static str, list: &[u32], answers: [Answer; 2]) {
        for (ticket, answer) in self.tickets.iter().zip(answers) {
            visit.challenge(&TicketCase {
                what,
                setting: self.setting,
                ticket: ticket.clone(),
                list: list.to_vec(),
                expected: Some(answer),
            });
        }
    }

    fn refuse(&self, visit: &mut Visitor, what: &'static str, list: &[u32], number: u32, place: usize) {
        self.state(visit, what, list, [refused(number, place); 2]);
    }

    /// 21 for vector t. Without one the list is well formed, and the claims decide.
    fn visit(&self, visit: &mut Visitor, what: &'static str, list: &[u32], of_zeros: Option<usize>) {
        match of_zeros {
            Some(t) => self.refuse(visit, what, list, 21, t),
            None => {
                let answers = self.parts.each_ref().map(|parts| by_sums(&self.setting, parts, list));
                self.state(visit, what, list, answers);
            }
        }
    }
}

/// The list with zeros in vector t.
fn with_zeros(list: &[u32], columns: usize, t: usize) -> Vec<u32> {
    let mut list = list.to_vec();
    list[t * columns..(t + 1) * columns].fill(0);
    list
}

/// What it shows, a list, and the answers to the true ticket and to the false one.
type Example = (&'static str, &'static [u32], [[u32; 4]; 2]);

/// Examples under K, worked out by hand, with the true tickets of A and B and with
/// those that have one more in the first quotient, as in case d.
pub fn examples(visit: &mut Visitor, form: Form) {
    let (products, [at_once, in_second]) = match form {
        Form::Plain => (12, [[12, 0, 0, 8], [12, 1, 0, 20]]),
        Form::Bias => (16, [[12, 0, 0, 10], [12, 1, 0, 26]]),
    };
    let accepted = |vectors: u32| [0, 0, 0, vectors * products];
    let refused = |number, place| [[number, place, 0, 0]; 2];
    let examples: [Example; 18] = [
        ("X = (0, 0)", &[0, 0], refused(21, 0)),
        ("X = (0, 5)", &[0, 5], [accepted(1); 2]),
        ("X = (5, 0)", &[5, 0], [accepted(1), at_once]),
        ("X = (1, p - 1)", &[1, P - 1], [accepted(1), at_once]),
        ("X = (0, p)", &[0, P], refused(11, 1)),
        ("X = (p, 0)", &[P, 0], refused(11, 0)),
        ("zeros second", &[1, 2, 0, 0], refused(21, 1)),
        ("zeros second, the first hides", &[0, 2, 0, 0], refused(21, 1)),
        ("zeros first", &[0, 0, 1, 2], refused(21, 0)),
        ("zeros twice", &[0, 0, 0, 0], refused(21, 0)),
        ("two zeros of two vectors", &[1, 0, 0, 1], [accepted(2), at_once]),
        ("a column of zeros", &[0, 1, 0, 2], [accepted(2); 2]),
        ("a zero in each column", &[0, 1, 1, 0], [accepted(2), in_second]),
        ("zeros and p last", &[0, 0, 1, P], refused(11, 3)),
        ("2^32 - 1 and then zeros", &[u32::MAX, 1, 0, 0], refused(11, 0)),
        ("zeros three times", &[0, 0, 0, 0, 0, 0], refused(21, 0)),
        ("zeros third", &[1, 2, 0, 1, 0, 0], refused(21, 2)),
        ("zeros second and third", &[1, 2, 0, 0, 0, 0], refused(21, 1)),
    ];
    for (what, list, answers) in examples {
        let setting = Setting {
            vectors: list.len() as u32 / 2,
            ..k(form)
        };
        let right = Parts::true_ones(&setting, &A, &B, &BIAS);
        let mut wrong = right.clone();
        wrong.quotients[0] += 1;
        let both = Both::new(setting, 0, [right, wrong]);
        both.state(visit, what, list, answers.map(Answer::from));
        // One number less and one more, and one vector.
        let longer = [list, &[0, 0]].concat();
        for length in [0, list.len() - 2, list.len() - 1, list.len() + 1, list.len() + 2] {
            both.refuse(visit, "another length", &longer[..length], 10, 0);
        }
    }
}

/// One vector of zeros in well-formed lists of each kind. Most of the false tickets
/// would be caught by another vector, before it or after it.
pub fn one_vector(visit: &mut Visitor, form: Form) {
    let mut generator = Generator::new(1201);
    for columns in [1, 2, 3, 4, 7, 32] {
        for vectors in 1..=8 {
            let both = Both::of(&mut generator, form, columns, vectors);
            let mut lists = lists(&mut generator, &both.setting);
            lists.retain(|list| first_of_zeros(&both.setting, list).is_none());
            for list in &lists {
                for t in 0..vectors {
                    both.visit(visit, "one vector", &with_zeros(list, columns, t), Some(t));
                }
            }
        }
    }
}

/// Vectors of zeros in every set of places: the first counts.
pub fn every_set(visit: &mut Visitor, form: Form) {
    let mut generator = Generator::new(1202);
    for columns in 1..=3 {
        for vectors in 1..=8 {
            let both = Both::of(&mut generator, form, columns, vectors);
            let list = list_without_zero(&mut generator, &both.setting);
            for set in 0..1_u32 << vectors {
                let of_zeros = || (0..vectors).filter(|t| set >> t & 1 == 1);
                let list = of_zeros().fold(list.clone(), |list, t| with_zeros(&list, columns, t));
                both.visit(visit, "a set of vectors", &list, of_zeros().next());
            }
        }
    }
}

/// One vector of zeros or all, and at every index a number that 11 refuses: before
/// the vector, in it and after it.
pub fn numbers_beyond(visit: &mut Visitor, form: Form) {
    let mut generator = Generator::new(1203);
    for columns in 1..=3 {
        for vectors in [1, 2, 3, 8] {
            let both = Both::of(&mut generator, form, columns, vectors);
            let list = list_without_zero(&mut generator, &both.setting);
            let all = vec![0; list.len()];
            for list in (0..vectors).map(|t| with_zeros(&list, columns, t)).chain([all]) {
                for index in 0..list.len() {
                    for number in BEYOND {
                        let mut list = list.clone();
                        list[index] = number;
                        both.refuse(visit, "zeros and a number of p or more", &list, 11, index);
                    }
                }
            }
        }
    }
}

/// Lists of zeros of every length up to one vector and one number more than the right
/// one.
pub fn lengths(visit: &mut Visitor, form: Form) {
    let mut generator = Generator::new(1204);
    for columns in [1, 2, 3, 5] {
        for vectors in 1..=8 {
            let both = Both::of(&mut generator, form, columns, vectors);
            let right = vectors * columns;
            for length in 0..=right + columns + 1 {
                let number = if length == right { 21 } else { 10 };
                both.refuse(visit, "zeros only", &vec![0; length], number, 0);
            }
        }
    }
}

/// Zeros that stand together, from every index to every other: they fill a vector, or
/// none, also where they go from one into the next.
pub fn runs(visit: &mut Visitor, form: Form) {
    let mut generator = Generator::new(1205);
    for columns in 1..=5 {
        for vectors in 1..=4 {
            let both = Both::of(&mut generator, form, columns, vectors);
            let list = list_without_zero(&mut generator, &both.setting);
            for start in 0..list.len() {
                for end in start + 1..=list.len() {
                    let mut list = list.clone();
                    list[start..end].fill(0);
                    // The first vector that begins in the run.
                    let t = start.div_ceil(columns);
                    let is_filled = (t + 1) * columns <= end;
                    both.visit(visit, "zeros together", &list, is_filled.then_some(t));
                }
            }
        }
    }
}

/// One zero at every index; in every vector one number that is not 0, in every column;
/// and the same without it in one vector.
pub fn one_number(visit: &mut Visitor, form: Form) {
    let mut generator = Generator::new(1206);
    for columns in [2, 3, 5, 8, 32] {
        for vectors in [1, 2, 8] {
            let both = Both::of(&mut generator, form, columns, vectors);
            let list = list_without_zero(&mut generator, &both.setting);
            for index in 0..list.len() {
                let mut list = list.clone();
                list[index] = 0;
                both.visit(visit, "one zero", &list, None);
            }
            for j in 0..columns {
                for number in [1, 1 << 30, P - 1] {
                    let mut list = vec![0; list.len()];
                    list.iter_mut().skip(j).step_by(columns).for_each(|x| *x = number);
                    both.visit(visit, "zeros but for one number", &list, None);
                    for t in 0..vectors {
                        let list = with_zeros(&list, columns, t);
                        both.visit(visit, "zeros but for one number, and a vector", &list, Some(t));
                    }
                }
            }
        }
    }
}

/// All lists of these numbers, of this length.
fn all_lists(numbers: &[u32], length: usize) -> impl Iterator<Item = Vec<u32>> + '_ {
    let count = numbers.len();
    (0..count.pow(length as u32)).map(move |pick| {
        (0..length as u32)
            .map(|index| numbers[pick / count.pow(index) % count])
            .collect()
    })
}

/// All lists of four numbers, as four vectors, two or one, of 0, 1, p - 1 and numbers
/// that 11 refuses.
pub fn four_numbers(visit: &mut Visitor, form: Form) {
    let mut generator = Generator::new(1207);
    for columns in [1, 2, 4] {
        let both = Both::of(&mut generator, form, columns, 4 / columns);
        for list in all_lists(&[0, 1, P - 1, P, 1 << 31, u32::MAX], 4) {
            match list.iter().position(|&number| number >= P) {
                Some(index) => both.refuse(visit, "four numbers", &list, 11, index),
                None => both.visit(visit, "four numbers", &list, first_of_zeros(&both.setting, &list)),
            }
        }
    }
}

/// With one column every 0 is a vector of zeros, and a false ticket is accepted with
/// no list: all lists of up to three numbers, and longer ones drawn.
pub fn one_column(visit: &mut Visitor, form: Form) {
    let mut generator = Generator::new(1208);
    let numbers = [0, 1, 2, P - 2, P - 1];
    for vectors in 1..=8 {
        for _ in 0..6 {
            let both = Both::of(&mut generator, form, 1, vectors);
            let lists: Vec<Vec<u32>> = if vectors < 4 {
                all_lists(&numbers, vectors).collect()
            } else {
                let mut list = || {
                    let mut list = list_without_zero(&mut generator, &both.setting);
                    let index = generator.below(2 * vectors);
                    list.iter_mut().skip(index).step_by(3).for_each(|x| *x = 0);
                    list
                };
                (0..40).map(|_| list()).collect()
            };
            for list in lists {
                let answers = match list.iter().position(|&x| x == 0) {
                    Some(t) => [refused(21, t); 2],
                    None => [accepted(&both.setting), caught(&both.setting, 0, both.row)],
                };
                both.state(visit, "one column", &list, answers);
            }
        }
    }
}

/// Tickets accepted with a list that hides what is false in them, and the same with
/// zeros in one vector of it, and in all.
pub fn hidden(visit: &mut Visitor, form: Form) {
    let mut generator = Generator::new(1209);
    for _ in 0..200 {
        for hide in HIDE {
            let (setting, parts, list) = hide(&mut generator, form);
            if first_of_zeros(&setting, &list).is_some() {
                continue;
            }
            let [_, _, columns, vectors] = sizes(&setting);
            let mut case = TicketCase {
                what: "false, and hidden from the list",
                setting,
                ticket: parts.ticket(&setting),
                expected: Some(accepted(&setting)),
                list,
            };
            visit.full(case.what, &setting, &case.ticket, Some(full_by_sums(&setting, &parts)));
            visit.challenge(&case);
            let list = case.list.clone();
            for t in 0..vectors {
                case.list = with_zeros(&list, columns, t);
                case.expected = Some(refused(21, t));
                visit.challenge(&case);
            }
            case.list.fill(0);
            case.expected = Some(refused(21, 0));
            visit.challenge(&case);
        }
    }
}

/// Zeros in all vectors, and in the last, beside a setting, a length of the ticket or a
/// record that is refused.
pub fn other_refusals(visit: &mut Visitor, form: Form) {
    let mut generator = Generator::new(1210);
    for setting in shapes_and_largest(form) {
        let [_, _, columns, vectors] = sizes(&setting);
        let ticket = true_parts(&mut generator, &setting).ticket(&setting);
        let last = with_zeros(&list_without_zero(&mut generator, &setting), columns, vectors - 1);
        for list in [vec![0; last.len()], last] {
            let mut refuse = |setting: Setting, ticket: &[u8], answer| {
                visit.challenge(&TicketCase {
                    what: "zeros and another refusal",
                    setting,
                    ticket: ticket.to_vec(),
                    list: list.clone(),
                    expected: Some(answer),
                });
            };
            for other in wrong_settings(&setting) {
                refuse(other, &ticket, refusal(&other).expect("a number beyond its limits"));
            }
            let longer = [&ticket[..], &[0; 8]].concat();
            for length in [
                0,
                ticket.len() - 8,
                ticket.len() - 1,
                ticket.len() + 1,
                ticket.len() + 8,
            ] {
                refuse(setting, &longer[..length], refused(4, 0));
            }
            for (first, count, ..) in parts_of(&setting) {
                for record in [first, first + count - 1] {
                    for fault in FAULTS {
                        let mut ticket = ticket.clone();
                        let number = spoil(&setting, &mut ticket, record, fault);
                        refuse(setting, &ticket, refused(number, record));
                    }
                }
            }
        }
    }
}

/// The setting with each number below and above its limits, with o at α, and one that
/// does not fit.
fn wrong_settings(setting: &Setting) -> Vec<Setting> {
    let mut others = vec![
        Setting {
            rounding: setting.scale,
            ..*setting
        },
        Setting {
            scale: 65_536,
            width: 30,
            ..*setting
        },
    ];
    for field in fields(setting.form()) {
        for number in [field.least.wrapping_sub(1), field.greatest + 1] {
            let mut other = *setting;
            *(field.of)(&mut other) = number;
            others.push(other);
        }
    }
    others
}

/// The largest sizes: vectors of 32 numbers, 8 of them.
pub fn largest(visit: &mut Visitor, form: Form) {
    let mut generator = Generator::new(1211);
    let both = Both::under(&mut generator, in_form(LARGEST, form));
    let [_, _, columns, vectors] = sizes(&both.setting);
    let list = list_without_zero(&mut generator, &both.setting);
    let count = list.len();
    for t in 0..vectors {
        both.visit(visit, "one vector", &with_zeros(&list, columns, t), Some(t));
        // From its second number on, and all of the next but its last.
        let mut list = list.clone();
        let start = t * columns + 1;
        list[start..(start + 2 * columns - 2).min(count - 1)].fill(0);
        both.visit(visit, "zeros together", &list, None);
    }
    for j in 0..columns {
        let t = j % vectors;
        let mut one_zero = list.clone();
        one_zero[t * columns + j] = 0;
        both.visit(visit, "one zero", &one_zero, None);
        let mut list = vec![0; count];
        list.iter_mut().skip(j).step_by(columns).for_each(|x| *x = P - 1);
        both.visit(visit, "zeros but for one number", &list, None);
        let list = with_zeros(&list, columns, t);
        both.visit(visit, "zeros but for one number, and a vector", &list, Some(t));
    }
    let mut zeros = vec![0; count];
    both.refuse(visit, "zeros only", &zeros, 21, 0);
    for length in [count - columns, count - 1, count + 1, count + columns] {
        both.refuse(visit, "zeros only", &vec![0; length], 10, 0);
    }
    zeros[count - 1] = P;
    both.refuse(visit, "zeros, and p last", &zeros, 11, count - 1);
}

/// Lists of random numbers, of which a number here and there is 0 or one that 11
/// refuses, and vectors are of zeros.
pub fn random(visit: &mut Visitor, form: Form) {
    let mut generator = Generator::new(1212);
    for _ in 0..1_500 {
        let [columns, vectors, ..] = sizes_up_to(&mut generator, [6, 8, 1, 1]).map(|size| size as usize);
        let both = Both::of(&mut generator, form, columns, vectors);
        let mut list = well_formed_list(&mut generator, &both.setting);
        let mut of_zeros = None;
        for t in (0..vectors).filter(|_| generator.once_in(6)) {
            list = with_zeros(&list, columns, t);
            of_zeros = of_zeros.or(Some(t));
        }
        let mut beyond: Vec<usize> = (0..list.len()).filter(|_| generator.once_in(60)).collect();
        beyond.truncate(2);
        for &index in &beyond {
            list[index] = generator.choose(&BEYOND);
        }
        match beyond.first() {
            Some(&index) => both.refuse(visit, "drawn", &list, 11, index),
            None => both.visit(visit, "drawn", &list, of_zeros),
        }
    }
}

#[cfg(test)]
mod tests {
    use super::*;
    use crate::cases::{apart, Call, Case, Cases, Family, Reply, Side};
    use crate::comparison::compare;

    fn list_of<'a>(case: &Case<'a>) -> &'a [u32] {
        match case.call {
            Call::Challenge { list, .. } => list,
            _ => &[],
        }
    }

    /// The reply to a case with 21, for its t, and all others as they are.
    fn instead(case: &Case, answer: impl Fn(usize) -> Answer) -> Reply {
        match apart(case) {
            reply if reply.answer.number == 21 => Reply::from(answer(reply.answer.place as usize)),
            reply => reply,
        }
    }

    /// 21 where the list has a vector of zeros, and otherwise one of these numbers.
    fn before(case: &Case, numbers: &[u32]) -> Reply {
        let setting = Setting {
            columns: case.setting.columns.clamp(1, 32),
            ..case.setting
        };
        match (apart(case), first_of_zeros(&setting, list_of(case))) {
            (reply, Some(t)) if numbers.contains(&reply.answer.number) => Reply::from(refused(21, t)),
            (reply, _) => reply,
        }
    }

    fn one_zero_is_enough(case: &Case) -> Reply {
        let index = list_of(case).iter().position(|&x| x == 0);
        match (apart(case), index) {
            (reply, Some(index)) if [0, 12, 21].contains(&reply.answer.number) => {
                Reply::from(refused(21, index / case.setting.columns as usize))
            }
            (reply, _) => reply,
        }
    }

    fn never(case: &Case) -> Reply {
        instead(case, |_| accepted(&case.setting))
    }

    fn in_the_first_vector_alone(case: &Case) -> Reply {
        instead(case, |t| match t {
            0 => refused(21, 0),
            _ => accepted(&case.setting),
        })
    }

    fn in_the_last_vector_alone(case: &Case) -> Reply {
        let last = case.setting.vectors as usize - 1;
        let columns = case.setting.columns as usize;
        instead(case, |_| match list_of(case)[last * columns..].iter().max() {
            Some(0) => refused(21, last),
            _ => accepted(&case.setting),
        })
    }

    fn the_last_of_several(case: &Case) -> Reply {
        instead(case, |_| {
            let mut vectors = list_of(case).chunks(case.setting.columns as usize);
            let last = vectors.rposition(|x| x.iter().max() == Some(&0));
            refused(21, last.expect("one is of zeros"))
        })
    }

    fn place_in_the_list(case: &Case) -> Reply {
        instead(case, |t| refused(21, t * case.setting.columns as usize))
    }

    fn with_the_products_before(case: &Case) -> Reply {
        instead(case, |t| Answer {
            products: accepted(&case.setting).products / case.setting.vectors * t as u32,
            ..refused(21, t)
        })
    }

    fn after_12(case: &Case) -> Reply {
        instead(case, |t| {
            let setting = Setting {
                vectors: t as u32,
                ..case.setting
            };
            let Call::Challenge { ticket, list } = case.call else {
                return refused(21, t);
            };
            let list = &list[..t * setting.columns as usize];
            let call = Call::Challenge { ticket, list };
            let earlier = apart(&Case {
                what: case.what,
                setting,
                call,
                expected: None,
            });
            match earlier.answer {
                answer if answer.number == 12 => answer,
                _ => refused(21, t),
            }
        })
    }

    fn before_11(case: &Case) -> Reply {
        before(case, &[11])
    }

    fn before_10(case: &Case) -> Reply {
        before(case, &[10])
    }

    fn before_the_ticket(case: &Case) -> Reply {
        before(case, &[4, 5, 6, 7, 8, 9, 18])
    }

    fn before_the_setting(case: &Case) -> Reply {
        before(case, &[1, 2, 3, 17, 19])
    }

    /// Answers are stated where both sides might err alike.
    #[test]
    fn the_same_mistake_on_both_sides_is_noticed() {
        let places: &[Cases] = &[examples, one_vector, every_set, runs, one_number, largest, random];
        let mistakes: [(Side, &[Cases]); 12] = [
            (
                one_zero_is_enough,
                &[examples, runs, one_number, four_numbers, largest, random],
            ),
            (never, &[examples, one_vector, every_set, lengths, one_column, hidden]),
            (in_the_first_vector_alone, places),
            (in_the_last_vector_alone, places),
            (
                the_last_of_several,
                &[examples, every_set, four_numbers, hidden, random],
            ),
            (place_in_the_list, places),
            (with_the_products_before, places),
            (after_12, &[examples, one_vector, every_set, one_column, largest]),
            (before_11, &[examples, numbers_beyond, four_numbers, largest, random]),
            (before_10, &[examples, lengths, largest]),
            (before_the_ticket, &[other_refusals]),
            (before_the_setting, &[other_refusals]),
        ];
        for (number, (side, families)) in mistakes.into_iter().enumerate() {
            for (index, &cases) in families.iter().enumerate() {
                for form in [Form::Plain, Form::Bias] {
                    let name = String::new();
                    let outcome = compare(&Family { name, form, cases }, side, side);
                    assert!(outcome.differing > 0, "mistake {number}, family {index}, {form:?}");
                }
            }
        }
    }

    /// The family would be of no use with true tickets.
    #[test]
    fn false_tickets_are_accepted_unless_a_vector_is_of_zeros() {
        for form in [Form::Plain, Form::Bias] {
            let mut false_one = false;
            let [mut hidden_ones, mut of_zeros] = [0; 2];
            let mut visit = |case: &Case| {
                let answer = case.expected.as_ref().expect("every case is stated").answer;
                match (case.call, answer.number) {
                    (Call::Full { .. }, number) => false_one = number == 16,
                    (_, 0) => hidden_ones += u32::from(false_one),
                    _ => of_zeros += u32::from(false_one),
                }
            };
            hidden(&mut Visitor(&mut visit), form);
            assert!(hidden_ones > 500 && of_zeros > 2_000, "{hidden_ones} {of_zeros}");
        }
    }
}
