//! The pieces that cases of runs are made of.

use apart::{Answer, Run};

use super::stated::product;
use super::Visitor;
use crate::cases::refused;
use crate::families::craft::{counts, falsify, list_without_zero, sizes, true_parts, P};
use crate::families::damage::{spoil, Fault, FAULTS};
use crate::families::rounding::fitting;
use crate::generator::Generator;
use crate::parts::{ticket_length, Parts};
use crate::setting::{Form, Setting};

/// A ticket to lend.
pub struct Lent {
    pub bytes: Vec<u8>,
    /// The setting that it is made for.
    setting: Setting,
    /// What reading it gives there, if that is known: its numbers, or a refusal.
    reading: Option<Result<Parts, Answer>>,
}

impl Lent {
    /// The ticket of numbers within the ranges.
    pub fn of(setting: &Setting, parts: &Parts) -> Lent {
        Lent {
            bytes: parts.ticket(setting),
            setting: *setting,
            reading: Some(Ok(parts.clone())),
        }
    }

    /// The ticket of these numbers with a fault in one record.
    pub fn spoilt(setting: &Setting, parts: &Parts, record: usize, fault: Fault) -> Lent {
        let mut bytes = parts.ticket(setting);
        let number = spoil(setting, &mut bytes, record, fault);
        Lent {
            reading: Some(Err(refused(number, record))),
            ..Lent::any(setting, bytes)
        }
    }

    /// The same with any fault in any record.
    pub fn spoilt_somewhere(generator: &mut Generator, setting: &Setting, parts: &Parts) -> Lent {
        let [a, b, _, claims] = counts(setting);
        let record = generator.below(a + b + 2 * claims);
        Lent::spoilt(setting, parts, record, generator.choose(&FAULTS))
    }

    /// Bytes of which nothing is known but their length.
    pub fn any(setting: &Setting, bytes: Vec<u8>) -> Lent {
        Lent {
            bytes,
            setting: *setting,
            reading: None,
        }
    }

    /// What reading it gives under a setting that passes its tests, if that is known. s
    /// has no part in it.
    pub fn reading(&self, setting: &Setting) -> Option<Result<&Parts, Answer>> {
        let made_for = Setting {
            vectors: setting.vectors,
            ..self.setting
        };
        if self.bytes.len() as u128 != ticket_length(setting) {
            Some(Err(refused(4, 0)))
        } else if *setting != made_for {
            None
        } else {
            let reading = self.reading.as_ref()?;
            Some(reading.as_ref().map_err(|&answer| answer))
        }
    }
}

/// Small settings of different shapes, with any rounding number. The list of the last
/// fills its room.
pub fn settings(generator: &mut Generator) -> Vec<Setting> {
    let sizes = [
        [2, 2, 2, 1],
        [1, 1, 1, 1],
        [3, 2, 1, 2],
        [1, 4, 3, 3],
        [2, 1, 5, 8],
        [1, 2, 2, 7],
        [2, 3, 32, 8],
    ];
    let setting = |sizes| fitting(generator, Form::Plain, sizes);
    sizes.map(setting).into()
}

/// Any number, often one where a range ends.
pub fn any_number(generator: &mut Generator) -> u32 {
    match generator.below(4) {
        0 => generator.choose(&[0, 1, P - 1, P, P + 1, 1 << 31, 2 * P, u32::MAX]),
        _ => generator.word(),
    }
}

pub fn any_numbers<const COUNT: usize>(generator: &mut Generator) -> [u32; COUNT] {
    std::array::from_fn(|_| any_number(generator))
}

/// The state of a run at t and row, with a list, and with B times vector t where there is
/// one. Any numbers stand past the list and past m numbers of u.
pub fn state(generator: &mut Generator, setting: &Setting, parts: &Parts, list: &[u32], [t, row]: [u32; 2]) -> Run {
    let mut run = Run {
        setting: setting.numbers().into(),
        list: any_numbers(generator),
        list_length: list.len() as u32,
        vector: t,
        row,
        u: any_numbers(generator),
        caught: 0,
    };
    run.list[..list.len()].copy_from_slice(list);
    let [_, inner, columns, _] = sizes(setting);
    if let Some(x) = list.chunks(columns).nth(t as usize) {
        run.u[..inner].copy_from_slice(&product(setting, parts, x));
    }
    run
}

/// One vector without a zero.
pub fn some_vector(generator: &mut Generator, setting: &Setting) -> Vec<u32> {
    list_without_zero(generator, &Setting { vectors: 1, ..*setting })
}

/// What can be handed to runs of a setting: tickets to steps, and vectors to additions.
pub struct Handed {
    pub tickets: Vec<(&'static str, Lent)>,
    pub vectors: Vec<(&'static str, Vec<u32>)>,
}

impl Handed {
    /// The right ones come first: the ticket of these numbers, and a vector without a
    /// zero.
    pub fn of(generator: &mut Generator, setting: &Setting, parts: &Parts) -> Handed {
        let [rows, _, columns, _] = sizes(setting);
        let mut wrong = parts.clone();
        let (i, j) = (generator.below(rows), generator.below(columns));
        falsify(generator, setting, &mut wrong, i, j);
        let other = true_parts(generator, setting);
        let right = Lent::of(setting, parts);
        let length = right.bytes.len();
        let longer = [&right.bytes[..], &[0; 8]].concat();
        let of_length = |length: usize| Lent::any(setting, longer[..length].to_vec());
        let tickets = vec![
            ("another true ticket", Lent::of(setting, &other)),
            ("a false ticket", Lent::of(setting, &wrong)),
            ("a record spoilt", Lent::spoilt_somewhere(generator, setting, parts)),
            ("no byte", of_length(0)),
            ("a byte less", of_length(length - 1)),
            ("a record less", of_length(length - 8)),
            ("a record more", of_length(length + 8)),
        ];
        let vector = some_vector(generator, setting);
        let with_p = |index: usize| {
            let mut vector = vector.clone();
            vector[index] = P;
            vector
        };
        let mut p_and_zeros = vec![0; columns];
        p_and_zeros[columns - 1] = P;
        let vectors = vec![
            ("zeros", vec![0; columns]),
            ("no number", Vec::new()),
            ("a number less", vector[1..].to_vec()),
            ("a number more", [&vector[..], &[1]].concat()),
            ("300 numbers", vec![1; 300]),
            ("p first", with_p(0)),
            ("p last", with_p(columns - 1)),
            ("p and zeros", p_and_zeros),
        ];
        Handed {
            tickets: [("the ticket", right)].into_iter().chain(tickets).collect(),
            vectors: [("a vector", vector)].into_iter().chain(vectors).collect(),
        }
    }

    /// Steps of a state with every ticket, and additions of every vector to it.
    pub fn visit(&self, visit: &mut Visitor, run: &Run) {
        for (what, ticket) in &self.tickets {
            visit.step(what, run, ticket);
        }
        for (what, vector) in &self.vectors {
            visit.add(what, run, vector);
        }
    }
}
