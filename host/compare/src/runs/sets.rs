//! Several refusals at once: the first in the order of the tests decides.

use apart::{Answer, Run};

use super::craft::{some_vector, state, Lent};
use super::stated::refusal;
use super::{Call, Visitor};
use crate::cases::refused;
use crate::families::craft::{list_without_zero, sizes, true_parts, P};
use crate::families::damage::{self, FAULTS};
use crate::families::rounding::fitting;
use crate::generator::Generator;
use crate::parts::Parts;
use crate::setting::{Form, Setting};

/// What is refused of a step or of an addition.
#[derive(Clone, Copy)]
pub enum Fault {
    Sizes,
    Others,
    Rounding,
    Fitting,
    TicketLength,
    Record,
    ListLength,
    ListNumber,
    ListZeros,
    VectorLength,
    VectorNumber,
    VectorZeros,
    Ended,
}

/// Those of a step, in the order of the tests.
pub const STEP: [Fault; 9] = [
    Fault::Sizes,
    Fault::Others,
    Fault::Rounding,
    Fault::Fitting,
    Fault::TicketLength,
    Fault::Record,
    Fault::ListLength,
    Fault::ListNumber,
    Fault::ListZeros,
];

/// Those of an addition.
pub const ADDITION: [Fault; 11] = [
    Fault::Sizes,
    Fault::Others,
    Fault::Rounding,
    Fault::Fitting,
    Fault::ListLength,
    Fault::ListNumber,
    Fault::ListZeros,
    Fault::VectorLength,
    Fault::VectorNumber,
    Fault::VectorZeros,
    Fault::Ended,
];

/// A state, and what is handed in with it.
#[derive(Clone)]
pub struct Inputs {
    pub run: Run,
    pub ticket: Vec<u8>,
    pub vector: Vec<u32>,
}

impl Inputs {
    /// All is right, and the run is at t and row.
    pub fn new(generator: &mut Generator, setting: &Setting, parts: &Parts, place: [u32; 2]) -> Inputs {
        let list = list_without_zero(generator, setting);
        Inputs {
            run: state(generator, setting, parts, &list, place),
            ticket: parts.ticket(setting),
            vector: some_vector(generator, setting),
        }
    }

    pub fn step(&self) -> Call<'_> {
        Call::Step {
            run: &self.run,
            ticket: &self.ticket,
        }
    }

    pub fn add(&self) -> Call<'_> {
        Call::Add {
            run: &self.run,
            vector: &self.vector,
        }
    }

    /// Puts a fault in and says what it is refused with, if all before it is right.
    pub fn spoil(&mut self, generator: &mut Generator, fault: Fault) -> Answer {
        match fault {
            Fault::Sizes | Fault::Others | Fault::Rounding | Fault::Fitting => self.spoil_setting(generator, fault),
            Fault::TicketLength | Fault::Record => self.spoil_ticket(generator, fault),
            Fault::ListLength | Fault::ListNumber | Fault::ListZeros => self.spoil_list(generator, fault),
            Fault::VectorLength | Fault::VectorNumber | Fault::VectorZeros => self.spoil_vector(generator, fault),
            Fault::Ended => self.end(generator),
        }
    }

    fn spoil_setting(&mut self, generator: &mut Generator, fault: Fault) -> Answer {
        let setting = &mut self.run.setting;
        let number = match fault {
            Fault::Sizes => {
                match generator.below(6) {
                    0 => setting.rows = 33,
                    1 => setting.inner = 0,
                    2 => setting.inner = 65,
                    3 => setting.columns = u32::MAX,
                    4 => setting.vectors = 9,
                    _ => setting.vectors = 0,
                }
                1
            }
            Fault::Others => {
                match generator.below(5) {
                    0 => setting.scale = 1,
                    1 => setting.scale = 65_537,
                    2 => setting.bound = 32_768,
                    3 => setting.width = 0,
                    _ => setting.width = 31,
                }
                2
            }
            Fault::Rounding => {
                setting.rounding = generator.choose(&[setting.scale, setting.scale + 1, P, u32::MAX]);
                19
            }
            _ => {
                // 2^30·α is beyond p for every α.
                setting.width = 30;
                3
            }
        };
        refused(number, 0)
    }

    fn spoil_ticket(&mut self, generator: &mut Generator, fault: Fault) -> Answer {
        let length = self.ticket.len();
        if let Fault::TicketLength = fault {
            let other = generator.choose(&[0, length - 8, length - 1, length + 1, length + 8]);
            self.ticket.resize(other, 0);
            return refused(4, 0);
        }
        let record = generator.below(length / 8);
        let setting = Setting::plain(self.run.setting);
        let number = damage::spoil(&setting, &mut self.ticket, record, generator.choose(&FAULTS));
        refused(number, record)
    }

    fn spoil_list(&mut self, generator: &mut Generator, fault: Fault) -> Answer {
        let [_, _, columns, vectors] = sizes(&Setting::plain(self.run.setting));
        let right = vectors * columns;
        match fault {
            Fault::ListLength => {
                let lengths = [0, right as u32 - 1, right as u32 + 1, 257, u32::MAX];
                self.run.list_length = generator.choose(&lengths);
                refused(10, 0)
            }
            Fault::ListNumber => {
                let index = generator.below(right);
                self.run.list[index] = some_number_beyond(generator);
                refused(11, index)
            }
            _ => {
                let t = generator.below(vectors);
                self.run.list[t * columns..(t + 1) * columns].fill(0);
                refused(21, t)
            }
        }
    }

    fn spoil_vector(&mut self, generator: &mut Generator, fault: Fault) -> Answer {
        let [_, _, columns, vectors] = sizes(&Setting::plain(self.run.setting));
        match fault {
            Fault::VectorLength => {
                let number = generator.choose(&[0, 1, P]);
                let length = generator.choose(&[0, columns - 1, columns + 1, 300]);
                self.vector.resize(length, number);
                refused(10, 0)
            }
            Fault::VectorNumber => {
                let index = generator.below(columns);
                self.vector[index] = some_number_beyond(generator);
                refused(11, vectors * columns + index)
            }
            _ => {
                self.vector.fill(0);
                refused(21, vectors)
            }
        }
    }

    /// The run is caught, or complete by t or by row.
    fn end(&mut self, generator: &mut Generator) -> Answer {
        let run = &mut self.run;
        match generator.below(5) {
            0 => run.caught = 1,
            1 => run.caught = u32::MAX,
            2 => run.vector = generator.choose(&[run.setting.vectors, u32::MAX]),
            3 => run.row = generator.choose(&[run.setting.rows, u32::MAX]),
            _ => (run.vector, run.caught) = (run.setting.vectors, 1),
        }
        refused(22, 0)
    }
}

fn some_number_beyond(generator: &mut Generator) -> u32 {
    generator.choose(&[P, P + 1, 2 * P, u32::MAX])
}

/// Every set of faults of a step, at a state that is under way and at one that has ended,
/// and every set of those of an addition.
pub fn several(visit: &mut Visitor) {
    let mut generator = Generator::new(1351);
    for sizes_of_run in [[2, 2, 2, 3], [1, 1, 3, 2], [3, 2, 1, 8]] {
        let setting = fitting(&mut generator, Form::Plain, sizes_of_run);
        let parts = true_parts(&mut generator, &setting);
        let right = Inputs::new(&mut generator, &setting, &parts, [1, 0]);
        let mut ended = right.clone();
        ended.end(&mut generator);
        for inputs in [&right, &ended] {
            visit.step("no refusal", &inputs.run, &Lent::of(&setting, &parts));
            visit_sets(visit, &mut generator, inputs, &STEP, Inputs::step);
        }
        visit.add("no refusal", &right.run, &right.vector);
        visit_sets(visit, &mut generator, &right, &ADDITION, Inputs::add);
    }
}

/// Every set of these faults, which are in the order of the tests, and at least one, in
/// several ways each.
fn visit_sets(
    visit: &mut Visitor,
    generator: &mut Generator,
    right: &Inputs,
    all: &[Fault],
    call: for<'a> fn(&'a Inputs) -> Call<'a>,
) {
    for set in (1..1_usize << all.len()).flat_map(|set| [set; 3]) {
        let mut inputs = right.clone();
        let faults = (0..all.len()).rev().filter(|index| set >> index & 1 == 1);
        // The first is put in last, and its refusal remains.
        let answer = faults.map(|index| inputs.spoil(generator, all[index])).last();
        let answer = answer.expect("there is at least one");
        visit.stated("several refusals", call(&inputs), refusal(&inputs.run, answer));
    }
}
