//! States that are refused: settings at and beyond their limits, and states of any numbers.

use apart::Run;

use super::craft::{any_number, any_numbers, some_vector, state, Lent};
use super::sets::{Inputs, ADDITION, STEP};
use super::stated::refusal;
use super::Visitor;
use crate::families::craft::{fields, list_without_zero, shapes_and_largest, sizes_up_to, true_parts, K};
use crate::families::rounding::{self, fitting};
use crate::families::settings::values;
use crate::generator::Generator;
use crate::setting::{Form, Setting};

/// Steps and additions under one setting after another, with what is right for the first.
struct Under {
    run: Run,
    ticket: Lent,
    nothing: Lent,
    vector: Vec<u32>,
}

impl Under {
    fn new(generator: &mut Generator, setting: &Setting) -> Under {
        let parts = true_parts(generator, setting);
        let list = list_without_zero(generator, setting);
        Under {
            run: state(generator, setting, &parts, &list, [0, 0]),
            ticket: Lent::of(setting, &parts),
            nothing: Lent::any(setting, Vec::new()),
            vector: some_vector(generator, setting),
        }
    }

    fn visit(&self, visit: &mut Visitor, setting: Setting) {
        let run = Run {
            setting: setting.numbers().into(),
            ..self.run
        };
        visit.step("the ticket", &run, &self.ticket);
        visit.step("no byte", &run, &self.nothing);
        visit.add("the vector", &run, &self.vector);
        visit.add("no number", &run, &[]);
    }
}

/// Each number of the setting alone at every value.
pub fn limits(visit: &mut Visitor) {
    let mut generator = Generator::new(1341);
    for base in shapes_and_largest(Form::Plain) {
        let under = Under::new(&mut generator, &base);
        for field in fields(Form::Plain) {
            for value in values(field) {
                let mut setting = base;
                *(field.of)(&mut setting) = value;
                under.visit(visit, setting);
            }
        }
        for rounding in rounding::limits::values(base.scale) {
            under.visit(visit, Setting { rounding, ..base });
        }
    }
}

/// Two numbers of K at every pair of values, and then all of them at once.
pub fn pairs_of_limits(visit: &mut Visitor) {
    let mut generator = Generator::new(1342);
    let under = Under::new(&mut generator, &K);
    let fields = fields(Form::Plain);
    for (index, first) in fields.iter().enumerate() {
        for second in &fields[index + 1..] {
            for one in values(first) {
                for two in values(second) {
                    let mut setting = K;
                    *(first.of)(&mut setting) = one;
                    *(second.of)(&mut setting) = two;
                    under.visit(visit, setting);
                }
            }
        }
    }
    for value in fields.iter().flat_map(values) {
        let mut setting = K;
        for field in fields {
            *(field.of)(&mut setting) = value;
        }
        under.visit(visit, setting);
    }
}

/// Each refusal alone, at states of any numbers: none of them changes.
pub fn handed_back(visit: &mut Visitor) {
    let mut generator = Generator::new(1343);
    for _ in 0..1_000 {
        let sizes = sizes_up_to(&mut generator, [5, 5, 5, 8]);
        let setting = fitting(&mut generator, Form::Plain, sizes);
        let parts = true_parts(&mut generator, &setting);
        let mut right = Inputs::new(&mut generator, &setting, &parts, [0, 0]);
        right.run.u = any_numbers(&mut generator);
        for number in [&mut right.run.vector, &mut right.run.row, &mut right.run.caught] {
            *number = any_number(&mut generator) >> generator.below(32);
        }
        for fault in STEP {
            let mut inputs = right.clone();
            let answer = inputs.spoil(&mut generator, fault);
            visit.stated("a refusal of a step", inputs.step(), refusal(&inputs.run, answer));
        }
        for fault in ADDITION {
            let mut inputs = right.clone();
            let answer = inputs.spoil(&mut generator, fault);
            visit.stated("a refusal of an addition", inputs.add(), refusal(&inputs.run, answer));
        }
    }
}
