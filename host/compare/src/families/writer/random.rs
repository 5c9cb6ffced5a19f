//! Random operands, one in three of them written and the others spoilt in ways
//! drawn at random; random settings.

use super::{visit_written, writer_case, Filling};
use crate::cases::{Visitor, WriterCase, Writing};
use crate::families::craft::{fields, fitting, sizes_up_to, true_parts};
use crate::families::random::{random_setting, rounds};
use crate::families::settings::refusal;
use crate::generator::Generator;
use crate::setting::{Form, Setting};

pub fn small(visit: &mut Visitor, form: Form) {
    operands(visit, form, 841, 60_000, [4, 4, 4, 3]);
}

pub fn medium(visit: &mut Visitor, form: Form) {
    operands(visit, form, 842, 4_000, [12, 12, 12, 3]);
}

pub fn large(visit: &mut Visitor, form: Form) {
    operands(visit, form, 843, 100, [32, 64, 32, 2]);
}

fn operands(visit: &mut Visitor, form: Form, seed: u64, count: usize, most: [u32; 4]) {
    let mut generator = Generator::new(seed);
    for _ in 0..rounds(form, count) {
        let sizes = sizes_up_to(&mut generator, most);
        let setting = fitting(&mut generator, form, sizes);
        visit_operands(visit, &mut generator, &setting);
    }
}

/// Random operands under a setting that fits, written or spoilt.
pub fn visit_operands(visit: &mut Visitor, generator: &mut Generator, setting: &Setting) {
    let parts = true_parts(generator, setting);
    if generator.once_in(3) {
        visit_written(visit, generator, "random operands", setting, &parts);
        return;
    }
    let past = generator.below(20);
    let output = generator.choose(&Filling::ALL).output(&parts.ticket(setting), past);
    let mut case = writer_case("spoilt at random", setting, &parts, output);
    let damages = if generator.once_in(3) { 2 } else { 1 };
    for _ in 0..damages {
        generator.choose(&DAMAGES)(generator, &mut case);
    }
    case.expected = None;
    visit.write(&case);
}

type Damage = fn(&mut Generator, &mut WriterCase);

const DAMAGES: [Damage; 6] = [
    one_number,
    one_number_at_the_bound,
    length_of_an_operand,
    operands_change_places,
    length_of_the_output,
    one_number_of_the_setting,
];

/// A, B or the bias, and the bound of its numbers.
fn some_operand<'a>(generator: &mut Generator, case: &'a mut WriterCase) -> (&'a mut Vec<i32>, u32) {
    let count = match case.setting.form() {
        Form::Plain => 2,
        Form::Bias => 3,
    };
    match generator.below(count) {
        0 => (&mut case.a, case.setting.bound),
        1 => (&mut case.b, case.setting.bound),
        _ => (&mut case.bias, case.setting.greatest_bias()),
    }
}

/// One number of A, B or the bias, if there is any, and its bound.
fn some_number<'a>(generator: &mut Generator, case: &'a mut WriterCase) -> Option<(&'a mut i32, u32)> {
    let (operand, bound) = some_operand(generator, case);
    let count = operand.len();
    (count > 0).then(|| (&mut operand[generator.below(count)], bound))
}

fn one_number(generator: &mut Generator, case: &mut WriterCase) {
    if let Some((number, _)) = some_number(generator, case) {
        *number = generator.word() as i32 >> generator.below(32);
    }
}

fn one_number_at_the_bound(generator: &mut Generator, case: &mut WriterCase) {
    if let Some((number, bound)) = some_number(generator, case) {
        let bound = i64::from(bound);
        let near = generator.between(bound - 1, bound + 2);
        *number = if generator.once_in(2) { near } else { -near } as i32;
    }
}

fn length_of_an_operand(generator: &mut Generator, case: &mut WriterCase) {
    let (operand, _) = some_operand(generator, case);
    let length = operand.len();
    let other = match generator.below(3) {
        0 => generator.below(length + 1),
        1 => length + 1,
        _ => length.saturating_sub(1),
    };
    operand.resize(other, 0);
}

fn operands_change_places(generator: &mut Generator, case: &mut WriterCase) {
    if case.setting.form() == Form::Bias && generator.once_in(2) {
        std::mem::swap(&mut case.b, &mut case.bias);
    } else {
        std::mem::swap(&mut case.a, &mut case.b);
    }
}

fn length_of_the_output(generator: &mut Generator, case: &mut WriterCase) {
    let length = generator.below(case.output.len() + 30);
    case.output.resize(length, 0xC3);
}

fn one_number_of_the_setting(generator: &mut Generator, case: &mut WriterCase) {
    let fields = fields(case.setting.form());
    let field = &fields[generator.below(fields.len())];
    let number = (field.of)(&mut case.setting);
    *number = match generator.below(3) {
        0 => generator.word() >> generator.below(32),
        1 => number.wrapping_add(1),
        _ => number.wrapping_sub(1),
    };
}

pub fn settings(visit: &mut Visitor, form: Form) {
    let mut generator = Generator::new(844);
    for _ in 0..rounds(form, 200_000) {
        let setting = random_setting(&mut generator, form);
        visit_setting(visit, &mut generator, setting);
    }
}

/// A setting of random numbers, with operands and an output that match where it is
/// refused by nothing else and they are not long, and with others otherwise.
pub fn visit_setting(visit: &mut Visitor, generator: &mut Generator, setting: Setting) {
    let refusal = refusal(&setting);
    let small = [setting.rows, setting.inner, setting.columns]
        .iter()
        .all(|&size| size <= 8);
    let case = if refusal.is_none() && small {
        let parts = true_parts(generator, &setting);
        let output = Filling::Index.output(&parts.ticket(&setting), 3);
        writer_case("a random setting", &setting, &parts, output)
    } else {
        WriterCase {
            what: "a random setting",
            setting,
            a: vec![1; generator.below(10)],
            b: vec![1; generator.below(10)],
            bias: Vec::new(),
            output: vec![0xC3; generator.below(100)],
            expected: refusal.map(Writing::Refusal),
        }
    };
    visit.write(&case);
}
