//! Operands of other lengths and beyond the bound, alone and together with all
//! else that the writer refuses.

use super::{writer_case, Filling};
use crate::cases::{refused, Visitor, WriterCase, Writing};
use crate::families::craft::{fitting, in_form, shapes, sizes, true_parts, LARGEST, P};
use crate::families::rounding;
use crate::generator::Generator;
use crate::parts::Parts;
use crate::setting::{Form, Setting};

/// A case that is written, with an output that is longer by one byte.
fn case_to_spoil(generator: &mut Generator, what: &'static str, setting: &Setting) -> WriterCase {
    let parts = true_parts(generator, setting);
    let output = Filling::Inverse.output(&parts.ticket(setting), 1);
    writer_case(what, setting, &parts, output)
}

/// Settings of different shapes, also those where A and B are not of the same
/// length and the bound is the greatest.
fn settings(generator: &mut Generator, form: Form) -> Vec<Setting> {
    let mut settings = shapes(form).to_vec();
    for sizes in [[1, 2, 3, 1], [3, 2, 1, 2], [4, 1, 4, 1], [1, 7, 1, 1], [2, 3, 4, 8]] {
        settings.push(fitting(generator, form, sizes));
    }
    settings.push(in_form(Setting::from([3, 1, 2, 1, 32_767, 32_767, 16]), form));
    if form == Form::Bias {
        // The largest W that fits at all.
        settings.push(in_form(Setting::from([1, 1, 2, 1, 32_767, 1, 16]), form));
    }
    settings
}

/// Each operand of every length that could be taken for the right one, with
/// entries within the bound and beyond, and outputs long enough and not.
pub fn operand_lengths(visit: &mut Visitor, form: Form) {
    let mut generator = Generator::new(831);
    let mut settings = settings(&mut generator, form);
    settings.push(in_form(LARGEST, form));
    for setting in settings {
        let right = case_to_spoil(&mut generator, "operands of all lengths", &setting);
        let [rows, inner, columns, _] = sizes(&setting);
        let [of_a, of_b, of_bias] = lengths_of(&right);
        let mut lengths = vec![0, 1, of_a - 1, of_a, of_a + 1, of_b - 1, of_b, of_b + 1];
        lengths.extend([rows, inner, columns, rows * columns, 2 * of_a, of_a + of_b, 8 * of_a]);
        if form == Form::Bias {
            lengths.extend([of_bias - 1, of_bias + 1]);
        }
        lengths.sort_unstable();
        lengths.dedup();
        for &a in &lengths {
            for &b in &lengths {
                // Every length of the bias where those of A and B are right.
                let of_the_bias = match form {
                    Form::Plain => vec![0],
                    Form::Bias if [a, b] == [of_a, of_b] => lengths.clone(),
                    Form::Bias => vec![generator.choose(&lengths)],
                };
                for bias in of_the_bias {
                    let refusal = match [a == of_a, b == of_b, bias == of_bias] {
                        [false, ..] => refused(13, 0),
                        [true, false, _] => refused(13, 1),
                        [true, true, false] => refused(13, 2),
                        [true, true, true] => continue,
                    };
                    for entry in [0, setting.bound as i32, setting.bound as i32 + 1, i32::MIN] {
                        let mut case = right.clone();
                        case.a.resize(a, entry);
                        case.b.resize(b, entry);
                        case.bias.resize(bias, entry);
                        case.expected = Some(Writing::Refusal(refusal));
                        if generator.once_in(3) {
                            case.output.truncate(generator.below(right.output.len()));
                        }
                        visit.write(&case);
                    }
                }
            }
        }
    }
}

/// The lengths of A, B and the bias.
fn lengths_of(case: &WriterCase) -> [usize; 3] {
    [case.a.len(), case.b.len(), case.bias.len()]
}

/// The bound of the operand at this index of A, then B, then the bias.
fn bound_at(case: &WriterCase, index: usize) -> u32 {
    if index < case.a.len() + case.b.len() {
        case.setting.bound
    } else {
        case.setting.greatest_bias()
    }
}

/// Numbers around the bound and around the ends of 16 and 32 bits, and those that
/// are small modulo p.
fn numbers(bound: u32) -> Vec<i32> {
    let bound = i64::from(bound);
    let p = i64::from(P);
    let some = [bound - 1, bound, bound + 1, 32_767, 32_768, 65_535, 65_536, 1 << 30];
    // p itself is the largest signed 32-bit number; p + 1 would be -2^31.
    let ends = [p - bound, p - 2, p - 1, p, p + 1, 0, 1];
    some.into_iter()
        .chain(ends)
        .flat_map(|number| [number, -number])
        .filter_map(|number| i32::try_from(number).ok())
        .collect()
}

/// One number at every index of A, B and the bias. What is within the bound is
/// written.
pub fn operands_beyond(visit: &mut Visitor, form: Form) {
    let mut generator = Generator::new(832);
    for setting in settings(&mut generator, form) {
        let right = case_to_spoil(&mut generator, "one operand replaced", &setting);
        for index in 0..lengths_of(&right).iter().sum() {
            for number in numbers(bound_at(&right, index)) {
                visit_replaced(visit, &right, &[(index, number)]);
            }
        }
    }
    let right = case_to_spoil(&mut generator, "one operand replaced", &in_form(LARGEST, form));
    let [of_a, of_b, of_bias] = lengths_of(&right);
    let mut indices = vec![0, 1, of_a - 1, of_a, of_a + 1, of_a + of_b - 1];
    indices.extend((0..6).map(|_| generator.below(of_a + of_b)));
    if form == Form::Bias {
        indices.extend([0, 1, of_bias - 1, generator.below(of_bias)].map(|index| of_a + of_b + index));
    }
    for index in indices {
        let bound = bound_at(&right, index) as i32;
        for number in [bound + 1, -bound - 1, i32::MAX, -i32::MAX, i32::MIN, bound, -bound] {
            visit_replaced(visit, &right, &[(index, number)]);
        }
    }
}

/// Numbers beyond the bound at two indices of A, B and the bias, every pair of
/// them: the first decides. In every other case the output is too short as well.
pub fn two_operands_beyond(visit: &mut Visitor, form: Form) {
    let mut generator = Generator::new(833);
    for setting in settings(&mut generator, form) {
        let right = case_to_spoil(&mut generator, "two operands replaced", &setting);
        let mut short = right.clone();
        short.output.truncate(short.output.len() - 2);
        let mut beyond = |index| {
            let bound = bound_at(&right, index);
            let mut beyond = numbers(bound);
            beyond.retain(|number| number.unsigned_abs() > bound);
            (index, generator.choose(&beyond))
        };
        let count = lengths_of(&right).iter().sum();
        for one in 0..count {
            for two in one + 1..count {
                for case in [&right, &short] {
                    visit_replaced(visit, case, &[beyond(one), beyond(two)]);
                }
            }
        }
    }
}

/// Visits a case with other numbers at some indices of A, then B, then the bias.
fn visit_replaced(visit: &mut Visitor, right: &WriterCase, replaced: &[(usize, i32)]) {
    let mut case = right.clone();
    let [of_a, of_b, _] = lengths_of(&case);
    for &(index, number) in replaced {
        if index < of_a {
            case.a[index] = number;
        } else if index < of_a + of_b {
            case.b[index - of_a] = number;
        } else {
            case.bias[index - of_a - of_b] = number;
        }
    }
    let setting = &case.setting;
    let beyond = |bound: u32| move |number: &i32| number.unsigned_abs() > bound;
    let of_a_and_b = case.a.iter().chain(&case.b).position(beyond(setting.bound));
    let of_the_bias = case.bias.iter().position(beyond(setting.greatest_bias()));
    case.expected = Some(match (of_a_and_b, of_the_bias) {
        (Some(index), _) => Writing::Refusal(refused(14, index)),
        (None, Some(index)) => Writing::Refusal(refused(18, of_a + of_b + index)),
        (None, None) => {
            let operand = |numbers: &[i32]| -> Vec<i64> { numbers.iter().copied().map(i64::from).collect() };
            let parts = Parts::true_ones(setting, &operand(&case.a), &operand(&case.b), &operand(&case.bias));
            Writing::Ticket(parts.ticket(setting))
        }
    });
    visit.write(&case);
}

/// What can be wrong with a call, in the order of the tests.
#[derive(Clone, Copy, PartialEq, Eq, PartialOrd, Ord)]
enum Fault {
    Sizes,
    Others,
    BiasBound,
    Rounding,
    Fitting,
    LengthOfA,
    LengthOfB,
    LengthOfBias,
    BeyondInA,
    BeyondInB,
    BeyondInBias,
    Output,
}

const FAULTS: [Fault; 8] = [
    Fault::Sizes,
    Fault::Others,
    Fault::Fitting,
    Fault::LengthOfA,
    Fault::LengthOfB,
    Fault::BeyondInA,
    Fault::BeyondInB,
    Fault::Output,
];

const FAULTS_WITH_BIAS: [Fault; 11] = [
    Fault::Sizes,
    Fault::Others,
    Fault::BiasBound,
    Fault::Fitting,
    Fault::LengthOfA,
    Fault::LengthOfB,
    Fault::LengthOfBias,
    Fault::BeyondInA,
    Fault::BeyondInB,
    Fault::BeyondInBias,
    Fault::Output,
];

/// The faults of a call of this form with o = 0, and in how many ways each set of
/// them is tried.
fn faults(form: Form) -> (&'static [Fault], usize) {
    match form {
        Form::Plain => (&FAULTS, 3),
        Form::Bias => (&FAULTS_WITH_BIAS, 1),
    }
}

/// Every set of faults, of a plain ticket in several ways each: the first in the
/// order of the tests decides.
pub fn several(visit: &mut Visitor, form: Form) {
    let (all, ways) = faults(form);
    let mut generator = Generator::new(834);
    let mut settings = settings(&mut generator, form);
    settings.push(in_form(LARGEST, form));
    for setting in settings {
        let right = case_to_spoil(&mut generator, "several refusals at once", &setting);
        visit_sets(visit, &mut generator, &right, all, ways);
    }
}

/// The same with an o that is not below α among the faults, under settings with any
/// o.
pub fn several_with_rounding(visit: &mut Visitor, form: Form) {
    let (others, ways) = faults(form);
    let mut all = others.to_vec();
    all.push(Fault::Rounding);
    all.sort();
    let mut generator = Generator::new(835);
    for sizes in [[2, 2, 2, 1], [1, 3, 2, 8]] {
        let setting = rounding::fitting(&mut generator, form, sizes);
        let right = case_to_spoil(&mut generator, "several refusals at once", &setting);
        visit_sets(visit, &mut generator, &right, &all, ways);
    }
}

/// Every set of these faults, which are in the order of the tests.
fn visit_sets(visit: &mut Visitor, generator: &mut Generator, right: &WriterCase, all: &[Fault], ways: usize) {
    for set in 0..1_usize << all.len() {
        for _ in 0..ways {
            let mut case = right.clone();
            let faults = (0..all.len()).filter(|index| set >> index & 1 == 1);
            // The first is put in last, and its refusal remains.
            for index in faults.rev() {
                let refusal = spoil(generator, &mut case, all[index]);
                case.expected = Some(refusal);
            }
            visit.write(&case);
        }
    }
}

/// Puts a fault into a case and says what it is refused with, if all before it is
/// right.
fn spoil(generator: &mut Generator, case: &mut WriterCase, fault: Fault) -> Writing {
    let setting = &mut case.setting;
    let beyond = generator.choose(&[
        setting.bound as i32 + 1,
        -(setting.bound as i32) - 1,
        i32::MIN,
        i32::MAX,
    ]);
    let (number, place) = match fault {
        Fault::Sizes => {
            match generator.below(5) {
                0 => setting.rows = 33,
                1 => setting.inner = 0,
                2 => setting.columns = u32::MAX,
                3 => setting.vectors = 9,
                _ => setting.vectors = 0,
            }
            (1, 0)
        }
        Fault::Others => {
            match generator.below(5) {
                0 => setting.scale = 1,
                1 => setting.scale = 65_537,
                2 => setting.bound = 32_768,
                3 => setting.width = 0,
                _ => setting.width = 31,
            }
            (2, 0)
        }
        Fault::BiasBound => {
            setting.bias_bound = Some(generator.choose(&[(1 << 30) + 1, 1 << 31, u32::MAX]));
            (17, 0)
        }
        Fault::Rounding => {
            setting.rounding = generator.choose(&[setting.scale, setting.scale + 1, P, u32::MAX]);
            (19, 0)
        }
        Fault::Fitting => {
            // 2^30·α is beyond p for every α.
            setting.width = 30;
            (3, 0)
        }
        Fault::LengthOfA => {
            other_length(generator, &mut case.a, beyond);
            (13, 0)
        }
        Fault::LengthOfB => {
            other_length(generator, &mut case.b, beyond);
            (13, 1)
        }
        Fault::LengthOfBias => {
            other_length(generator, &mut case.bias, beyond);
            (13, 2)
        }
        Fault::BeyondInA => {
            // Before all that are beyond already.
            let index = generator.below(case.a.len());
            case.a[index] = beyond;
            (14, index)
        }
        Fault::BeyondInB => {
            let index = generator.below(case.b.len());
            case.b[index] = beyond;
            (14, case.a.len() + index)
        }
        Fault::BeyondInBias => {
            let index = generator.below(case.bias.len());
            let bound = setting.greatest_bias() as i32;
            case.bias[index] = generator.choose(&[bound + 1, -bound - 1, i32::MIN, i32::MAX]);
            (18, case.a.len() + case.b.len() + index)
        }
        Fault::Output => {
            let right = case.output.len() - 1;
            let length = generator.choose(&[0, right / 2, right - 8, right - 1]);
            case.output.truncate(length);
            (15, 0)
        }
    };
    Writing::Refusal(refused(number, place))
}

fn other_length(generator: &mut Generator, operand: &mut Vec<i32>, entry: i32) {
    let right = operand.len();
    let other = generator.choose(&[0, right - 1, right + 1, 2 * right + 1]);
    operand.resize(other, entry);
}
