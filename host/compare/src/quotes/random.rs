//! Random settings.

use super::stated::last_width;
use super::Visitor;
use crate::families::craft::{fields, k, sizes_up_to};
use crate::families::rounding::limits::room;
use crate::families::rounding::random::random_setting_with_rounding;
use crate::generator::Generator;
use crate::setting::{Form, Setting};

pub fn settings(visit: &mut Visitor, form: Form) {
    visit_random(visit, form, 2_000_000);
}

fn visit_random(visit: &mut Visitor, form: Form, count: usize) {
    let mut generator = Generator::new(1131);
    for _ in 0..count {
        visit.quote("a random setting", some_setting(&mut generator, form));
    }
}

/// A setting near an edge between widths, one that is mostly within the limits, or one
/// of any numbers.
pub fn some_setting(generator: &mut Generator, form: Form) -> Setting {
    match generator.below(16) {
        0..8 => near_an_edge(generator, form),
        8..15 => random_setting_with_rounding(generator, form),
        _ => of_any_numbers(generator, form),
    }
}

/// The edge of any width of any scale: T, o and W take it up by any shares, and one of
/// the numbers is then moved by at most 2.
fn near_an_edge(generator: &mut Generator, form: Form) -> Setting {
    let bits = generator.between(1, 16);
    let scale = generator.between(2, 1 << bits);
    let width = generator.between(1, i64::from(last_width(scale as u32))) as u32;
    let any = generator.between(0, scale - 1);
    let rounding = generator.choose(&[0, 1, scale / 2, scale - 1, any]);
    let [rows, inner, columns, vectors] = sizes_up_to(generator, [32, 64, 32, 8]);
    // Width 1 is quoted with m = 1 alone.
    let inner = if generator.once_in(4) { 1 } else { inner };
    let left = (room(scale as u32, width) - rounding).max(0);
    let for_sums = match form {
        Form::Plain => left,
        Form::Bias => generator.between(0, left),
    };
    let bound = (for_sums / i64::from(inner)).isqrt().max(1);
    let sums = i64::from(inner) * bound * bound;
    let mut setting = Setting {
        rounding: rounding as u32,
        bias_bound: match form {
            Form::Plain => None,
            Form::Bias => Some((left - sums).max(0) as u32),
        },
        ..Setting::from([
            rows,
            inner,
            columns,
            vectors,
            scale as u32,
            bound as u32,
            generator.word(),
        ])
    };
    let step = generator.between(-2, 2) as i32;
    let number = match generator.below(8) {
        0..3 => &mut setting.bound,
        3 => &mut setting.inner,
        4 => &mut setting.scale,
        5 => &mut setting.rounding,
        _ => setting.bias_bound.as_mut().unwrap_or(&mut setting.bound),
    };
    *number = number.saturating_add_signed(step);
    setting
}

/// Numbers of any number of bits.
fn of_any_numbers(generator: &mut Generator, form: Form) -> Setting {
    let mut setting = k(form);
    for field in fields(form) {
        *(field.of)(&mut setting) = generator.word() >> generator.below(32);
    }
    setting.rounding = generator.word() >> generator.below(32);
    setting
}

#[cfg(test)]
mod tests {
    use super::*;
    use crate::quotes::Case;

    /// The family would be of no use if it seldom met a number or a width.
    #[test]
    fn every_number_and_every_width_is_met_often() {
        for (form, all) in [
            (Form::Plain, [0, 1, 2, 19, 20].as_slice()),
            (Form::Bias, &[0, 1, 2, 17, 19, 20]),
        ] {
            let mut numbers = [0; 21];
            let mut widths = [0; 30];
            let mut visit = |case: &Case| {
                numbers[case.stated.number as usize] += 1;
                widths[case.stated.width as usize] += 1;
            };
            visit_random(&mut Visitor(&mut visit), form, 50_000);
            assert!(all.iter().all(|&number| numbers[number] > 500), "{form:?}: {numbers:?}");
            assert!(widths.iter().all(|&count| count > 10), "{form:?}: {widths:?}");
        }
    }
}
