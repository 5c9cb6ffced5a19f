//! Settings within the limits for which no width fits: the sums are too large for the
//! last width that α leaves.

use super::edges::base;
use super::stated::last_width;
use super::{refused, Visitor};
use crate::families::craft::slack;
use crate::families::writer::fitting::largest_bound;
use crate::generator::Generator;
use crate::setting::{Form, Setting};

const INNER: [u32; 8] = [1, 2, 3, 7, 31, 32, 63, 64];

/// The small scales and some of the others, with a few m.
pub fn settings(visit: &mut Visitor, form: Form) {
    of_scales(visit, form, (2..300).chain((300..65_536).step_by(37)).chain([65_536]));
}

fn of_scales(visit: &mut Visitor, form: Form, scales: impl Iterator<Item = u32>) {
    let mut generator = Generator::new(1111);
    for scale in scales {
        for inner in INNER {
            let setting = Setting {
                inner,
                scale,
                width: last_width(scale),
                ..base(&mut generator, form)
            };
            visit_unfit(visit, &mut generator, setting);
        }
    }
}

/// The last width of a scale is too small by T, and by o or W beside the largest T that
/// fits, and by W beside the smallest.
fn visit_unfit(visit: &mut Visitor, generator: &mut Generator, setting: Setting) {
    let bound = largest_bound(&setting);
    visit_beyond(
        visit,
        generator,
        "by T",
        setting,
        |setting| &mut setting.bound,
        [i64::from(bound) + 1, 32_767],
    );
    let largest = Setting { bound, ..setting };
    visit_beyond(
        visit,
        generator,
        "by o",
        largest,
        |setting| &mut setting.rounding,
        [slack(&largest) + 1, i64::from(setting.scale) - 1],
    );
    if setting.form() == Form::Bias {
        for setting in [largest, setting] {
            visit_beyond(
                visit,
                generator,
                "by W",
                setting,
                |setting| setting.bias_bound.get_or_insert(0),
                [slack(&setting) + 1, 1 << 30],
            );
        }
    }
}

/// One number of the setting from the first that is too large to its limit, if there are
/// any: both ends and one between. No width is read.
fn visit_beyond(
    visit: &mut Visitor,
    generator: &mut Generator,
    what: &'static str,
    setting: Setting,
    of: fn(&mut Setting) -> &mut u32,
    [first, limit]: [i64; 2],
) {
    if first <= limit {
        for number in [first, generator.between(first, limit), limit] {
            let mut setting = Setting {
                width: generator.word(),
                ..setting
            };
            *of(&mut setting) = number as u32;
            visit.stated(what, setting, refused(20));
        }
    }
}

#[cfg(test)]
mod tests {
    use super::*;
    use crate::quotes::stated::stated;
    use crate::quotes::Case;

    #[test]
    fn no_width_fits_by_each_number() {
        for (form, numbers) in [
            (Form::Plain, ["by T", "by o"].as_slice()),
            (Form::Bias, &["by T", "by o", "by W"]),
        ] {
            let mut met = vec![0; numbers.len()];
            let mut visit = |case: &Case| {
                assert_eq!(case.stated, stated(&case.setting), "{}", case.setting);
                let number = numbers.iter().position(|&what| what == case.what);
                met[number.expect("one of these")] += 1;
            };
            of_scales(&mut Visitor(&mut visit), form, (2..=65_536).step_by(101));
            assert!(met.iter().all(|&count| count > 1_000), "{met:?}");
        }
    }
}
