//! Settings with numbers at and beyond their limits, one, two and more of them.

use super::{refused, Visitor};
use crate::families::craft::{fields, k, shapes_and_largest};
use crate::families::rounding;
use crate::families::settings::values;
use crate::setting::{Form, Setting};

/// Settings of every shape, one with a rounding number, and one for which no width
/// fits.
fn bases(form: Form) -> impl Iterator<Item = Setting> {
    let nearest = Setting { rounding: 5, ..k(form) };
    let unfit = Setting {
        inner: 64,
        bound: 32_767,
        ..nearest
    };
    shapes_and_largest(form).chain([nearest, unfit])
}

/// Every value of o beside the scale of a setting.
fn visit_roundings(visit: &mut Visitor, what: &'static str, setting: Setting) {
    for rounding in rounding::limits::values(setting.scale) {
        visit.quote(what, Setting { rounding, ..setting });
    }
}

/// Each number of the setting alone at every value.
pub fn each(visit: &mut Visitor, form: Form) {
    for base in bases(form) {
        for field in fields(form) {
            for value in values(field) {
                let mut setting = base;
                *(field.of)(&mut setting) = value;
                visit.quote("one number", setting);
            }
        }
        visit_roundings(visit, "o", base);
    }
}

/// Two numbers of the setting at every pair of values, and then all but o at once.
pub fn pairs(visit: &mut Visitor, form: Form) {
    let fields = fields(form);
    for base in bases(form) {
        for (index, first) in fields.iter().enumerate() {
            for one in values(first) {
                let mut with_one = base;
                *(first.of)(&mut with_one) = one;
                for second in &fields[index + 1..] {
                    for two in values(second) {
                        let mut setting = with_one;
                        *(second.of)(&mut setting) = two;
                        visit.quote("two numbers", setting);
                    }
                }
                visit_roundings(visit, "a number and o", with_one);
            }
        }
        for value in fields.iter().flat_map(values) {
            let mut setting = base;
            for field in fields {
                *(field.of)(&mut setting) = value;
            }
            visit.quote("all numbers but o", setting);
        }
    }
}

/// A change of a setting that makes its quote a refusal.
type Fault = fn(&mut Setting);

/// The refusals in their order, each with the changes that lead to it. A later change
/// of the same number counts, so those of 20 are made first and those of 1 last.
const FAULTS: [(u32, &[Fault]); 5] = [
    (
        1,
        &[
            |setting| setting.rows = 0,
            |setting| setting.rows = 33,
            |setting| setting.inner = 0,
            |setting| setting.inner = 65,
            |setting| setting.columns = 33,
            |setting| setting.columns = u32::MAX,
            |setting| setting.vectors = 0,
            |setting| setting.vectors = 9,
        ],
    ),
    (
        2,
        &[
            |setting| setting.scale = 0,
            |setting| setting.scale = 1,
            |setting| setting.scale = 65_537,
            |setting| setting.scale = u32::MAX,
            |setting| setting.bound = 0,
            |setting| setting.bound = 32_768,
            |setting| setting.bound = u32::MAX,
        ],
    ),
    (
        17,
        &[
            |setting| setting.bias_bound = Some((1 << 30) + 1),
            |setting| setting.bias_bound = Some(1 << 31),
            |setting| setting.bias_bound = Some(u32::MAX),
        ],
    ),
    (
        19,
        &[
            |setting| setting.rounding = setting.scale,
            |setting| setting.rounding = 65_537,
            |setting| setting.rounding = u32::MAX,
        ],
    ),
    (
        20,
        &[|setting| {
            setting.inner = 64;
            setting.bound = 32_767;
        }],
    ),
];

/// Every set of refusals, with every change for each: the first in the order is given.
pub fn several(visit: &mut Visitor, form: Form) {
    let faults: Vec<(u32, &[Fault])> = FAULTS
        .into_iter()
        .filter(|&(number, _)| number != 17 || form == Form::Bias)
        .collect();
    visit_several(visit, k(form), &faults, None);
}

/// The setting with a change for the last refusal of these or without one, and so on
/// with those before it.
fn visit_several(visit: &mut Visitor, setting: Setting, faults: &[(u32, &[Fault])], first: Option<u32>) {
    let Some((&(number, changes), before)) = faults.split_last() else {
        match first {
            Some(number) => visit.stated("several refusals", setting, refused(number)),
            None => visit.quote("no refusal", setting),
        }
        return;
    };
    visit_several(visit, setting, before, first);
    for change in changes {
        let mut changed = setting;
        change(&mut changed);
        visit_several(visit, changed, before, Some(number));
    }
}

#[cfg(test)]
mod tests {
    use super::*;
    use crate::quotes::stated::stated;
    use crate::quotes::{Case, Cases};

    /// The families would be of no use without the refusals that they are made for.
    #[test]
    fn every_refusal_is_met() {
        let families: [(Cases, u32); 3] = [(each, 20), (pairs, 500), (several, 1)];
        for (index, (family, least)) in families.into_iter().enumerate() {
            for (form, all) in [
                (Form::Plain, [0, 1, 2, 19, 20].as_slice()),
                (Form::Bias, &[0, 1, 2, 17, 19, 20]),
            ] {
                let mut numbers = [0; 21];
                let mut visit = |case: &Case| {
                    assert_eq!(case.stated, stated(&case.setting), "{:?}", case.setting);
                    numbers[case.stated.number as usize] += 1;
                };
                family(&mut Visitor(&mut visit), form);
                for &number in all {
                    assert!(
                        numbers[number] >= least,
                        "family {index}, {form:?}, {number}: {numbers:?}"
                    );
                }
            }
        }
    }
}
