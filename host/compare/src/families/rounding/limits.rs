//! Rounding numbers below, at and beyond the scale, alone and together with all
//! else that is refused, and at the edge of fitting.

use super::{fitting, largest_rounding};
use crate::cases::Visitor;
use crate::families::craft::{fields, fits, shapes_and_largest, sizes_up_to, slack, K, LARGEST, P};
use crate::families::damage::visit_more_and_more;
use crate::families::settings::{self, visit_greatest_sums, visit_setting};
use crate::generator::Generator;
use crate::setting::{Form, Setting};

const SCALES: [u32; 14] = [2, 3, 4, 7, 10, 127, 255, 256, 257, 1000, 32_767, 32_768, 65_535, 65_536];

/// The values to try for o beside a scale.
pub fn values(scale: u32) -> Vec<u32> {
    // Where a byte, 16 bits, a signed number or p ends.
    let mut values = vec![0, 1, 255, 256, 65_535, 65_536, P - 1, P, P + 1, 1 << 31, u32::MAX];
    for middle in [scale / 2, scale] {
        values.extend([middle.wrapping_sub(1), middle, middle.wrapping_add(1)]);
    }
    // What would be below α if the upper bits were dropped.
    values.extend([8, 16, 24, 31].map(|bits| (scale / 2).wrapping_add(1 << bits)));
    values.sort_unstable();
    values.dedup();
    values
}

/// For each scale the smallest width that fits and the next, the largest, and one
/// less than the smallest; for bias tickets with W at half of what is left, so that
/// some o fit beside it and others do not.
fn settings_of(scale: u32, form: Form) -> Vec<Setting> {
    let mut made = Vec::new();
    for [rows, inner, columns, vectors, bound] in [[1, 1, 1, 1, 1], [2, 3, 1, 2, 100]] {
        let with = |width| Setting::from([rows, inner, columns, vectors, scale, bound, width]);
        let fitting: Vec<u32> = (1..=30).filter(|&width| fits(&with(width))).collect();
        let smallest = fitting[0];
        let mut widths = vec![smallest - 1, smallest, smallest + 1, fitting[fitting.len() - 1]];
        widths.dedup();
        made.extend(widths.into_iter().map(|width| Setting {
            bias_bound: match form {
                Form::Plain => None,
                Form::Bias if fitting.contains(&width) => Some(slack(&with(width)) as u32 / 2),
                Form::Bias => Some(0),
            },
            ..with(width)
        }));
    }
    made
}

/// Every value of o under settings of every shape and scale.
pub fn below_and_beyond(visit: &mut Visitor, form: Form) {
    let of_scales = SCALES.into_iter().flat_map(|scale| settings_of(scale, form));
    for setting in shapes_and_largest(form).chain(of_scales) {
        for rounding in values(setting.scale) {
            visit_setting(visit, Setting { rounding, ..setting }, 60_000);
        }
    }
}

/// o at every value, and another number of the setting at every value: the refusals
/// before 19 decide, and 19 does before 3.
pub fn pairs_of_limits(visit: &mut Visitor, form: Form) {
    // With W = 14 every o below 10 fits.
    let base = Setting {
        bias_bound: match form {
            Form::Plain => None,
            Form::Bias => Some(14),
        },
        ..K
    };
    for field in fields(form) {
        for value in settings::values(field) {
            let mut setting = base;
            *(field.of)(&mut setting) = value;
            for rounding in values(setting.scale) {
                visit_setting(visit, Setting { rounding, ..setting }, 2_000);
            }
        }
    }
}

/// An o beyond every scale among faults of all kinds.
pub fn faults_of_all(visit: &mut Visitor, form: Form) {
    let mut generator = Generator::new(1001);
    for round in 0..25 {
        let sizes = match round {
            0 => [LARGEST.rows, LARGEST.inner, LARGEST.columns, LARGEST.vectors],
            _ => sizes_up_to(&mut generator, [5, 5, 5, 8]),
        };
        let setting = fitting(&mut generator, form, sizes);
        for beyond in [65_536, 65_537, P, u32::MAX] {
            visit_more_and_more(visit, &mut generator, &setting, Some(beyond));
        }
    }
}

/// At the edge through o, at every width that has such settings: the largest o that
/// fits, one more, which does not, α - 1, which does not, and α.
pub fn edge_of_fitting(visit: &mut Visitor, form: Form) {
    let mut generator = Generator::new(1002);
    for width in 1..=30 {
        for setting in edges(&mut generator, form, width, 16) {
            let largest = setting.rounding;
            for rounding in [largest, largest + 1, setting.scale - 1, setting.scale] {
                visit_greatest_sums(visit, Setting { rounding, ..setting });
            }
        }
    }
}

/// At most so many settings of one row, one column and this width at the edge of
/// fitting: their o is the largest that fits, and one more is still below α.
pub fn edges(generator: &mut Generator, form: Form, width: u32, most: usize) -> Vec<Setting> {
    let greatest = ((P - 1) >> width).min(65_536);
    let edges = match form {
        Form::Plain => plain_edges(generator, width, greatest),
        Form::Bias if greatest < 2 => Vec::new(),
        Form::Bias => (0..4 * most)
            .filter_map(|_| bias_edge(generator, width, greatest))
            .collect(),
    };
    let step = edges.len().div_ceil(most).max(1);
    edges.into_iter().step_by(step).collect()
}

/// m·T² + W + o where the first condition of fitting holds by nothing.
pub fn room(scale: u32, width: u32) -> i64 {
    ((1 << (width - 1)) - 1) * i64::from(scale) + 1
}

/// Without W, what T leaves of the room has to be below α - 1: every m is tried, with
/// every scale where there are not many, and with the largest T.
fn plain_edges(generator: &mut Generator, width: u32, greatest: u32) -> Vec<Setting> {
    let scales: Vec<u32> = if greatest < 3_000 {
        (2..=greatest).collect()
    } else {
        let random = (0..200).map(|_| generator.between(2, i64::from(greatest)) as u32);
        (2..50).chain(random).chain([greatest]).collect()
    };
    let mut edges = Vec::new();
    for scale in scales {
        for inner in 1..=64 {
            let room = room(scale, width);
            let bound = (room / i64::from(inner)).isqrt().min(32_767) as u32;
            let setting = Setting::from([1, inner, 1, 1, scale, bound, width]);
            if bound > 0 && fits(&setting) && slack(&setting) + 1 < i64::from(scale) {
                edges.push(Setting {
                    rounding: largest_rounding(&setting),
                    ..setting
                });
            }
        }
    }
    edges
}

/// Any m, T and o, and W for what is left of the room, if it is within its limits.
fn bias_edge(generator: &mut Generator, width: u32, greatest: u32) -> Option<Setting> {
    let scale = generator.between(2, i64::from(greatest));
    let rounding = match generator.below(4) {
        0 => 0,
        1 => scale - 2,
        2 => scale / 2 - 1,
        _ => generator.between(0, scale - 2),
    };
    let room = room(scale as u32, width) - rounding;
    let inner = generator.between(1, room.clamp(1, 64));
    let largest = (room / inner).max(1).isqrt().min(32_767);
    let bound = generator.between(1, largest);
    let left = room - inner * bound * bound;
    (0..=1 << 30).contains(&left).then(|| Setting {
        rounding: rounding as u32,
        bias_bound: Some(left as u32),
        ..Setting::from([1, inner as u32, 1, 1, scale as u32, bound as u32, width])
    })
}

#[cfg(test)]
mod tests {
    use super::*;
    use crate::cases::{Case, Cases};
    use crate::families::settings::refusal;

    /// How often each number is stated.
    fn stated(family: Cases, form: Form) -> [u32; 20] {
        let mut numbers = [0; 20];
        let mut visit = |case: &Case| {
            if let Some(stated) = &case.expected {
                numbers[stated.answer.number as usize] += 1;
            }
        };
        family(&mut Visitor(&mut visit), form);
        numbers
    }

    /// The families would be of no use without the cases that they are made for.
    #[test]
    fn every_refusal_is_met_beside_19() {
        let families: [Cases; 4] = [below_and_beyond, pairs_of_limits, faults_of_all, edge_of_fitting];
        for (index, family) in families.into_iter().enumerate() {
            for form in [Form::Plain, Form::Bias] {
                let numbers = stated(family, form);
                let mut all = vec![0, 3, 19];
                match index {
                    0 => all.extend([2, 4, 13]),
                    1 => all.extend([1, 2, 4, 13]),
                    2 => all = vec![1, 2, 3, 4, 5, 6, 9, 10, 11, 12, 19],
                    _ => (),
                }
                if form == Form::Bias && (index == 1 || index == 2) {
                    all.push(17);
                }
                for number in all {
                    assert!(numbers[number] >= 20, "family {index}, {form:?}, {number}: {numbers:?}");
                }
            }
        }
    }

    /// With v = 30 no scale fits. Without a bias, no m, T and α are at the edge from
    /// v = 24 on.
    #[test]
    fn the_edge_is_met_at_every_width_that_has_one() {
        for (form, widths) in [(Form::Plain, 1..=23), (Form::Bias, 1..=29)] {
            let mut generator = Generator::new(1);
            for width in 1..=30 {
                let edges = edges(&mut generator, form, width, 16);
                assert_eq!(!edges.is_empty(), widths.contains(&width), "{form:?}, {width}");
                for setting in edges {
                    assert_eq!((slack(&setting), refusal(&setting)), (0, None), "{setting:?}");
                    assert!(setting.rounding + 1 < setting.scale, "{setting:?}");
                }
            }
        }
    }
}
