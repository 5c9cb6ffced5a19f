//! Settings on both sides of the edges between widths: one number is the last with
//! which a width is enough, and then the first with which it is not. The edge is found
//! from m·T² + W + o ≤ (2^(v-1) - 1)·α + 1, which is the first condition of fitting.

use std::ops::RangeInclusive;

use super::stated::last_width;
use super::Visitor;
use crate::families::craft::{sizes_up_to, P};
use crate::families::rounding::limits::room;
use crate::generator::Generator;
use crate::setting::{Form, Setting};

/// The edge in one number of a setting.
struct Edge {
    of: fn(&mut Setting) -> &mut u32,
    /// What the settings on both sides are called.
    what: [&'static str; 2],
    /// The last number with which a width is enough, within the limits or not. There is
    /// none where 2^v·α < p does not hold.
    last: fn(&Setting, u32) -> Option<i64>,
    /// From there to the first with which it is not.
    step: i64,
    /// The limits beside the other numbers of the setting.
    limits: fn(&Setting) -> RangeInclusive<i64>,
}

/// What m·T² + W + o may come to with a width.
fn room_of(setting: &Setting, width: u32) -> Option<i64> {
    (width <= last_width(setting.scale)).then(|| room(setting.scale, width))
}

/// m·T².
fn greatest_sum(setting: &Setting) -> i64 {
    let [m, t] = [setting.inner, setting.bound].map(i64::from);
    m * t * t
}

/// W + o.
fn added(setting: &Setting) -> i64 {
    i64::from(setting.greatest_bias()) + i64::from(setting.rounding)
}

const BOUND: Edge = Edge {
    of: |setting| &mut setting.bound,
    what: ["the largest T of a width", "one more than the largest T of a width"],
    last: |setting, width| {
        let left = room_of(setting, width)? - added(setting);
        (left >= 0).then(|| (left / i64::from(setting.inner)).isqrt())
    },
    step: 1,
    limits: |_| 1..=32_767,
};

const INNER: Edge = Edge {
    of: |setting| &mut setting.inner,
    what: ["the largest m of a width", "one more than the largest m of a width"],
    last: |setting, width| {
        let left = room_of(setting, width)? - added(setting);
        (left >= 0).then(|| left / i64::from(setting.bound).pow(2))
    },
    step: 1,
    limits: |_| 1..=64,
};

const ROUNDING: Edge = Edge {
    of: |setting| &mut setting.rounding,
    what: ["the largest o of a width", "one more than the largest o of a width"],
    last: |setting, width| {
        let left = room_of(setting, width)? - greatest_sum(setting);
        Some(left - i64::from(setting.greatest_bias()))
    },
    step: 1,
    limits: |setting| 0..=i64::from(setting.scale) - 1,
};

const BIAS_BOUND: Edge = Edge {
    of: |setting| setting.bias_bound.get_or_insert(0),
    what: ["the largest W of a width", "one more than the largest W of a width"],
    last: |setting, width| {
        let left = room_of(setting, width)? - greatest_sum(setting);
        Some(left - i64::from(setting.rounding))
    },
    step: 1,
    limits: |_| 0..=1 << 30,
};

/// With v = 1 the condition does not depend on α.
const SCALE: Edge = Edge {
    of: |setting| &mut setting.scale,
    what: ["the smallest α of a width", "one less than the smallest α of a width"],
    last: |setting, width| {
        let left = greatest_sum(setting) + added(setting) - 1;
        let factor = (1 << (width - 1)) - 1;
        let scale = (factor > 0).then(|| (left + factor - 1) / factor)?;
        (scale << width < i64::from(P)).then_some(scale)
    },
    step: -1,
    limits: |setting| i64::from(setting.rounding + 1).max(2)..=65_536,
};

/// Both sides of the edge of a width, where they are within the limits.
fn visit_edge(visit: &mut Visitor, setting: &Setting, edge: &Edge, width: u32) {
    let Some(last) = (edge.last)(setting, width) else {
        return;
    };
    let limits = (edge.limits)(setting);
    for (what, number) in edge.what.into_iter().zip([last, last + edge.step]) {
        if limits.contains(&number) {
            let mut setting = *setting;
            *(edge.of)(&mut setting) = number as u32;
            visit.quote(what, setting);
        }
    }
}

/// The edges of all widths.
fn visit_edges(visit: &mut Visitor, setting: &Setting, edge: &Edge) {
    for width in 1..=30 {
        visit_edge(visit, setting, edge, width);
    }
}

/// The same, and beside the last number of each width the edge in o.
fn visit_edges_and_rounding(visit: &mut Visitor, setting: &Setting, edge: &Edge) {
    visit_edges(visit, setting, edge);
    let limits = (edge.limits)(setting);
    for width in 1..=30 {
        let last = (edge.last)(setting, width).filter(|last| limits.contains(last));
        if let Some(last) = last {
            let mut setting = *setting;
            *(edge.of)(&mut setting) = last as u32;
            visit_edge(visit, &setting, &ROUNDING, width);
        }
    }
}

/// Any sizes and any width, T = 1 and α = 2, and nothing is added to the sums.
pub fn base(generator: &mut Generator, form: Form) -> Setting {
    let [rows, inner, columns, vectors] = sizes_up_to(generator, [32, 64, 32, 8]);
    Setting {
        bias_bound: match form {
            Form::Plain => None,
            Form::Bias => Some(0),
        },
        ..Setting::from([rows, inner, columns, vectors, 2, 1, generator.word()])
    }
}

/// A number of any number of bits from `least` to `greatest`.
fn of_any_length(generator: &mut Generator, least: u32, greatest: u32) -> u32 {
    let [least, greatest] = [least, greatest].map(i64::from);
    let bits = generator.between(0, 64 - i64::from((greatest - least).leading_zeros()));
    generator.between(least, greatest.min(least + (1 << bits) - 1)) as u32
}

/// The setting with any o below α and, for bias tickets, any W.
fn with_any_added(generator: &mut Generator, setting: Setting) -> Setting {
    let scale = setting.scale;
    let any = of_any_length(generator, 0, scale - 1);
    Setting {
        rounding: generator.choose(&[0, 1, scale / 2, scale - 1, any]),
        bias_bound: setting.bias_bound.map(|_| of_any_length(generator, 0, 1 << 30)),
        ..setting
    }
}

/// Every α with the largest T of each width, where nothing else is added to the sums,
/// with the largest o beside it, and where anything is; and with the largest W.
pub fn every_scale(visit: &mut Visitor, form: Form) {
    of_scales(visit, form, 2..=65_536);
}

fn of_scales(visit: &mut Visitor, form: Form, scales: impl Iterator<Item = u32>) {
    let mut generator = Generator::new(1101);
    for scale in scales {
        let setting = Setting {
            scale,
            bound: of_any_length(&mut generator, 1, 32_767),
            ..base(&mut generator, form)
        };
        for inner in [1, 64] {
            visit_edges_and_rounding(visit, &Setting { inner, ..setting }, &BOUND);
        }
        let any = with_any_added(&mut generator, setting);
        visit_edges(visit, &any, &BOUND);
        if form == Form::Bias {
            visit_edges(visit, &any, &BIAS_BOUND);
        }
    }
}

/// Every T with the smallest α of each width, where nothing else is added to the sums,
/// with the largest o beside it, and where anything is; with the largest m of each
/// width, and with the largest W.
pub fn every_bound(visit: &mut Visitor, form: Form) {
    of_bounds(visit, form, 1..=32_767);
}

fn of_bounds(visit: &mut Visitor, form: Form, bounds: impl Iterator<Item = u32>) {
    let mut generator = Generator::new(1102);
    for bound in bounds {
        let setting = Setting {
            bound,
            scale: of_any_length(&mut generator, 2, 65_536),
            ..base(&mut generator, form)
        };
        for inner in [1, 64] {
            visit_edges_and_rounding(visit, &Setting { inner, ..setting }, &SCALE);
        }
        visit_edges_and_rounding(visit, &setting, &INNER);
        let any = with_any_added(&mut generator, setting);
        visit_edges(visit, &any, &SCALE);
        visit_edges(visit, &any, &INNER);
        if form == Form::Bias {
            visit_edges(visit, &any, &BIAS_BOUND);
        }
    }
}

/// Every m with many α and T: with the largest T and the smallest α of each width,
/// where nothing else is added to the sums, with the largest o beside it, and where
/// anything is; and with the largest W.
pub fn every_inner(visit: &mut Visitor, form: Form) {
    of_inner_sizes(visit, form, 100);
}

fn of_inner_sizes(visit: &mut Visitor, form: Form, rounds: usize) {
    let mut generator = Generator::new(1103);
    for inner in 1..=64 {
        for _ in 0..rounds {
            let setting = Setting {
                inner,
                bound: of_any_length(&mut generator, 1, 32_767),
                scale: of_any_length(&mut generator, 2, 65_536),
                ..base(&mut generator, form)
            };
            let any = with_any_added(&mut generator, setting);
            for edge in [&BOUND, &SCALE] {
                visit_edges_and_rounding(visit, &setting, edge);
                visit_edges(visit, &any, edge);
            }
            if form == Form::Bias {
                visit_edges(visit, &any, &BIAS_BOUND);
            }
        }
    }
}

#[cfg(test)]
mod tests {
    use super::*;
    use crate::families::craft::fits;
    use crate::quotes::Case;

    const EDGES: [&Edge; 5] = [&BOUND, &INNER, &ROUNDING, &BIAS_BOUND, &SCALE];

    /// Both sides are where they are said to be.
    #[test]
    fn a_width_is_enough_on_one_side_and_not_on_the_other() {
        let mut generator = Generator::new(1);
        let mut met = [0; EDGES.len()];
        for _ in 0..2_000 {
            let setting = Setting {
                bound: of_any_length(&mut generator, 1, 32_767),
                scale: of_any_length(&mut generator, 2, 65_536),
                ..base(&mut generator, Form::Bias)
            };
            let any = with_any_added(&mut generator, setting);
            for (edge, met) in EDGES.into_iter().zip(&mut met) {
                for width in 1..=30 {
                    let mut numbers = Vec::new();
                    let mut visit = |case: &Case| {
                        let enough = fits(&Setting { width, ..case.setting });
                        assert_eq!(enough, case.what == edge.what[0], "{}: {}", case.what, case.setting);
                        let [number, quoted, ..] = case.stated.numbers();
                        assert!(number == 20 || (quoted <= width) == enough, "{}", case.setting);
                        assert!(number == 0 || !enough, "{}", case.setting);
                        let mut setting = case.setting;
                        numbers.push(i64::from(*(edge.of)(&mut setting)));
                    };
                    visit_edge(&mut Visitor(&mut visit), &any, edge, width);
                    if let [last, next] = numbers[..] {
                        assert_eq!(next - last, edge.step);
                        *met += 1;
                    }
                }
            }
        }
        assert!(met.iter().all(|&count| count > 100), "{met:?}");
    }

    /// The widths that are quoted on each side of an edge, and how often no width is.
    #[derive(Default)]
    struct Met {
        widths: [[u32; 31]; 2],
        none: [u32; 2],
    }

    impl Met {
        fn take(&mut self, case: &Case) {
            let side = usize::from(case.what.starts_with("one "));
            match case.stated.number {
                0 => self.widths[side][case.stated.width as usize] += 1,
                20 => self.none[side] += 1,
                number => panic!("{number} within the limits: {}", case.setting),
            }
        }
    }

    /// Every width that there is, 1 to 29, is met as the quoted one: it is enough for
    /// the last number of an edge, and needed for the first beyond another. With the
    /// last number there always is one, and beyond it there is none at times.
    #[test]
    fn every_width_is_met_from_both_sides_of_its_edge() {
        for form in [Form::Plain, Form::Bias] {
            let families: [fn(&mut Visitor, Form); 3] = [
                |visit, form| of_scales(visit, form, (2..40).chain((40..=65_536).step_by(151))),
                |visit, form| of_bounds(visit, form, (1..40).chain((40..=32_767).step_by(73))),
                |visit, form| of_inner_sizes(visit, form, 5),
            ];
            for (index, family) in families.into_iter().enumerate() {
                let mut met = Met::default();
                family(&mut Visitor(&mut |case| met.take(case)), form);
                let [last, beyond] = met.widths;
                for width in 1..=29 {
                    let enough = last[width] > 0;
                    let needed = beyond[width] > 0 || width == 1;
                    assert!(enough && needed, "family {index}, {form:?}: {last:?} {beyond:?}");
                }
                assert_eq!([last[0], last[30], beyond[0], beyond[30], beyond[1]], [0; 5]);
                assert!(met.none[0] == 0 && met.none[1] > 20, "{:?}", met.none);
            }
        }
    }
}
