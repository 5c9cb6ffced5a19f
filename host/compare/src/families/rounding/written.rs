//! Tickets written with a rounding number, of many sizes and at the ends of the
//! ranges, and with claims changed.

use super::limits::edges;
use super::{fitting, largest_rounding};
use crate::cases::{caught, refused, untrue, TicketCase, Visitor};
use crate::families::claims::{visit_changes, visit_some};
use crate::families::craft::{counts, in_form, list_without_zero, slack, true_parts, LARGEST, P};
use crate::families::extremes::{self, visit_entries, visit_values};
use crate::families::settings::{bias_bounds, refusal};
use crate::families::true_tickets::sizes_and_largest;
use crate::families::writer::fitting::{largest_bound, visit_beyond, visit_fitting, SCALES};
use crate::families::writer::operands::visit_random_and_extreme;
use crate::families::writer::visit_written;
use crate::generator::Generator;
use crate::parts::Parts;
use crate::setting::{Form, Setting};

/// Sizes at, next to and between the limits: random operands, and two patterns.
pub fn many_sizes(visit: &mut Visitor, form: Form) {
    let mut generator = Generator::new(1021);
    let largest = [LARGEST.rows, LARGEST.inner, LARGEST.columns, LARGEST.vectors];
    for sizes in sizes_and_largest().step_by(5).chain([largest]) {
        let setting = fitting(&mut generator, form, sizes);
        visit_random_and_extreme(visit, &mut generator, &setting);
    }
}

/// For many scales and widths the largest T that fits with o = 0, and then the
/// largest o: with the operands that make the largest and the smallest sums; and one
/// more, which does not fit or is not below α.
pub fn largest_roundings(visit: &mut Visitor, form: Form) {
    let mut generator = Generator::new(1022);
    let mut bias_bounds = bias_bounds(form).iter().copied().cycle();
    for [rows, inner, columns] in [[2, 1, 2], [1, 3, 2], [2, 64, 1]] {
        for scale in SCALES {
            for width in 1..=30 {
                let mut setting = Setting {
                    bias_bound: bias_bounds.next().expect("there is always a next one"),
                    ..Setting::from([rows, inner, columns, 1, scale, 1, width])
                };
                setting.bound = largest_bound(&setting);
                if setting.bound == 0 {
                    continue;
                }
                setting.rounding = largest_rounding(&setting);
                visit_fitting(visit, &mut generator, "the largest o", &setting);
                setting.rounding += 1;
                let number = if setting.rounding == scale { 19 } else { 3 };
                visit_beyond(visit, "one more than the largest o", &setting, number);
            }
        }
    }
}

/// At the edge of fitting, where the greatest sum with o is (2^(v-1) - 1)·α + 1: it
/// has the last quotient, and the remainder 1. The claim is also changed. With a bias
/// one less and two less, and in both forms the last number of B down by one.
pub fn last_quotients(visit: &mut Visitor, form: Form) {
    let mut generator = Generator::new(1023);
    for width in 1..=30 {
        for setting in edges(&mut generator, form, width, 6) {
            let [m, t, w, alpha] =
                [setting.inner, setting.bound, setting.greatest_bias(), setting.scale].map(i64::from);
            let last = (1 << (width - 1)) - 1;
            let a = vec![t; m as usize];
            let mut with_claim = |c: i64, quotient, remainder| {
                let parts = Parts {
                    a: a.clone(),
                    b: a.clone(),
                    bias: vec![c; counts(&setting)[2]],
                    quotients: vec![quotient],
                    remainders: vec![remainder],
                };
                visit_written(visit, &mut generator, "the greatest sums", &setting, &parts);
                visit_changes(visit, &mut generator, &setting, &parts, 0);
            };
            with_claim(w, last, 1);
            if w > 1 {
                with_claim(w - 1, last, 0);
                with_claim(w - 2, last - 1, alpha - 1);
            }
            let mut b = a.clone();
            b[m as usize - 1] -= 1;
            for sign in [-1, 1] {
                let b: Vec<i64> = b.iter().map(|&entry| sign * entry).collect();
                let parts = Parts::true_ones(&setting, &a, &b, &[sign * w]);
                visit_written(visit, &mut generator, "next to the greatest sums", &setting, &parts);
            }
        }
    }
}

/// Settings at the ends of what fits, with 1, half the scale and the largest o, and
/// for bias tickets the largest W beside it: entries and claims at the ends of their
/// ranges, and with the largest o every record at the ends of all ranges. With some,
/// αq + r - o comes below -(p - 1)/2.
pub fn extremes(visit: &mut Visitor, form: Form) {
    let mut generator = Generator::new(1026);
    for setting in extremes::settings(Form::Plain) {
        let largest = largest_rounding(&setting);
        let mut roundings = [1, setting.scale / 2, largest].map(|o| o.min(largest)).to_vec();
        roundings.dedup();
        roundings.retain(|&o| o > 0);
        for rounding in roundings {
            let setting = in_form(Setting { rounding, ..setting }, form);
            visit_entries(visit, &mut generator, &setting);
            if rounding == largest && setting.columns < 3 {
                visit_values(visit, &mut generator, &setting);
            }
        }
    }
}

/// One claim changed: every claim of small tickets, and some of larger ones.
pub fn changed_claims(visit: &mut Visitor, form: Form) {
    let mut generator = Generator::new(1024);
    for index in 0..3 * 3_u32.pow(3) {
        let sizes = [index % 3 + 1, index / 3 % 3 + 1, index / 9 % 3 + 1, index % 2 + 1];
        let setting = fitting(&mut generator, form, sizes);
        let right = true_parts(&mut generator, &setting);
        for place in 0..right.quotients.len() {
            visit_changes(visit, &mut generator, &setting, &right, place);
        }
    }
    for [rows, inner, columns, _] in sizes_and_largest().step_by(24) {
        let setting = fitting(&mut generator, form, [rows, inner, columns, 1]);
        visit_some(visit, &mut generator, &setting);
    }
}

/// The sums are of two products, 256·x + y.
const FACTORS: [i64; 2] = [256, 1];

/// A sum k·α + h, h from 0 to α - 1.
#[derive(Clone, Copy)]
struct Sum {
    k: i64,
    h: i64,
}

impl Sum {
    fn negated(self, alpha: i64) -> Sum {
        match self.h {
            0 => Sum { k: -self.k, h: 0 },
            h => Sum {
                k: -self.k - 1,
                h: alpha - h,
            },
        }
    }

    /// The nearest quotient, the upper one of two that are as near, and the remainder
    /// with o = ⌊α/2⌋.
    fn nearest(self, alpha: i64) -> (i64, i64) {
        let o = alpha / 2;
        if 2 * self.h < alpha {
            (self.k, self.h + o)
        } else {
            (self.k + 1, self.h + o - alpha)
        }
    }
}

/// Sums that are halfway between two quotients, next to it, and at quotients, with
/// both signs, under the o that rounds to the nearest.
pub fn halves(visit: &mut Visitor, form: Form) {
    let mut generator = Generator::new(1025);
    for scale in [
        2, 3, 4, 5, 7, 10, 99, 100, 255, 256, 257, 1000, 32_767, 32_768, 65_535, 65_536,
    ] {
        let width = (1..=30)
            .rfind(|width| u64::from(scale) << width < u64::from(P))
            .expect("a width");
        let setting = Setting {
            rounding: scale / 2,
            bias_bound: match form {
                Form::Plain => None,
                Form::Bias => Some(1_000_000),
            },
            ..Setting::from([2, 2, 8, 2, scale, 12_000, width])
        };
        assert!(refusal(&setting).is_none() && slack(&setting) > 0, "{setting:?}");
        for _ in 0..12 {
            visit_halves(visit, &mut generator, &setting);
        }
    }
}

/// A ticket whose second row has the sums of the first with the other sign.
fn visit_halves(visit: &mut Visitor, generator: &mut Generator, setting: &Setting) {
    let alpha = i64::from(setting.scale);
    let columns = setting.columns as usize;
    let most = 2_000_000 / alpha - 1;
    let hs = [
        0,
        1,
        alpha / 2 - 1,
        alpha / 2,
        alpha / 2 + 1,
        (alpha + 1) / 2,
        alpha - 1,
    ];
    let first: Vec<Sum> = (0..columns)
        .map(|_| {
            let any = generator.between(-most, most);
            Sum {
                k: generator.choose(&[-2, -1, 0, 1, any]),
                h: generator.choose(&hs) % alpha,
            }
        })
        .collect();
    let bias: Vec<i64> = match setting.bias_bound {
        None => Vec::new(),
        Some(w) => (0..columns)
            .map(|_| generator.between(-i64::from(w), i64::from(w)))
            .collect(),
    };
    let products = (0..columns).map(|j| alpha * first[j].k + first[j].h - bias.get(j).unwrap_or(&0));
    let [x, y]: [Vec<i64>; 2] = [0, 1].map(|factor| {
        let part = |sum: i64| [sum.div_euclid(FACTORS[0]), sum.rem_euclid(FACTORS[0])][factor];
        products.clone().map(part).collect()
    });
    let negated = |numbers: &[i64]| -> Vec<i64> { numbers.iter().map(|number| -number).collect() };
    let sums: Vec<Sum> = first
        .iter()
        .copied()
        .chain(first.iter().map(|sum| sum.negated(alpha)))
        .collect();
    let (quotients, remainders) = sums.iter().map(|sum| sum.nearest(alpha)).unzip();
    let parts = Parts {
        a: [FACTORS.to_vec(), negated(&FACTORS)].concat(),
        b: [x, y].concat(),
        bias: [bias.clone(), negated(&bias)].concat(),
        quotients,
        remainders,
    };
    visit_written(visit, generator, "to the nearest", setting, &parts);
    for (place, &sum) in sums.iter().enumerate() {
        if generator.once_in(2) {
            visit_misread(visit, generator, setting, &parts, place, sum);
        }
    }
}

/// The claim at one place as those make it who round down, who leave o out of the
/// remainder, or who take the lower quotient of two that are as near.
fn visit_misread(
    visit: &mut Visitor,
    generator: &mut Generator,
    setting: &Setting,
    right: &Parts,
    place: usize,
    sum: Sum,
) {
    let alpha = i64::from(setting.scale);
    let quotient = right.quotients[place];
    let mut claims = vec![
        ("rounded down", sum.k, sum.h),
        ("the remainder without o", quotient, right.remainders[place] - alpha / 2),
    ];
    if 2 * sum.h == alpha {
        claims.push(("a half rounded down", sum.k, alpha));
    }
    let first_remainder = right.ticket(setting).len() / 8 - right.remainders.len();
    for (what, quotient, remainder) in claims {
        let mut parts = right.clone();
        parts.quotients[place] = quotient;
        parts.remainders[place] = remainder;
        let (by_list, in_full) = if (0..alpha).contains(&remainder) {
            let row = place / setting.columns as usize;
            (caught(setting, 0, row), untrue(setting, place))
        } else {
            let refusal = refused(9, first_remainder + place);
            (refusal, refusal)
        };
        let case = TicketCase {
            what,
            setting: *setting,
            ticket: parts.ticket(setting),
            list: list_without_zero(generator, setting),
            expected: Some(by_list),
        };
        visit.challenge(&case);
        visit.full(what, setting, &case.ticket, Some(in_full));
    }
}

#[cfg(test)]
mod tests {
    use super::*;
    use crate::cases::{Call, Case, Cases};

    #[test]
    fn to_the_nearest_and_halves_up() {
        // 24, 25 and 26 over 10, and the same below 0.
        for (h, up, down) in [(4, (2, 9), (-2, 1)), (5, (3, 0), (-2, 0)), (6, (3, 1), (-3, 9))] {
            let sum = Sum { k: 2, h };
            assert_eq!((sum.nearest(10), sum.negated(10).nearest(10)), (up, down));
        }
        // 1 and 2 over 3 have o = 1.
        assert_eq!([1, 2].map(|h| Sum { k: 0, h }.nearest(3)), [(0, 2), (1, 0)]);
        let zero = Sum { k: -4, h: 0 }.negated(3);
        assert_eq!((zero.k, zero.h), (4, 0));
    }

    #[test]
    fn claims_go_below_the_signed_entries() {
        for form in [Form::Plain, Form::Bias] {
            let mut below = 0;
            let mut visit = |case: &Case| {
                let Setting {
                    scale, width, rounding, ..
                } = case.setting;
                below += u32::from((scale << (width - 1)) + rounding > (P - 1) / 2);
            };
            extremes(&mut Visitor(&mut visit), form);
            assert!(below > 500, "{below}");
        }
    }

    /// The families would be of no use without the cases that they are made for.
    #[test]
    fn each_number_is_met() {
        let families: [(Cases, &[usize]); 4] = [
            (largest_roundings, &[0, 3, 19]),
            (last_quotients, &[0, 8, 9, 16]),
            (changed_claims, &[9, 16]),
            (halves, &[0, 9, 16]),
        ];
        for (index, (family, numbers)) in families.into_iter().enumerate() {
            for form in [Form::Plain, Form::Bias] {
                let mut counts = [0; 20];
                let mut visit = |case: &Case| {
                    let stated = case.expected.as_ref().expect("every case is stated");
                    if let Call::Full { .. } = case.call {
                        counts[stated.answer.number as usize] += 1;
                    }
                };
                family(&mut Visitor(&mut visit), form);
                for &number in numbers {
                    assert!(counts[number] > 10, "family {index}, {form:?}, {number}: {counts:?}");
                }
            }
        }
    }
}
