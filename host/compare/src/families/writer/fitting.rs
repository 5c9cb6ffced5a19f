//! Settings that just fit, with the operands that make the largest sums, and
//! those that are one step beyond.

use super::{of_patterns, visit_written, writer_case, PATTERNS};
use crate::cases::{refused, Visitor, Writing};
use crate::families::craft::{fits, true_parts};
use crate::families::settings::bias_bounds;
use crate::generator::Generator;
use crate::setting::{Form, Setting};

const INNER: [u32; 9] = [1, 2, 3, 7, 31, 32, 33, 63, 64];

pub const SCALES: [u32; 14] = [
    2, 3, 5, 10, 127, 128, 1000, 4095, 4096, 32_766, 32_767, 32_768, 65_535, 65_536,
];

const BOUNDS: [u32; 17] = [
    1, 2, 3, 8, 9, 100, 181, 182, 255, 256, 1023, 1024, 4095, 4096, 23_170, 32_766, 32_767,
];

/// Rows and columns that take turns with the settings.
const OUTER: [[u32; 2]; 6] = [[1, 1], [2, 3], [3, 1], [1, 4], [2, 2], [5, 2]];

/// The largest sums, the smallest, those that change between and random ones,
/// under a setting that fits.
pub fn visit_fitting(visit: &mut Visitor, generator: &mut Generator, what: &'static str, setting: &Setting) {
    let [all, all_negative, .., rows_of_one_sign, columns_of_one_sign, _] = PATTERNS;
    let of_two = (generator.choose(&PATTERNS), generator.choose(&PATTERNS));
    let pairs = [
        (all, all),
        (all, all_negative),
        (rows_of_one_sign, columns_of_one_sign),
        of_two,
    ];
    let mut tickets: Vec<_> = pairs
        .into_iter()
        .map(|(in_a, in_b)| of_patterns(setting, in_a, in_b))
        .collect();
    tickets.push(true_parts(generator, setting));
    for parts in tickets {
        visit_written(visit, generator, what, setting, &parts);
    }
}

/// The writer and the full check refuse the setting by this number.
pub fn visit_beyond(visit: &mut Visitor, what: &'static str, setting: &Setting, number: u32) {
    let parts = of_patterns(setting, PATTERNS[0], PATTERNS[5]);
    let ticket = parts.ticket(setting);
    let mut case = writer_case(what, setting, &parts, vec![0xC3; ticket.len()]);
    case.expected = Some(Writing::Refusal(refused(number, 0)));
    visit.write(&case);
    visit.full(what, setting, &ticket, Some(refused(number, 0)));
}

/// The largest bound with which the setting fits, or 0. It is put together from
/// its bits.
pub fn largest_bound(setting: &Setting) -> u32 {
    let mut bound = 0;
    for bit in (0..15).rev() {
        let larger = bound + (1 << bit);
        if fits(&Setting {
            bound: larger,
            ..*setting
        }) {
            bound = larger;
        }
    }
    bound
}

fn visit_largest_bound(visit: &mut Visitor, generator: &mut Generator, setting: &Setting) {
    let bound = largest_bound(setting);
    if bound > 0 {
        visit_fitting(visit, generator, "the largest bound", &Setting { bound, ..*setting });
    }
    let number = if bound == 32_767 { 2 } else { 3 };
    let beyond = Setting {
        bound: bound + 1,
        ..*setting
    };
    visit_beyond(visit, "one beyond the largest bound", &beyond, number);
}

/// For many sizes, scales and widths the largest bound that fits, and the next.
pub fn largest_bounds(visit: &mut Visitor, form: Form) {
    let mut generator = Generator::new(811);
    let mut outer = OUTER.into_iter().cycle();
    let mut bias_bounds = bias_bounds(form).iter().copied().cycle();
    for inner in INNER {
        for scale in SCALES {
            for width in 1..=30 {
                let [rows, columns] = outer.next().expect("there is always a next one");
                let setting = Setting {
                    bias_bound: bias_bounds.next().expect("there is always a next one"),
                    ..Setting::from([rows, inner, columns, 1, scale, 1, width])
                };
                visit_largest_bound(visit, &mut generator, &setting);
            }
        }
    }
}

/// The same for large tickets, with fewer scales and widths.
pub fn largest_bounds_of_large(visit: &mut Visitor, form: Form) {
    let mut generator = Generator::new(813);
    let mut bias_bounds = bias_bounds(form).iter().copied().cycle();
    for [rows, inner, columns] in [[32, 64, 32], [32, 1, 32], [1, 64, 32], [32, 64, 1], [31, 63, 30]] {
        for _ in 0..10 {
            let scale = generator.choose(&SCALES);
            let width = generator.between(7, 16) as u32;
            let setting = Setting {
                bias_bound: bias_bounds.next().expect("there is always a next one"),
                ..Setting::from([rows, inner, columns, 8, scale, 1, width])
            };
            visit_largest_bound(visit, &mut generator, &setting);
        }
    }
}

/// For many inner sizes, bounds and scales the smallest and the largest width
/// that fits, one less and one more.
pub fn widths(visit: &mut Visitor, form: Form) {
    let mut generator = Generator::new(812);
    let mut outer = OUTER.into_iter().cycle();
    let mut bias_bounds = bias_bounds(form).iter().copied().cycle();
    for inner in INNER {
        for bound in BOUNDS {
            for scale in SCALES {
                let [rows, columns] = outer.next().expect("there is always a next one");
                let bias_bound = bias_bounds.next().expect("there is always a next one");
                let with = |width| Setting {
                    bias_bound,
                    ..Setting::from([rows, inner, columns, 1, scale, bound, width])
                };
                let fitting: Vec<u32> = (1..=30).filter(|&width| fits(&with(width))).collect();
                let (Some(&smallest), Some(&largest)) = (fitting.first(), fitting.last()) else {
                    visit_beyond(visit, "no width fits", &with(generator.between(1, 30) as u32), 3);
                    continue;
                };
                visit_fitting(visit, &mut generator, "the smallest width", &with(smallest));
                visit_fitting(visit, &mut generator, "the largest width", &with(largest));
                let number = |width| if (1..=30).contains(&width) { 3 } else { 2 };
                for (what, width) in [
                    ("one less than the smallest width", smallest - 1),
                    ("one more than the largest width", largest + 1),
                ] {
                    visit_beyond(visit, what, &with(width), number(width));
                }
            }
        }
    }
}

#[cfg(test)]
mod tests {
    use super::*;
    use crate::cases::{Call, Case, Cases};
    use crate::families::craft::{K, K_WITH_BIAS};

    #[test]
    fn the_largest_bound_fits_and_the_next_does_not() {
        // Under K, 2·8² + 9 = 137 is at most 160 and 2·9² + 9 = 171 is not.
        assert_eq!(largest_bound(&K), 8);
        assert_eq!(largest_bound(&K_WITH_BIAS), 8);
        // v = 2: 65536 + 65535 would be needed at 256².
        assert_eq!(largest_bound(&Setting::from([1, 1, 1, 1, 65_535, 1, 2])), 256);
        assert_eq!(largest_bound(&Setting::from([1, 1, 1, 1, 65_534, 1, 2])), 255);
        assert_eq!(largest_bound(&Setting::from([1, 1, 1, 1, 32_767, 1, 16])), 32_767);
        assert_eq!(largest_bound(&Setting::from([1, 2, 1, 1, 2, 1, 1])), 0);
    }

    /// The families would be of no use without the cases that they are made for.
    #[test]
    fn both_sides_of_fitting_are_met() {
        let families: [(Cases, Form); 4] = [
            (largest_bounds, Form::Plain),
            (widths, Form::Plain),
            (largest_bounds, Form::Bias),
            (widths, Form::Bias),
        ];
        for (family, form) in families {
            let mut numbers = [0; 4];
            let mut visit = |case: &Case| {
                if let Call::Writer { .. } = case.call {
                    let stated = case.expected.as_ref().expect("every case is stated");
                    numbers[stated.answer.number as usize] += 1;
                }
            };
            family(&mut Visitor(&mut visit), form);
            let [written, _, limits, fitting] = numbers;
            assert!(written > 1000 && fitting > 500, "{numbers:?}");
            // With a bias the bound at its limit fits only where W is 0 or 1.
            assert!(limits > 0 || form == Form::Bias, "{numbers:?}");
        }
    }
}
