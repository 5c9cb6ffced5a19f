//! The quote that the rules state, worked out here and without a search, so that an
//! error of both sides is noticed.

use apart::Quote;

use super::refused;
use crate::cases::{accepted, accepted_in_full};
use crate::families::craft::P;
use crate::families::settings::refusal_by_limits;
use crate::setting::{Form, Setting};

/// The refusal by the limits, or by 20, or the figures.
pub fn stated(setting: &Setting) -> Quote {
    // The width is not read: one within its limits stands for any.
    let read = Setting { width: 1, ..*setting };
    match refusal_by_limits(&read) {
        Some(number) => refused(number),
        None => match smallest_width(setting) {
            Some(width) => figures(setting, width),
            None => refused(20),
        },
    }
}

/// The smallest width with which a setting within the limits fits. By the first
/// condition 2^(v-1) is not below the left side over α; where the first such power of
/// two does not meet the second condition, no larger one does.
pub fn smallest_width(setting: &Setting) -> Option<u32> {
    let [m, t, alpha, p] = [setting.inner, setting.bound, setting.scale, P].map(u64::from);
    let [w, o] = [setting.greatest_bias(), setting.rounding].map(u64::from);
    let left = m * t * t + w + o + alpha - 1;
    let half = left.div_ceil(alpha).next_power_of_two();
    (2 * half * alpha < p).then(|| half.ilog2() + 1)
}

/// The last width for which 2^v·α < p holds. For no scale it is above 29.
pub fn last_width(scale: u32) -> u32 {
    ((P - 1) / scale).ilog2()
}

fn figures(setting: &Setting, width: u32) -> Quote {
    let Setting {
        rows, inner, columns, ..
    } = *setting;
    // Quotients, remainders and the bias.
    let of_a_sum = match setting.form() {
        Form::Plain => 2,
        Form::Bias => 3,
    };
    Quote {
        number: 0,
        width,
        length: 8 * (rows * inner + inner * columns + of_a_sum * rows * columns),
        full_products: accepted_in_full(setting).products,
        challenge_products: accepted(setting).products,
    }
}

#[cfg(test)]
mod tests {
    use super::*;
    use crate::families::craft::{fits, k, K};
    use crate::families::rounding::random::random_setting_with_rounding;
    use crate::generator::Generator;

    #[test]
    fn under_k() {
        assert_eq!(stated(&k(Form::Plain)).numbers(), [0, 5, 128, 8, 12]);
        assert_eq!(stated(&k(Form::Bias)).numbers(), [0, 5, 160, 8, 16]);
        assert_eq!(stated(&Setting { rounding: 10, ..K }), refused(19));
        assert_eq!(stated(&Setting { width: 31, ..K }).number, 0);
    }

    /// The first of all widths that fits is found without trying them.
    #[test]
    fn the_smallest_width_is_the_first_that_fits() {
        for form in [Form::Plain, Form::Bias] {
            let mut generator = Generator::new(1);
            let [mut some, mut none] = [0; 2];
            for _ in 0..20_000 {
                let mut setting = random_setting_with_rounding(&mut generator, form);
                setting.width = 1;
                if refusal_by_limits(&setting).is_some() {
                    continue;
                }
                let first = (1..=30).find(|&width| fits(&Setting { width, ..setting }));
                assert_eq!(smallest_width(&setting), first, "{setting:?}");
                match first {
                    Some(_) => some += 1,
                    None => none += 1,
                }
            }
            assert!(some > 1_000 && none > 500, "{some} {none}");
        }
    }

    #[test]
    fn the_last_width_of_every_scale() {
        for scale in 2..=65_536 {
            let within = |width: u32| u64::from(scale) << width < u64::from(P);
            let last = last_width(scale);
            assert!(within(last) && !within(last + 1));
        }
        assert_eq!([2, 3, 4, 65_535, 65_536].map(last_width), [29, 29, 28, 15, 14]);
    }
}
