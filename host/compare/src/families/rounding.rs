//! The families of settings with a rounding number o, and the pieces that they are
//! made of. In all other families o is 0, but for those on vectors of zeros.

pub mod examples;
pub mod limits;
pub mod random;
pub mod shifted;
pub mod written;

use super::craft::{self, slack, with_some_bias_bound};
use crate::generator::Generator;
use crate::setting::{Form, Setting};

/// A setting of the given sizes that fits, with any o and then any W.
pub fn fitting(generator: &mut Generator, form: Form, sizes: [u32; 4]) -> Setting {
    let setting = craft::fitting(generator, Form::Plain, sizes);
    let rounding = some_rounding(generator, &setting);
    with_some_bias_bound(generator, form, Setting { rounding, ..setting })
}

/// An o with which a setting that fits still does: the largest that there is, half
/// the scale, 1, 0, or any.
fn some_rounding(generator: &mut Generator, setting: &Setting) -> u32 {
    let largest = largest_rounding(setting);
    match generator.below(8) {
        0..2 => largest,
        2..4 => largest.min(setting.scale / 2),
        4 => largest.min(1),
        5 => 0,
        _ => generator.between(0, i64::from(largest)) as u32,
    }
}

/// The largest o, which is below α, of a setting that fits.
fn largest_rounding(setting: &Setting) -> u32 {
    let without = Setting {
        rounding: 0,
        ..*setting
    };
    slack(&without).min(i64::from(setting.scale) - 1) as u32
}

#[cfg(test)]
mod tests {
    use super::*;
    use crate::cases::{apart, Case, Cases, Family, Reply, Side};
    use crate::comparison::compare;
    use crate::families::craft::{fits, sizes_up_to, K, K_WITH_BIAS};
    use crate::families::settings::refusal;

    #[test]
    fn the_largest_rounding_number_fits_and_the_next_does_not() {
        // 2·8² + 19 = 147 leaves 13 up to 160. Under K nothing but α is in the way,
        // and with W = 23 nothing is left.
        let of_20 = Setting {
            scale: 20,
            width: 4,
            ..K
        };
        for (setting, largest) in [(of_20, 13), (K, 9), (K_WITH_BIAS, 0)] {
            assert_eq!(largest_rounding(&setting), largest);
        }
    }

    #[test]
    fn settings_fit_with_every_kind_of_rounding_number() {
        for form in [Form::Plain, Form::Bias] {
            let mut generator = Generator::new(1);
            let [mut none, mut half, mut last, mut edge] = [0; 4];
            for _ in 0..2_000 {
                let sizes = sizes_up_to(&mut generator, [4, 64, 4, 8]);
                let setting = fitting(&mut generator, form, sizes);
                assert!(refusal(&setting).is_none() && fits(&setting), "{setting:?}");
                none += u32::from(setting.rounding == 0);
                half += u32::from(setting.rounding == setting.scale / 2);
                last += u32::from(setting.rounding == setting.scale - 1);
                edge += u32::from(slack(&setting) == 0);
            }
            assert!(
                [none, half, last].iter().all(|&count| count > 200),
                "{none} {half} {last}"
            );
            assert!(edge > 10, "{edge}");
        }
    }

    /// The reply to the case with another o.
    fn with_rounding(case: &Case, rounding: u32) -> Reply {
        apart(&Case {
            what: case.what,
            setting: Setting {
                rounding,
                ..case.setting
            },
            call: case.call,
            expected: None,
        })
    }

    fn left_out(case: &Case) -> Reply {
        with_rounding(case, 0)
    }

    fn one_less(case: &Case) -> Reply {
        with_rounding(case, case.setting.rounding.saturating_sub(1))
    }

    fn never_refused(case: &Case) -> Reply {
        with_rounding(case, case.setting.rounding.min(case.setting.scale.saturating_sub(1)))
    }

    fn left_out_of_fitting(case: &Case) -> Reply {
        match apart(case) {
            reply if reply.answer.number == 3 => with_rounding(case, 0),
            reply => reply,
        }
    }

    fn refused_after_3(case: &Case) -> Reply {
        let without = with_rounding(case, 0);
        match apart(case) {
            reply if reply.answer.number == 19 && without.answer.number == 3 => without,
            reply => reply,
        }
    }

    fn refused_before_2_and_17(case: &Case) -> Reply {
        let mut reply = apart(case);
        if [2, 17].contains(&reply.answer.number) && case.setting.rounding >= case.setting.scale {
            reply.answer.number = 19;
        }
        reply
    }

    /// Answers are stated where both sides might err alike.
    #[test]
    fn the_same_mistake_on_both_sides_is_noticed() {
        let of_tickets: [Cases; 2] = [examples::examples, written::last_quotients];
        let of_settings: [Cases; 2] = [examples::examples, limits::pairs_of_limits];
        let of_fitting: [Cases; 2] = [examples::examples, limits::edge_of_fitting];
        let mistakes: [(Side, &[Cases]); 6] = [
            (left_out, &of_tickets),
            (one_less, &of_tickets),
            (never_refused, &of_settings),
            (left_out_of_fitting, &of_fitting),
            (refused_after_3, &of_settings),
            (refused_before_2_and_17, &of_settings),
        ];
        for (number, (side, families)) in mistakes.into_iter().enumerate() {
            for &cases in families {
                for form in [Form::Plain, Form::Bias] {
                    let name = String::new();
                    let outcome = compare(&Family { name, form, cases }, side, side);
                    assert!(outcome.differing > 0, "mistake {number}, {form:?}");
                }
            }
        }
    }
}
