//! The numbers of a layer: their options, what they are, and their limits. This
//! is the one table of them, for the usage and for what is said of a refusal.

use std::ops::RangeInclusive;

use crate::layer::Layer;
use crate::words::thousands;

/// A number of a layer.
#[derive(Clone, Copy)]
pub struct Parameter {
    /// The option that gives it.
    pub option: &'static str,
    pub is_optional: bool,
    pub letter: &'static str,
    pub meaning: &'static str,
    pub least: u32,
    most: Most,
    pub fit: Fit,
    /// Where a layer has it. A layer without a bias has no bound of one.
    place: fn(&mut Layer) -> Option<&mut u32>,
}

#[derive(Clone, Copy)]
enum Most {
    Is(u32),
    /// α - 1.
    BelowScale,
}

/// What a number has to do with whether a layer fits.
#[derive(Clone, Copy, Debug, PartialEq, Eq)]
pub enum Fit {
    /// Nothing.
    NoPart,
    /// What fits with a number fits with every smaller one.
    Smaller,
    /// There is no such order.
    Uneven,
}

pub const ROWS: Parameter = Parameter {
    option: "--rows",
    is_optional: false,
    letter: "ℓ",
    meaning: "rows of A",
    least: 1,
    most: Most::Is(32),
    fit: Fit::NoPart,
    place: |layer| Some(&mut layer.setting.rows),
};

pub const INNER: Parameter = Parameter {
    option: "--inner",
    is_optional: false,
    letter: "m",
    meaning: "columns of A, which are the rows of B",
    least: 1,
    most: Most::Is(64),
    fit: Fit::Smaller,
    place: |layer| Some(&mut layer.setting.inner),
};

pub const COLUMNS: Parameter = Parameter {
    option: "--columns",
    is_optional: false,
    letter: "n",
    meaning: "columns of B",
    least: 1,
    most: Most::Is(32),
    fit: Fit::NoPart,
    place: |layer| Some(&mut layer.setting.columns),
};

pub const VECTORS: Parameter = Parameter {
    option: "--vectors",
    is_optional: false,
    letter: "s",
    meaning: "challenge vectors",
    least: 1,
    most: Most::Is(8),
    fit: Fit::NoPart,
    place: |layer| Some(&mut layer.setting.vectors),
};

pub const SCALE: Parameter = Parameter {
    option: "--scale",
    is_optional: false,
    letter: "α",
    meaning: "what each sum is divided by",
    least: 2,
    most: Most::Is(65_536),
    fit: Fit::Uneven,
    place: |layer| Some(&mut layer.setting.scale),
};

pub const BOUND: Parameter = Parameter {
    option: "--bound",
    is_optional: false,
    letter: "T",
    meaning: "bound of A and B, whose entries are from -T to T",
    least: 1,
    most: Most::Is(32_767),
    fit: Fit::Smaller,
    place: |layer| Some(&mut layer.setting.bound),
};

pub const ROUNDING: Parameter = Parameter {
    option: "--rounding",
    is_optional: false,
    letter: "o",
    meaning: "what is added to each sum before it is divided",
    least: 0,
    most: Most::BelowScale,
    fit: Fit::Smaller,
    place: |layer| Some(&mut layer.setting.rounding),
};

pub const BIAS_BOUND: Parameter = Parameter {
    option: "--bias-bound",
    is_optional: true,
    letter: "W",
    meaning: "bound of the bias, whose entries are from -W to W",
    least: 0,
    most: Most::Is(1 << 30),
    fit: Fit::Smaller,
    place: |layer| layer.bias_bound.as_mut(),
};

/// In the order of `Layer::new`.
pub const PARAMETERS: [Parameter; 8] = [ROWS, INNER, COLUMNS, VECTORS, SCALE, BOUND, ROUNDING, BIAS_BOUND];

impl Parameter {
    /// None where the layer does not have it.
    pub fn of(&self, mut layer: Layer) -> Option<u32> {
        (self.place)(&mut layer).copied()
    }

    /// The layer with this number instead, where it has one.
    pub fn set(&self, mut layer: Layer, number: u32) -> Layer {
        if let Some(place) = (self.place)(&mut layer) {
            *place = number;
        }
        layer
    }

    /// What it may be in a layer. A number that has to be below the scale is held
    /// to the largest scale, where the layer's own is outside its limits.
    pub fn limits(&self, layer: Layer) -> RangeInclusive<u32> {
        let most = match self.most {
            Most::Is(most) => most,
            Most::BelowScale => {
                let scales = SCALE.limits(layer);
                let scale = SCALE.of(layer).filter(|scale| scales.contains(scale));
                scale.unwrap_or(*scales.end()) - 1
            }
        };
        self.least..=most
    }

    pub fn limits_in_words(&self) -> String {
        let most = match self.most {
            Most::Is(most) => thousands(most),
            Most::BelowScale => "α - 1".to_string(),
        };
        format!("{} to {most}", self.least)
    }

    /// The number of a layer and its limits, where it is outside them.
    pub fn outside(&self, layer: Layer) -> Option<(u32, RangeInclusive<u32>)> {
        let (number, limits) = (self.of(layer)?, self.limits(layer));
        (!limits.contains(&number)).then_some((number, limits))
    }

    /// It has to be below the scale.
    pub fn is_below_scale(&self) -> bool {
        matches!(self.most, Most::BelowScale)
    }
}

#[cfg(test)]
mod tests {
    use super::*;
    use crate::tests::{layer, with_bias};

    /// The number with which the library refuses each, outside its limits.
    const REFUSALS: [u32; 8] = [1, 1, 1, 1, 2, 2, 19, 17];

    #[test]
    fn the_limits_are_those_of_the_library() {
        for scale in [2, 3, 256, 65_535, 65_536] {
            let layer = with_bias(0, layer([1, 1, 1, 1, scale, 1, 0]));
            for (parameter, refusal) in PARAMETERS.into_iter().zip(REFUSALS) {
                let number = |number| parameter.set(layer, number).quote().number;
                let limits = parameter.limits(layer);
                let (least, most) = (*limits.start(), *limits.end());
                for end in [least, most] {
                    assert!([0, 20].contains(&number(end)), "{} {end}", parameter.option);
                }
                let beyond = [least.checked_sub(1), most.checked_add(1), Some(u32::MAX)];
                for number_beyond in beyond.into_iter().flatten() {
                    assert_eq!(number(number_beyond), refusal, "{} {number_beyond}", parameter.option);
                }
            }
        }
    }

    #[test]
    fn the_limits_in_words() {
        let words = PARAMETERS.map(|parameter| parameter.limits_in_words());
        let expected = [
            "1 to 32",
            "1 to 64",
            "1 to 32",
            "1 to 8",
            "2 to 65,536",
            "1 to 32,767",
            "0 to α - 1",
            "0 to 1,073,741,824",
        ];
        assert_eq!(words, expected);
    }

    #[test]
    fn each_number_has_a_place_of_its_own() {
        let numbers = [11, 12, 13, 14, 15, 16, 17, 18];
        let layer = Layer::new(numbers.map(Some)).expect("a layer");
        for (parameter, number) in PARAMETERS.into_iter().zip(numbers) {
            assert_eq!(parameter.of(layer), Some(number));
            let changed = parameter.set(layer, 99);
            let now = PARAMETERS.map(|other| other.of(changed));
            let expected = numbers.map(|old| Some(if old == number { 99 } else { old }));
            assert_eq!(now, expected);
        }
    }

    #[test]
    fn a_layer_without_a_bias_has_no_bound_of_one() {
        let layer = layer([1, 1, 1, 1, 2, 1, 0]);
        assert_eq!(BIAS_BOUND.of(layer), None);
        assert_eq!(BIAS_BOUND.set(layer, 5), layer);
        assert_eq!(BIAS_BOUND.outside(layer), None);
    }

    #[test]
    fn what_has_to_be_below_the_scale_is_held_to_one_within_its_limits() {
        for (scale, rounding, most) in [
            (256, 255, None),
            (256, 256, Some(255)),
            (1, 128, None),
            (0, 65_536, Some(65_535)),
            (65_537, 65_536, Some(65_535)),
        ] {
            let outside = ROUNDING.outside(layer([1, 1, 1, 1, scale, 1, rounding]));
            assert_eq!(outside, most.map(|most| (rounding, 0..=most)));
        }
    }
}
