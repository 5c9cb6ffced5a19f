//! Numbers with which a layer that does not fit would, found by asking the
//! library.

use crate::layer::Layer;
use crate::parameters::{Fit, Parameter};
use crate::words::{alternatives, thousands};

/// What a number may be changed to, all others staying.
#[derive(Debug, PartialEq, Eq)]
pub enum Remedy {
    /// This or less.
    UpTo(u32),
    /// The nearest one below, the nearest one above, or both.
    Nearest(Vec<u32>),
}

impl Remedy {
    /// For a layer that the library refuses. None where no other number helps.
    pub fn new(parameter: Parameter, layer: Layer) -> Option<Remedy> {
        match parameter.fit {
            Fit::NoPart => None,
            Fit::Smaller => largest(parameter, layer).map(Remedy::UpTo),
            Fit::Uneven => {
                let nearest = nearest(parameter, layer);
                (!nearest.is_empty()).then_some(Remedy::Nearest(nearest))
            }
        }
    }

    pub fn in_words(&self, Parameter { option, least, .. }: Parameter) -> String {
        match self {
            &Remedy::UpTo(number) if number == least => format!("{option} {number}"),
            &Remedy::UpTo(number) => format!("{option} {} or less", thousands(number)),
            Remedy::Nearest(numbers) => {
                let numbers: Vec<String> = numbers.iter().map(|&number| thousands(number)).collect();
                let numbers: Vec<&str> = numbers.iter().map(String::as_str).collect();
                format!("{option} {}, the nearest", alternatives(&numbers))
            }
        }
    }
}

/// By bisection between a number with which the library gives figures and one
/// with which it does not, until they are neighbours.
fn largest(parameter: Parameter, layer: Layer) -> Option<u32> {
    let is_quoted = |number| parameter.set(layer, number).is_quoted();
    let (mut quoted, mut refused) = (parameter.least, parameter.of(layer)?);
    if !is_quoted(quoted) {
        return None;
    }
    while refused - quoted > 1 {
        let middle = quoted + (refused - quoted) / 2;
        if is_quoted(middle) {
            quoted = middle;
        } else {
            refused = middle;
        }
    }
    Some(quoted)
}

/// By asking outward from the layer's own number.
fn nearest(parameter: Parameter, layer: Layer) -> Vec<u32> {
    let Some(own) = parameter.of(layer) else {
        return Vec::new();
    };
    let limits = parameter.limits(layer);
    let is_quoted = |number: &u32| parameter.set(layer, *number).is_quoted();
    let below = (*limits.start()..own).rev().find(is_quoted);
    let above = (own + 1..=*limits.end()).find(is_quoted);
    below.into_iter().chain(above).collect()
}

#[cfg(test)]
mod tests {
    use super::*;
    use crate::parameters::{BIAS_BOUND, BOUND, INNER, PARAMETERS, ROUNDING, SCALE};
    use crate::tests::{layer, samples, with_bias};

    /// Some numbers within the limits, going up: both ends, those about the powers
    /// of two and the layer's own.
    fn some(parameter: Parameter, layer: Layer) -> Vec<u32> {
        let limits = parameter.limits(layer);
        let powers = (0..=30).flat_map(|exponent| [1 << exponent, (1 << exponent) - 1]);
        let mut numbers: Vec<u32> = powers.chain(parameter.of(layer)).chain([*limits.end()]).collect();
        numbers.sort_unstable();
        numbers.dedup();
        numbers.retain(|number| limits.contains(number));
        numbers
    }

    #[test]
    fn the_table_says_what_a_number_has_to_do_with_the_fit() {
        let mut uneven = 0;
        for layer in samples(&[2, 255, 256, 65_535]) {
            for parameter in PARAMETERS.into_iter().filter(|parameter| parameter.of(layer).is_some()) {
                let numbers = some(parameter, layer);
                let quotes: Vec<_> = numbers
                    .iter()
                    .map(|&number| parameter.set(layer, number).quote())
                    .collect();
                let is_quoted: Vec<_> = quotes.iter().map(|quote| quote.number == 0).collect();
                match parameter.fit {
                    Fit::NoPart => assert!(quotes.iter().all(|quote| quote.width == quotes[0].width)),
                    Fit::Smaller => assert!(is_quoted.is_sorted_by(|smaller, larger| smaller >= larger)),
                    Fit::Uneven => {
                        let falls = is_quoted.is_sorted_by(|smaller, larger| smaller >= larger);
                        uneven += usize::from(!falls && !is_quoted.is_sorted());
                    }
                }
            }
        }
        assert!(uneven > 0);
    }

    /// Beside a search of every number.
    #[test]
    fn the_remedies_are_the_nearest() {
        let no_fit = layer([32, 64, 32, 2, 256, 3000, 128]);
        let mut found = Vec::new();
        for layer in [
            no_fit,
            with_bias(0, no_fit),
            with_bias(400_000_000, no_fit),
            with_bias(1 << 30, no_fit),
            layer([1, 64, 1, 1, 2, 3000, 0]),
            layer([1, 64, 1, 1, 65_536, 3000, 0]),
            layer([1, 2, 1, 1, 256, 23_170, 128]),
            layer([1, 1, 1, 1, 16_384, 23_170, 8192]),
        ] {
            assert_eq!(layer.quote().number, 20);
            for parameter in [INNER, SCALE, BOUND, ROUNDING] {
                let limits = parameter.limits(layer);
                let own = parameter.of(layer).expect("a number");
                let quoted: Vec<u32> = limits
                    .filter(|&number| parameter.set(layer, number).is_quoted())
                    .collect();
                let expected = match parameter.fit {
                    Fit::Smaller => {
                        // All from the least on.
                        assert!((parameter.least..)
                            .zip(&quoted)
                            .all(|(number, &quoted)| number == quoted));
                        quoted.last().map(|&largest| Remedy::UpTo(largest))
                    }
                    _ => {
                        let below = quoted.iter().rfind(|&&number| number < own);
                        let above = quoted.iter().find(|&&number| number > own);
                        let nearest: Vec<u32> = below.into_iter().chain(above).copied().collect();
                        (!nearest.is_empty()).then_some(Remedy::Nearest(nearest))
                    }
                };
                assert_eq!(
                    Remedy::new(parameter, layer),
                    expected,
                    "{} {layer:?}",
                    parameter.option
                );
                found.extend(expected.map(|remedy| remedy.in_words(parameter)));
            }
        }
        for words in [
            "--inner 1",
            "--inner 59 or less",
            "--rounding 5,629 or less",
            "--bound 23,169 or less",
            "--scale 255 or 275, the nearest",
            "--scale 3, the nearest",
            "--scale 65,535, the nearest",
        ] {
            assert!(
                found.iter().any(|found| found == words),
                "{words} is not among {found:?}"
            );
        }
    }

    #[test]
    fn sizes_and_vectors_that_play_no_part_are_no_remedy() {
        let no_fit = layer([32, 64, 32, 2, 256, 3000, 128]);
        let of_no_part = PARAMETERS.into_iter().filter(|parameter| parameter.fit == Fit::NoPart);
        assert_eq!(
            of_no_part
                .map(|parameter| Remedy::new(parameter, no_fit))
                .collect::<Vec<_>>(),
            [None, None, None]
        );
        assert_eq!(Remedy::new(BIAS_BOUND, no_fit), None);
    }
}
