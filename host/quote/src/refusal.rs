//! The text of a refusal: what it means, and what would have to change.

use crate::layer::Layer;
use crate::parameters::{Fit, BIAS_BOUND, BOUND, PARAMETERS};
use crate::remedies::Remedy;
use crate::words::{alternatives, thousands};

/// For a layer that the library refuses by this number.
pub fn text(layer: Layer, number: u32) -> String {
    let meaning = answers::meaning(layer.call(), number, &[]);
    let meaning = meaning.unwrap_or("a number that docs/answers.txt does not have".to_string());
    let changes = match number {
        20 => to_fit(layer),
        _ => to_be_within_limits(layer),
    };
    format!("{number}: {meaning}\n\n{changes}")
}

/// Every number that is outside its limits, and whether the nearest within them
/// would do.
fn to_be_within_limits(layer: Layer) -> String {
    let mut text = "What would have to change:\n".to_string();
    let mut nearest = layer;
    let mut outside = 0;
    for parameter in PARAMETERS {
        let Some((number, limits)) = parameter.outside(layer) else {
            continue;
        };
        let (option, least) = (parameter.option, limits.start());
        let [number_in_words, most] = [number, *limits.end()].map(thousands);
        text += &format!("  {option} is {number_in_words}, and has to be from {least} to {most}");
        text += if parameter.is_below_scale() {
            ", below the scale\n"
        } else {
            "\n"
        };
        nearest = parameter.set(nearest, number.clamp(*limits.start(), *limits.end()));
        outside += 1;
    }
    let nearest_in_words = match outside {
        0 => return "What would have to change is not known here: every number is within its limits.\n".to_string(),
        1 => "With the nearest number within its limits",
        _ => "With the nearest numbers within their limits",
    };
    match nearest.quote().number {
        0 => text + &format!("{nearest_in_words} there is a quote.\n"),
        // 20, or 19 where the rounding number is not below the nearest scale; that alone is then outside.
        number => {
            text + &format!("{nearest_in_words} there would still be no quote:\n\n") + &self::text(nearest, number)
        }
    }
}

/// The numbers of which one alone, or else two together, would make it fit.
fn to_fit(layer: Layer) -> String {
    let (mut enough, mut not_enough) = (String::new(), Vec::new());
    for parameter in PARAMETERS.into_iter().filter(|parameter| parameter.fit != Fit::NoPart) {
        let Some(own) = parameter.of(layer) else {
            continue;
        };
        match Remedy::new(parameter, layer) {
            Some(remedy) => {
                let own = thousands(own);
                enough += &format!("  {} (it is {own})\n", remedy.in_words(parameter));
            }
            None => not_enough.push(parameter.option),
        }
    }
    if enough.is_empty() {
        return two_together(layer);
    }
    let mut text = format!("What would have to change; one of these is enough:\n{enough}");
    if !not_enough.is_empty() {
        let options = alternatives(&not_enough);
        text += &format!("No other value of {options} is enough by itself.\n");
    }
    text
}

/// Each bound with the other at its least. With both at their least every layer
/// fits.
fn two_together(layer: Layer) -> String {
    let mut text = "What would have to change: no number is enough by itself. Two together are:\n".to_string();
    for (parameter, other) in [(BOUND, BIAS_BOUND), (BIAS_BOUND, BOUND)] {
        if let Some(remedy) = Remedy::new(parameter, other.set(layer, other.least)) {
            text += &format!(
                "  {} with {} {}\n",
                remedy.in_words(parameter),
                other.option,
                other.least
            );
        }
    }
    text
}

#[cfg(test)]
mod tests {
    use super::*;
    use crate::tests::{layer, with_bias};

    fn shown(layer: Layer) -> String {
        text(layer, layer.quote().number)
    }

    #[test]
    fn the_words_are_those_of_the_table() {
        let plain = layer([32, 64, 32, 2, 256, 127, 128]);
        for (refused, number) in [
            (layer([0, 64, 32, 2, 256, 127, 128]), 1),
            (layer([32, 64, 32, 2, 256, 0, 128]), 2),
            (with_bias((1 << 30) + 1, plain), 17),
            (layer([32, 64, 32, 2, 256, 127, 256]), 19),
            (layer([32, 64, 32, 2, 256, 3000, 128]), 20),
            (with_bias(1 << 30, plain), 20),
        ] {
            let meaning = answers::meaning(refused.call(), number, &[]).expect("words");
            let text = shown(refused);
            let beginning = format!("{number}: {meaning}\n\nWhat would have to change");
            assert!(text.starts_with(&beginning), "{text}");
        }
    }

    #[test]
    fn a_number_that_is_not_known_here_is_shown() {
        let text = text(layer([32, 64, 32, 2, 256, 127, 128]), 1000);
        assert!(
            text.starts_with("1000: a number that docs/answers.txt does not have\n"),
            "{text}"
        );
        assert!(
            text.ends_with("not known here: every number is within its limits.\n"),
            "{text}"
        );
    }

    #[test]
    fn the_nearest_within_the_limits_are_asked_too() {
        let within_number = "\nWith the nearest number within its limits there";
        let within_numbers = "\nWith the nearest numbers within their limits there";
        for (numbers, ends) in [
            ([33, 64, 32, 2, 256, 127, 128], format!("{within_number} is a quote.\n")),
            (
                [33, 64, 32, 0, 256, 127, 128],
                format!("{within_numbers} is a quote.\n"),
            ),
            (
                [32, 64, 32, 2, 256, 127, 300],
                format!(
                    "\n  --rounding is 300, and has to be from 0 to 255, below the scale{within_number} is a quote.\n"
                ),
            ),
        ] {
            let text = shown(layer(numbers));
            assert!(text.ends_with(&ends), "{text}");
            assert_eq!(text.matches(": refused: ").count(), 1, "{text}");
        }

        // A scale of 2 leaves a rounding number of 0 or 1, and with that the bound is too large.
        let text = shown(layer([32, 64, 32, 2, 1, 40_000, 128]));
        let still = "there would still be no quote:\n\n";
        let lines = [
            "2: refused: ",
            "\n  --scale is 1, and has to be from 2 to 65,536\n",
            "\n  --bound is 40,000, and has to be from 1 to 32,767\n",
            &format!("\nWith the nearest numbers within their limits {still}19: refused: "),
            "\n  --rounding is 128, and has to be from 0 to 1, below the scale\n",
            &format!("\nWith the nearest number within its limits {still}20: refused: "),
            "\n  --bound 2,896 or less (it is 32,767)\n",
        ];
        let places: Vec<_> = lines.iter().map(|line| text.find(line)).collect();
        assert!(places.iter().all(Option::is_some) && places.is_sorted(), "{text}");
    }
}
