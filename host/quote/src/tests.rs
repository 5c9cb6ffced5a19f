//! The whole text, for quotes on file and for many layers that are refused.

use std::ffi::OsString;

use crate::arguments::Request;
use crate::draw::Draw;
use crate::layer::Layer;
use crate::parameters::{Parameter, BIAS_BOUND, BOUND, INNER, PARAMETERS, ROUNDING, SCALE};
use crate::report;

/// ℓ, m, n, s, α, T, o.
pub fn layer(numbers: [u32; 7]) -> Layer {
    let [rows, inner, columns, vectors, scale, bound, rounding] = numbers.map(Some);
    Layer::new([rows, inner, columns, vectors, scale, bound, rounding, None]).expect("a layer")
}

pub fn with_bias(bound: u32, layer: Layer) -> Layer {
    let bias_bound = Some(bound);
    Layer { bias_bound, ..layer }
}

/// Layers of small and large numbers within their limits, with and without a bias.
pub fn samples(scales: &[u32]) -> impl Iterator<Item = Layer> + '_ {
    let biases = [None, Some(0), Some(5000), Some(600_000_000), Some(1 << 30)];
    let numbers = [1, 7, 64]
        .into_iter()
        .flat_map(|inner| [1, 127, 3000, 23_170, 32_767].map(|bound| (inner, bound)));
    numbers.flat_map(move |(inner, bound)| {
        let layers = scales.iter().flat_map(move |&scale| {
            [0, scale / 2, scale - 1].map(|rounding| layer([3, inner, 5, 2, scale, bound, rounding]))
        });
        layers.flat_map(move |layer| biases.map(|bias_bound| Layer { bias_bound, ..layer }))
    })
}

/// Each file begins with a line that has the command, and goes on with what that
/// prints.
#[test]
fn quotes_are_shown_as_expected() {
    for (file, expected_status) in [
        (include_str!("tests/plain.txt"), 0),
        (include_str!("tests/bias.txt"), 0),
        (include_str!("tests/costs-more.txt"), 0),
        (include_str!("tests/short-numbers.txt"), 0),
        (include_str!("tests/outside.txt"), 1),
        (include_str!("tests/outside-and-no-fit.txt"), 1),
        (include_str!("tests/no-fit.txt"), 1),
        (include_str!("tests/no-fit-of-bias.txt"), 1),
        (include_str!("tests/no-fit-together.txt"), 1),
    ] {
        let (command, expected) = file.split_once('\n').expect("a command");
        let options = command.strip_prefix("./dikdumar quote ").expect("the command");
        let options: Vec<OsString> = options.split(' ').map(OsString::from).collect();
        let Ok(Request::Quote(layer, draw)) = Request::new(&options) else {
            panic!("{command}");
        };
        let (text, status) = report(layer, draw);
        assert_eq!(text, expected, "{command}");
        assert_eq!(status, expected_status, "{command}");
    }
}

/// The numbers of a line, without their commas.
fn numbers(line: &str) -> Vec<u32> {
    let words = line.replace(',', "");
    words.split(' ').filter_map(|word| word.parse().ok()).collect()
}

fn parameter(option: &str) -> Parameter {
    let found = PARAMETERS.into_iter().find(|parameter| parameter.option == option);
    found.expect("an option")
}

/// The layers that a line of the text proposes, and the next one to each, which
/// is to be refused.
fn proposed(line: &str, layer: Layer) -> Vec<(Layer, Layer)> {
    let (proposal, rest) = line.split_once(" with ").unwrap_or((line, ""));
    let other = rest
        .split_once(' ')
        .map(|(option, least)| (parameter(option), numbers(least)[0]));
    let layer = other.map_or(layer, |(other, least)| other.set(layer, least));
    let (proposal, own) = proposal.split_once(" (it is ").unwrap_or((proposal, ""));
    let (option, values) = proposal.trim_start().split_once(' ').expect("an option");
    let parameter = parameter(option);
    let own_now = parameter.of(layer).expect("a number");
    assert!(own.is_empty() || numbers(&own.replace(')', "")) == [own_now], "{line}");
    let next = |value: u32| if value < own_now { value + 1 } else { value - 1 };
    let set = |value| parameter.set(layer, value);
    numbers(values)
        .into_iter()
        .map(|value| (set(value), set(next(value))))
        .collect()
}

#[test]
fn every_number_that_is_proposed_fits_and_the_next_does_not() {
    let (mut refused, mut alone, mut together) = (0, 0, 0);
    for layer in samples(&[2, 255, 256, 300, 65_536]).filter(|layer| layer.quote().number == 20) {
        let (text, status) = report(layer, Draw::All);
        assert_eq!(status, 1);
        assert!(text.starts_with("20: refused: no v from 1 to 30 fits; "));
        let lines: Vec<_> = text.lines().filter(|line| line.starts_with("  --")).collect();
        assert!(!lines.is_empty(), "{text}");
        for line in &lines {
            let proposed = proposed(line, layer);
            assert!([1, 2].contains(&proposed.len()), "{line}");
            for (fits, next) in proposed {
                assert!(fits.is_quoted(), "{text}");
                assert_eq!(next.quote().number, 20, "{text}");
            }
        }
        // Whatever is not proposed is named as of no help.
        let by_itself = text.contains("\nWhat would have to change; one of these is enough:\n");
        for parameter in [INNER, SCALE, BOUND, ROUNDING, BIAS_BOUND] {
            let option = format!("{} ", parameter.option);
            let proposed = lines.iter().any(|line| line.trim_start().starts_with(&option));
            let last = text.lines().last().expect("a line").replace(',', " ");
            let of_no_help = last.starts_with("No other value of ") && last.contains(&option);
            let is_there = parameter.of(layer).is_some();
            assert!(!by_itself || (proposed != of_no_help) == is_there, "{text}");
        }
        assert!(["--rows", "--columns", "--vectors"]
            .iter()
            .all(|option| !text.contains(option)));
        assert!(text.lines().all(|line| line.chars().count() <= 100), "{text}");
        refused += 1;
        alone += usize::from(by_itself);
        together += usize::from(text.contains("no number is enough by itself. Two together are:"));
    }
    assert_eq!(alone + together, refused);
    assert!(alone > 100 && together > 50, "{alone} and {together}");
}

/// Where no number is enough by itself, both bounds at their least are.
#[test]
fn there_is_always_something_that_would_fit() {
    for scale in 2..=65_536 {
        let smallest = layer([1, 64, 1, 1, scale, 1, scale - 1]);
        assert!(smallest.is_quoted() && with_bias(0, smallest).is_quoted(), "{scale}");
    }
}

#[test]
fn every_number_outside_its_limits_is_named_and_no_other() {
    let base = with_bias(5000, layer([32, 64, 32, 2, 256, 127, 128]));
    let outside = [0, 65, 33, 9, 65_537, 32_768, 256, (1 << 30) + 1];
    for (place, named) in PARAMETERS.into_iter().enumerate() {
        for (second, named_too) in PARAMETERS.into_iter().enumerate().skip(place) {
            let layer = named_too.set(named.set(base, outside[place]), outside[second]);
            let (text, status) = report(layer, Draw::All);
            assert_eq!(status, 1);
            for (place, parameter) in PARAMETERS.into_iter().enumerate() {
                // A rounding number of 256 is below a scale of 65,537.
                let is_below = parameter.is_below_scale() && named.option == SCALE.option;
                let is_outside = [named.option, named_too.option].contains(&parameter.option) && !is_below;
                let start = format!("  {} is ", parameter.option);
                let line = text.lines().find(|line| line.starts_with(&start));
                assert_eq!(line.is_some(), is_outside, "{text}");
                if let Some(line) = line {
                    let limits = parameter.limits(layer);
                    assert_eq!(numbers(line), [outside[place], *limits.start(), *limits.end()]);
                }
            }
            assert!(text.contains("\nWith the nearest number"), "{text}");
        }
    }
}

#[test]
fn the_largest_numbers_are_refused_by_the_rules() {
    for parameter in PARAMETERS {
        let base = with_bias(5000, layer([32, 64, 32, 2, 256, 127, 128]));
        let (text, status) = report(parameter.set(base, u32::MAX), Draw::All);
        assert_eq!(status, 1);
        let line = format!("\n  {} is 4,294,967,295, and has to be from ", parameter.option);
        assert!(text.contains(&line), "{text}");
    }
    let layer = Layer::new([Some(u32::MAX); 8]).expect("a layer");
    let (text, _) = report(layer, Draw::All);
    let is_named = |parameter: &Parameter| text.contains(&format!("\n  {} is 4,294,967,295, ", parameter.option));
    assert!(PARAMETERS.iter().all(is_named), "{text}");
    assert!(text.lines().all(|line| line.chars().count() <= 100), "{text}");
}
