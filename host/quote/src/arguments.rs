//! What is asked for.

use std::ffi::OsString;

use crate::draw::{self, Draw};
use crate::layer::Layer;
use crate::parameters::PARAMETERS;

#[derive(Debug, PartialEq, Eq)]
pub enum Request {
    Help,
    Quote(Layer, Draw),
}

impl Request {
    /// Or what is wrong with the arguments, in a line.
    pub fn new(arguments: &[OsString]) -> Result<Request, String> {
        let words: Vec<_> = arguments.iter().map(|word| word.to_string_lossy()).collect();
        if words.iter().any(|word| word == "--help" || word == "-h") {
            return Ok(Request::Help);
        }
        let mut numbers = [None; PARAMETERS.len() + 1];
        let mut words = words.iter();
        while let Some(word) = words.next() {
            let options = PARAMETERS
                .iter()
                .map(|parameter| parameter.option)
                .chain([draw::OPTION]);
            let mut places = options.zip(&mut numbers);
            let Some((option, number)) = places.find(|(option, _)| option == word) else {
                return Err(format!("unknown option {word:?}; see --help"));
            };
            if number.is_some() {
                return Err(format!("{option} is given twice"));
            }
            let value = words.next().filter(|value| !value.starts_with("--"));
            let value = value.ok_or_else(|| format!("{option} has no value"))?;
            *number = Some(number_of(option, value)?);
        }
        let [numbers @ .., drawn_from] = numbers;
        let layer = Layer::new(numbers).ok_or_else(|| missing(&numbers))?;
        Ok(Request::Quote(layer, Draw::new(drawn_from)?))
    }
}

/// The value of an option: digits alone, up to 2^32 - 1.
fn number_of(option: &str, value: &str) -> Result<u32, String> {
    if value.is_empty() || !value.bytes().all(|byte| byte.is_ascii_digit()) {
        return Err(format!(
            "{option} {value:?} is no decimal number: digits alone are taken"
        ));
    }
    let beyond = |_| format!("{option} is too large: the largest number taken is {}", u32::MAX);
    value.parse().map_err(beyond)
}

/// Names the options that are needed and were not given.
fn missing(numbers: &[Option<u32>]) -> String {
    let all = PARAMETERS.iter().zip(numbers);
    let missing = all.filter(|(parameter, number)| number.is_none() && !parameter.is_optional);
    let options: Vec<_> = missing.map(|(parameter, _)| parameter.option).collect();
    format!("missing: {}; see --help", options.join(", "))
}

#[cfg(test)]
mod tests {
    use super::*;
    use std::os::unix::ffi::OsStringExt;

    use crate::tests::{layer, with_bias};

    const OPTIONS: &str = "--rows 32 --inner 64 --columns 31 --vectors 2 --scale 256 --bound 127 --rounding 128 \
                           --bias-bound 5000";

    /// How many words make a plain ticket.
    const PLAIN: usize = 14;

    fn all() -> [&'static str; 16] {
        let words: Vec<_> = OPTIONS.split(' ').collect();
        words.try_into().expect("eight options with their values")
    }

    fn request(words: &[&str]) -> Result<Request, String> {
        let words: Vec<OsString> = words.iter().map(OsString::from).collect();
        Request::new(&words)
    }

    #[test]
    fn each_option_once_in_any_order() {
        let plain = layer([32, 64, 31, 2, 256, 127, 128]);
        for (words, expected) in [(&all()[..PLAIN], plain), (&all(), with_bias(5000, plain))] {
            let mut pairs: Vec<_> = words.chunks(2).collect();
            for _ in 0..pairs.len() {
                pairs.rotate_left(1);
                assert_eq!(request(&pairs.concat()), Ok(Request::Quote(expected, Draw::All)));
            }
            pairs.reverse();
            assert_eq!(request(&pairs.concat()), Ok(Request::Quote(expected, Draw::All)));
        }
    }

    #[test]
    fn every_number_of_32_bits_is_taken() {
        for (value, number) in [("0", 0), ("007", 7), ("4294967295", u32::MAX)] {
            let words = all().map(|word| if word.starts_with("--") { word } else { value });
            let expected = Layer::new([Some(number); 8]).expect("a layer");
            assert_eq!(request(&words), Ok(Request::Quote(expected, Draw::All)));
        }
    }

    #[test]
    fn lists_may_be_drawn_from_fewer_numbers() {
        let plain = layer([32, 64, 31, 2, 256, 127, 128]);
        for at in (0..=PLAIN).step_by(2) {
            let words = [&all()[..at], &["--numbers", "65536"], &all()[at..PLAIN]].concat();
            assert_eq!(request(&words), Ok(Request::Quote(plain, Draw::From(65_536))));
        }
        for (words, expected) in [
            (&["--numbers"][..], "--numbers has no value"),
            (&["--numbers", "5", "--numbers", "5"], "--numbers is given twice"),
            (
                &["--numbers", "0"],
                "--numbers is 0, and has to be from 1 to 2,147,483,647",
            ),
            (
                &["--numbers", "4294967296"],
                "--numbers is too large: the largest number taken is 4294967295",
            ),
        ] {
            let words = [&all()[..PLAIN], words].concat();
            assert_eq!(request(&words), Err(expected.to_string()));
        }
    }

    #[test]
    fn what_is_missing_is_named_in_one_line() {
        assert_eq!(
            request(&[]),
            Err("missing: --rows, --inner, --columns, --vectors, --scale, --bound, --rounding; see --help".to_string())
        );
        for left_out in (0..PLAIN).step_by(2) {
            let words = [&all()[..left_out], &all()[left_out + 2..]].concat();
            assert_eq!(
                request(&words),
                Err(format!("missing: {}; see --help", all()[left_out]))
            );
        }
        let words = &all()[2..12];
        assert_eq!(
            request(words),
            Err("missing: --rows, --rounding; see --help".to_string())
        );
    }

    #[test]
    fn a_wrong_option_is_named() {
        for (at, with, expected) in [
            (0, "--row", "unknown option \"--row\"; see --help"),
            (0, "--rows=32", "unknown option \"--rows=32\"; see --help"),
            (0, "32", "unknown option \"32\"; see --help"),
            (0, "", "unknown option \"\"; see --help"),
            (14, "--width\n", "unknown option \"--width\\n\"; see --help"),
            (2, "--rows", "--rows is given twice"),
            (0, "--bias-bound", "--bias-bound is given twice"),
            (1, "--inner", "--rows has no value"),
            (9, "--", "--scale has no value"),
        ] {
            let mut words = all();
            words[at] = with;
            assert_eq!(request(&words), Err(expected.to_string()));
        }
        for length in (1..=all().len()).step_by(2) {
            let expected = format!("{} has no value", all()[length - 1]);
            assert_eq!(request(&all()[..length]), Err(expected));
        }
    }

    #[test]
    fn a_wrong_value_is_named_with_its_option() {
        for option in (0..all().len()).step_by(2) {
            for value in [
                "", " ", " 1", "1 ", "-1", "+1", "1.0", "1,000", "1_000", "0x10", "1e3", "ten", "٣", "\n1",
            ] {
                let mut words = all();
                words[option + 1] = value;
                let expected = format!(
                    "{} {value:?} is no decimal number: digits alone are taken",
                    all()[option]
                );
                assert_eq!(request(&words), Err(expected));
            }
            for value in ["4294967296", "18446744073709551616", &"9".repeat(1000)] {
                let mut words = all();
                words[option + 1] = value;
                let expected = format!("{} is too large: the largest number taken is 4294967295", all()[option]);
                assert_eq!(request(&words), Err(expected));
            }
        }
    }

    #[test]
    fn bytes_that_are_no_text_are_no_number_and_no_option() {
        let no_text = OsString::from_vec(vec![b'3', 0xFF]);
        let reason = Request::new(&["--rows".into(), no_text.clone()]).expect_err("no number");
        assert!(
            reason.starts_with("--rows ") && reason.contains("is no decimal number"),
            "{reason}"
        );
        let reason = Request::new(&[no_text]).expect_err("no option");
        assert!(reason.starts_with("unknown option "), "{reason}");
    }

    #[test]
    fn help_is_given_wherever_it_is_asked_for() {
        for words in [
            &["--help"][..],
            &["-h"],
            &["--rows", "32", "--help"],
            &["--rows", "--help"],
        ] {
            assert_eq!(request(words), Ok(Request::Help));
        }
    }
}
