//! What the command takes, in words.

use crate::draw;
use crate::parameters::PARAMETERS;

/// The options with what they mean, and the exit status.
pub fn text() -> String {
    let parameters = PARAMETERS.map(|parameter| {
        let limits = parameter.limits_in_words();
        (parameter.option, parameter.letter, parameter.meaning, limits)
    });
    let drawn = (draw::OPTION, draw::LETTER, draw::MEANING, draw::limits_in_words());
    let lines: Vec<_> = parameters.into_iter().chain([drawn]).collect();
    let width = lines.iter().map(|(_, _, meaning, _)| meaning.chars().count()).max();
    let mut options = String::new();
    for (option, letter, meaning, limits) in lines {
        options += &format!(
            "  {option:<12}  {letter}  {meaning:<width$}  {limits}\n",
            width = width.unwrap_or(0)
        );
    }
    format!(
        "\
usage: quote --rows N --inner N --columns N --vectors N --scale N --bound N --rounding N
             [--bias-bound N] [--numbers N]

Says what the tickets of a layer will need, before it is built: plain tickets, or bias tickets with
--bias-bound. Lists are drawn from all residues, or from b different ones with --numbers. Each
option is given once, in any order:

{options}
A number is written in digits alone. Up to 4294967295 it is taken; outside its limits there is no
quote, and a --numbers outside its own is an error. The exit status is 0 with a quote, 1 without
one, where it says what would have to change, and 2 with an error. The figures are the library's.
"
    )
}

#[cfg(test)]
mod tests {
    use super::*;

    #[test]
    fn every_option_has_its_letter_and_limits() {
        let text = text();
        for parameter in PARAMETERS {
            let start = format!("  {} ", parameter.option);
            let line = text.lines().find(|line| line.starts_with(&start)).expect("a line");
            assert!(line.contains(&format!("  {}  {}", parameter.letter, parameter.meaning)));
            assert!(line.ends_with(&format!("  {}", parameter.limits_in_words())));
            assert!(text.contains(&format!("{} N", parameter.option)));
        }
        assert!(text.contains("\n  --numbers     b  how many numbers challenge lists are drawn from "));
        assert!(text.contains(" 1 to 2,147,483,647\n") && text.contains("[--numbers N]"));
        assert!(text.contains(&format!("Up to {} it is taken", u32::MAX)));
        assert!(text.lines().all(|line| line.chars().count() <= 100));
    }
}
