//! What the numbers of a challenge list are drawn from, and how often a false
//! ticket then passes.

use dikdumar::residue;

use crate::powers;
use crate::words::thousands;

/// How many different residues a list is drawn from.
#[derive(Clone, Copy, Debug, PartialEq, Eq)]
pub enum Draw {
    All,
    From(u32),
}

pub const OPTION: &str = "--numbers";
pub const LETTER: &str = "b";
pub const MEANING: &str = "how many numbers challenge lists are drawn from";

/// The library's p.
fn modulus() -> u32 {
    residue::from_signed(-1) + 1
}

pub fn limits_in_words() -> String {
    format!("1 to {}", thousands(modulus()))
}

impl Draw {
    /// Or that there are not so many residues, or none.
    pub fn new(numbers: Option<u32>) -> Result<Draw, String> {
        match numbers {
            None => Ok(Draw::All),
            Some(numbers) if (1..=modulus()).contains(&numbers) => Ok(Draw::From(numbers)),
            Some(numbers) => Err(format!(
                "{OPTION} is {}, and has to be from {}",
                thousands(numbers),
                limits_in_words()
            )),
        }
    }

    /// At most one list in b^s, p being all; with one column none, since a vector
    /// that hides an error would be of zeros, and is refused.
    pub fn how_often(self, columns: u32, vectors: u32) -> String {
        if columns == 1 {
            return "never: with one column no list hides an error".to_string();
        }
        let exponent = match vectors {
            1 => String::new(),
            _ => format!("^{vectors}"),
        };
        match self {
            Draw::All => {
                let power = powers::rounded_down(modulus(), vectors);
                let p = thousands(modulus());
                format!("at most once in p{exponent} random lists, more than {power} (p = {p})")
            }
            Draw::From(numbers) => {
                let power = powers::rounded_down(numbers, vectors);
                let b = thousands(numbers);
                format!("at most once in b{exponent} random lists, at least {power} (b = {b})")
            }
        }
    }
}

#[cfg(test)]
mod tests {
    use super::*;

    #[test]
    fn all_residues_unless_it_is_said_how_many() {
        assert_eq!(Draw::new(None), Ok(Draw::All));
        for numbers in [1, 2, 65_536, 2_147_483_647] {
            assert_eq!(Draw::new(Some(numbers)), Ok(Draw::From(numbers)));
        }
    }

    #[test]
    fn there_are_p_residues() {
        for (numbers, words) in [(0, "0"), (2_147_483_648, "2,147,483,648"), (u32::MAX, "4,294,967,295")] {
            let expected = format!("--numbers is {words}, and has to be from 1 to 2,147,483,647");
            assert_eq!(Draw::new(Some(numbers)), Err(expected));
        }
    }

    #[test]
    fn at_most_once_in_b_to_the_s() {
        for (draw, vectors, expected) in [
            (
                Draw::All,
                1,
                "at most once in p random lists, more than 2.1·10^9 (p = 2,147,483,647)",
            ),
            (
                Draw::All,
                2,
                "at most once in p^2 random lists, more than 4.6·10^18 (p = 2,147,483,647)",
            ),
            (
                Draw::All,
                8,
                "at most once in p^8 random lists, more than 4.5·10^74 (p = 2,147,483,647)",
            ),
            (
                Draw::From(65_536),
                1,
                "at most once in b random lists, at least 6.5·10^4 (b = 65,536)",
            ),
            (
                Draw::From(65_536),
                2,
                "at most once in b^2 random lists, at least 4.2·10^9 (b = 65,536)",
            ),
            (
                Draw::From(10),
                3,
                "at most once in b^3 random lists, at least 1.0·10^3 (b = 10)",
            ),
            (
                Draw::From(2),
                3,
                "at most once in b^3 random lists, at least 8.0·10^0 (b = 2)",
            ),
            (
                Draw::From(1),
                8,
                "at most once in b^8 random lists, at least 1.0·10^0 (b = 1)",
            ),
        ] {
            assert_eq!(draw.how_often(2, vectors), expected);
        }
    }

    #[test]
    fn with_one_column_a_false_ticket_never_passes() {
        for draw in [Draw::All, Draw::From(1), Draw::From(65_536)] {
            for vectors in 1..=8 {
                let never = "never: with one column no list hides an error";
                assert_eq!(draw.how_often(1, vectors), never);
            }
        }
    }
}
