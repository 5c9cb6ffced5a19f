//! Numbers and lists in words.

/// With a comma before every three digits from the right: `65,536`.
pub fn thousands(number: impl Into<u64>) -> String {
    let digits = number.into().to_string();
    let mut text = String::new();
    for (place, digit) in digits.chars().enumerate() {
        if place > 0 && (digits.len() - place) % 3 == 0 {
            text.push(',');
        }
        text.push(digit);
    }
    text
}

/// A part of a whole above 0 in percent, with one decimal, halves rounded up.
pub fn percent(part: u32, whole: u32) -> String {
    let [part, whole] = [part, whole].map(u64::from);
    let tenths = (2 * 1000 * part + whole) / (2 * whole);
    format!("{}.{}", thousands(tenths / 10), tenths % 10)
}

/// `1 vector`, `2 vectors`.
pub fn count(number: u32, thing: &str) -> String {
    let s = if number == 1 { "" } else { "s" };
    format!("{} {thing}{s}", thousands(number))
}

/// `a`, `a or b`, `a, b or c`.
pub fn alternatives(words: &[&str]) -> String {
    match words {
        [first @ .., last] if !first.is_empty() => format!("{} or {last}", first.join(", ")),
        _ => words.concat(),
    }
}

#[cfg(test)]
mod tests {
    use super::*;

    #[test]
    fn a_comma_before_every_three_digits() {
        for (number, expected) in [
            (0_u64, "0"),
            (999, "999"),
            (1000, "1,000"),
            (65_536, "65,536"),
            (100_000, "100,000"),
            (4_294_967_295, "4,294,967,295"),
        ] {
            assert_eq!(thousands(number), expected);
        }
    }

    #[test]
    fn halves_are_rounded_up() {
        for (part, whole, expected) in [
            (10_240, 65_536, "15.6"), // 15.625
            (12_288, 65_536, "18.8"), // 18.75
            (1, 2000, "0.1"),         // 0.05
            (49, 100_000, "0.0"),     // 0.049
            (1999, 2000, "100.0"),    // 99.95
            (9994, 10_000, "99.9"),   // 99.94
            (1, 1, "100.0"),
            (2, 3, "66.7"),
            (24, 1, "2,400.0"),
            (u32::MAX, 1, "429,496,729,500.0"),
        ] {
            assert_eq!(percent(part, whole), expected);
        }
    }

    #[test]
    fn counts_and_alternatives() {
        assert_eq!([1, 2].map(|number| count(number, "vector")), ["1 vector", "2 vectors"]);
        assert_eq!(alternatives(&["a"]), "a");
        assert_eq!(alternatives(&["a", "b"]), "a or b");
        assert_eq!(alternatives(&["a", "b", "c"]), "a, b or c");
    }
}
