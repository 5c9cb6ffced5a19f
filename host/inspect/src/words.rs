//! Answers, values and bytes in words.

use dikdumar::{residue, Answer};

use crate::terms::Terms;

/// What an answer of a call means: the table's words, and what they leave open.
pub fn meaning(call: &str, answer: Answer, terms: Terms) -> String {
    let [number, fields @ ..] = answer.numbers();
    match ::answers::meaning(call, number, &fields) {
        Some(meaning) => meaning + &here(answer, terms),
        None => "a number that docs/answers.txt does not have".to_string(),
    }
}

/// What is allowed under these terms, or where the claim stands.
fn here(answer: Answer, Terms { setting, bias_bound }: Terms) -> String {
    let within = |bound| format!("; allowed: -{bound} to {bound}");
    let half = 1_u64 << setting.width.saturating_sub(1).min(62);
    match answer.number {
        7 => within(setting.bound),
        18 => bias_bound.map(within).unwrap_or_default(),
        8 => format!("; allowed: -{half} to {}", half - 1),
        9 | 19 => format!("; allowed: 0 to {}", setting.scale.saturating_sub(1)),
        16 => {
            let columns = setting.columns.max(1);
            let (row, column) = (answer.place / columns, answer.place % columns);
            format!("; the claim is that of row {row}, column {column}")
        }
        _ => String::new(),
    }
}

/// The signed entry that a value stands for, where it is a least residue.
pub fn signed(value: u32) -> Option<i64> {
    (residue::reduce(value) == value).then(|| i64::from(residue::to_signed(value)))
}

/// A value as it is stored and what it stands for.
pub fn value(value: u32) -> String {
    match signed(value) {
        None => format!("value {value}, which is p or more"),
        Some(signed) if signed < 0 => format!("value {value}, which stands for {signed}"),
        Some(_) => format!("value {value}"),
    }
}

/// Bytes as hexadecimal numbers with a space between.
pub fn hex(bytes: &[u8]) -> String {
    let bytes: Vec<String> = bytes.iter().map(|byte| format!("{byte:02X}")).collect();
    bytes.join(" ")
}

/// `1 record`, `2 records`.
pub fn count(number: usize, thing: &str) -> String {
    let s = if number == 1 { "" } else { "s" };
    format!("{number} {thing}{s}")
}

#[cfg(test)]
mod tests {
    use super::*;

    #[test]
    fn values_are_signed_where_they_are_residues() {
        assert_eq!(signed(2_147_483_645), Some(-2));
        assert_eq!(signed(2_147_483_647), None);
        assert_eq!(signed(u32::MAX), None);
        assert_eq!(value(3), "value 3");
        assert_eq!(value(2_147_483_640), "value 2147483640, which stands for -7");
        assert_eq!(value(2_147_483_647), "value 2147483647, which is p or more");
    }

    #[test]
    fn bytes_and_counts() {
        assert_eq!(hex(&[0x03, 0x00, 0xFD]), "03 00 FD");
        assert_eq!(hex(&[]), "");
        assert_eq!(
            [0, 1, 2].map(|number| count(number, "byte")),
            ["0 bytes", "1 byte", "2 bytes"]
        );
    }
}
