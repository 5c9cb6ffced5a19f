//! Powers as powers of ten, worked out exactly.

/// A power of a base above 0, rounded down to two figures: `4.6·10^18`.
pub fn rounded_down(base: u32, exponent: u32) -> String {
    let mut digits = vec![1];
    for _ in 0..exponent {
        digits = product(&digits, base);
    }
    let mut first = digits.iter().rev();
    let mut figure = || first.next().copied().unwrap_or(0);
    format!("{}.{}·10^{}", figure(), figure(), digits.len() - 1)
}

/// The product of a number and a factor above 0, as decimal digits, the last one
/// first.
fn product(digits: &[u8], factor: u32) -> Vec<u8> {
    let mut carry = 0;
    let mut product = Vec::new();
    for &digit in digits {
        carry += u64::from(digit) * u64::from(factor);
        product.push((carry % 10) as u8);
        carry /= 10;
    }
    while carry > 0 {
        product.push((carry % 10) as u8);
        carry /= 10;
    }
    product
}

#[cfg(test)]
mod tests {
    use super::*;

    #[test]
    fn the_powers_of_p() {
        let p = 2_147_483_647;
        let expected = [
            "2.1·10^9",  // 2147483647
            "4.6·10^18", // 4611686014132420609
            "9.9·10^27", // 9903520300447984150353281023
            "2.1·10^37", // 21267647892944572736998860269687930881
            "4.5·10^46", // 45671926060252476630107084286792841360213803007
            "9.8·10^55", // 98079714341385330254404631364738284897724378381211926529
            "2.1·10^65", // 210624582650556372047028295576838759252690170086892944262392971263
            "4.5·10^74", // 452312846898269724422641179697543667450922081019251166843171382875033436161
        ];
        for (exponent, expected) in (1..).zip(expected) {
            assert_eq!(rounded_down(p, exponent), expected);
        }
    }

    #[test]
    fn the_digits_are_exact() {
        let mut digits = vec![1];
        let mut power: u128 = 1;
        for _ in 0..4 {
            digits = product(&digits, u32::MAX - 4);
            power *= u128::from(u32::MAX - 4);
            let written: String = digits.iter().rev().map(|digit| digit.to_string()).collect();
            assert_eq!(written, power.to_string());
        }
    }

    #[test]
    fn figures_are_rounded_down() {
        for (base, exponent, expected) in [
            (10, 0, "1.0·10^0"),
            (1, 8, "1.0·10^0"),
            (2, 3, "8.0·10^0"),
            (2, 4, "1.6·10^1"),
            (10, 1, "1.0·10^1"),
            (10, 20, "1.0·10^20"),
            (99, 1, "9.9·10^1"),
            (199_999, 1, "1.9·10^5"),
            (99_999, 2, "9.9·10^9"),
        ] {
            assert_eq!(rounded_down(base, exponent), expected);
        }
    }
}
