//! A setting, a ticket and a list that the families vary, and the lines that 01
//! gives for them.

use apart::make::Parts;
use apart::program::{challenge_file, setting_file};
use apart::Setting;

use crate::case::Case;

pub const P: u32 = 2_147_483_647;

#[derive(Clone, Debug)]
pub struct Sample {
    pub setting: Setting,
    pub ticket: Vec<u8>,
    pub list: Vec<u32>,
}

impl Sample {
    /// Case c of the marked examples.
    pub fn of_c() -> Sample {
        use apart::examples::{A, B, K};
        Sample {
            setting: K,
            ticket: apart::true_ticket(&K, &A, &B),
            list: vec![1, 2],
        }
    }

    /// The same with half the scale as o.
    pub fn rounded() -> Sample {
        use apart::examples::{A, B, K_WITH_ROUNDING};
        Sample {
            setting: K_WITH_ROUNDING,
            ticket: apart::true_ticket(&K_WITH_ROUNDING, &A, &B),
            ..Sample::of_c()
        }
    }

    /// ℓ = 3, m = 4, n = 5, s = 3, no two of the sizes of the parts alike: 12, 20,
    /// 15.
    pub fn of_three_vectors() -> Sample {
        Sample::of_three_vectors_rounded(0)
    }

    /// The same with this o, below 100.
    pub fn of_three_vectors_rounded(rounding: u32) -> Sample {
        let setting = Setting::from([3, 4, 5, 3, 100, 50, 10, rounding]);
        let (a, b) = operands(&setting);
        Sample {
            setting,
            ticket: apart::true_ticket(&setting, &a, &b),
            list: (1..=15).map(|k| 123_456_789 * k).collect(),
        }
    }

    /// Every size at its greatest: a ticket of 49,152 bytes, a list of 1,024.
    pub fn largest() -> Sample {
        Sample::largest_rounded(0)
    }

    /// The same with this o, up to 49,153.
    pub fn largest_rounded(rounding: u32) -> Sample {
        let (setting, parts) = largest_parts(rounding);
        Sample {
            setting,
            ticket: parts.ticket(&setting),
            list: (0..256).map(|k| P - 1 - 8_388_607 * k).collect(),
        }
    }

    /// The true ticket and list in a folder.
    pub fn case(&self, description: impl Into<String>) -> Case {
        Case::new(
            description,
            setting_bytes(&self.setting),
            self.ticket.clone(),
            challenge_file(&self.list),
        )
    }

    /// The ticket with another value in one record.
    pub fn with_value(&self, record: usize, value: u32) -> Vec<u8> {
        let mut ticket = self.ticket.clone();
        ticket[8 * record + 4..8 * record + 8].copy_from_slice(&value.to_le_bytes());
        ticket
    }

    /// The ticket with another byte.
    pub fn with_byte(&self, place: usize, byte: u8) -> Vec<u8> {
        let mut ticket = self.ticket.clone();
        ticket[place] = byte;
        ticket
    }

    /// The challenge file with another number in the list.
    pub fn with_number(&self, index: usize, number: u32) -> Vec<u8> {
        let mut list = self.list.clone();
        list[index] = number;
        challenge_file(&list)
    }
}

/// The largest setting with this o, and the parts of a true ticket under it:
/// 64·2896² + 65,535 = 536,821,759 is below 2^13·65,536 = 536,870,912 by 49,153,
/// so it fits up to that o.
pub fn largest_parts(rounding: u32) -> (Setting, Parts) {
    let setting = Setting::from([32, 64, 32, 8, 65_536, 2_896, 14, rounding]);
    let (a, b) = operands(&setting);
    (setting, Parts::true_ones(&setting, &a, &b))
}

/// Operands that run through -T to T.
fn operands(setting: &Setting) -> (Vec<i64>, Vec<i64>) {
    let bound = i64::from(setting.bound);
    let entry = move |k: i64| k % (2 * bound + 1) - bound;
    let [l, m, n] = [setting.rows, setting.inner, setting.columns].map(i64::from);
    let a = (0..l * m).map(|k| entry(37 * k)).collect();
    let b = (0..m * n).map(|k| entry(41 * k + 5)).collect();
    (a, b)
}

/// The bytes of a setting file.
///
/// # Panics
///
/// If a size does not fit in its byte.
pub fn setting_bytes(setting: &Setting) -> Vec<u8> {
    setting_file(setting).expect("each size is within its byte").to_vec()
}

/// The first bytes of these repeated, so many.
pub fn cycle(bytes: &[u8], length: usize) -> Vec<u8> {
    bytes.iter().copied().cycle().take(length).collect()
}

/// "Accepted: 0, 0, 0, s(mn + ℓn + ℓm)."
pub fn accepted(setting: &Setting) -> String {
    format!("0 0 0 {}", setting.vectors * products_of_a_vector(setting))
}

/// "Caught in vector t, row i: products are t(mn + ℓn + ℓm) + mn + (i + 1)(n +
/// m)."
pub fn caught(setting: &Setting, t: u32, i: u32) -> String {
    let [m, n] = [setting.inner, setting.columns];
    let products = t * products_of_a_vector(setting) + m * n + (i + 1) * (n + m);
    format!("12 {t} {i} {products}")
}

/// "It refuses the first such vector as 21 with its t": the line for a list of the
/// right length whose numbers are below p, if this is the line without a vector of
/// zeros.
pub fn unless_zeros(setting: &Setting, list: &[u32], line: String) -> String {
    let mut vectors = list.chunks(setting.columns as usize);
    match vectors.position(|vector| vector.iter().max() == Some(&0)) {
        Some(t) => refused(21, t),
        None => line,
    }
}

/// "Row and products are 0 except for 12 and 16."
pub fn refused(number: u32, place: usize) -> String {
    format!("{number} {place} 0 0")
}

fn products_of_a_vector(setting: &Setting) -> u32 {
    let [l, m, n] = [setting.rows, setting.inner, setting.columns];
    m * n + l * n + l * m
}

#[cfg(test)]
mod tests {
    use super::*;

    #[test]
    fn the_samples_are_accepted() {
        for sample in [
            Sample::of_c(),
            Sample::rounded(),
            Sample::of_three_vectors(),
            Sample::of_three_vectors_rounded(50),
            Sample::largest(),
            Sample::largest_rounded(49_153),
        ] {
            let answer = apart::challenge_check(&sample.setting, &sample.ticket, &sample.list);
            assert_eq!(answer.number, 0);
        }
    }

    #[test]
    fn the_largest_lengths() {
        let sample = Sample::largest();
        assert_eq!(sample.ticket.len(), 49_152);
        assert_eq!(challenge_file(&sample.list).len(), 1_024);
    }

    #[test]
    fn lines() {
        use apart::examples::K;
        assert_eq!(accepted(&K), "0 0 0 12");
        assert_eq!(caught(&K, 0, 0), "12 0 0 8");
        assert_eq!(caught(&Setting { vectors: 3, ..K }, 2, 1), "12 2 1 36");
        assert_eq!(refused(9, 12), "9 12 0 0");
    }
}
