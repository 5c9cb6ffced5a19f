//! What the files stand for: the setting and the list that the checks are handed.

use dikdumar::Setting;

/// The bytes of a setting.
pub const SETTING: usize = 20;

/// The bytes of a setting of the former form, which has no o.
pub const FORMER_SETTING: usize = 16;

/// The bytes of a number of the list.
const NUMBER: usize = 4;

/// The setting, where the bytes are those of one: ℓ, m, n and s in a byte each,
/// then α, T, v and o.
pub fn setting(bytes: &[u8]) -> Option<Setting> {
    let bytes: &[u8; SETTING] = bytes.try_into().ok()?;
    let [rows, inner, columns, vectors, numbers @ ..] = *bytes;
    let [rows, inner, columns, vectors] = [rows, inner, columns, vectors].map(u32::from);
    let &[scale, bound, width, rounding] = numbers.as_chunks().0 else {
        return None;
    };
    let [scale, bound, width, rounding] = [scale, bound, width, rounding].map(u32::from_le_bytes);
    let numbers = [rows, inner, columns, vectors, scale, bound, width, rounding];
    Some(Setting::from(numbers))
}

/// The numbers of the list, where the bytes are a whole count of them.
pub fn list(bytes: &[u8]) -> Option<Vec<u32>> {
    match bytes.as_chunks::<NUMBER>() {
        (numbers, []) => Some(numbers.iter().map(|&number| u32::from_le_bytes(number)).collect()),
        _ => None,
    }
}

#[cfg(test)]
mod tests {
    use super::*;

    #[test]
    fn a_setting_has_20_bytes() {
        let bytes = [2, 3, 4, 1, 10, 0, 0, 0, 8, 1, 0, 0, 5, 0, 0, 0x80, 4, 3, 2, 1];
        let numbers = [2, 3, 4, 1, 10, 264, 0x8000_0005, 0x0102_0304];
        assert_eq!(setting(&bytes), Some(Setting::from(numbers)));
        assert_eq!(setting(&bytes[..19]), None);
        assert_eq!(setting(&bytes[..FORMER_SETTING]), None);
        assert_eq!(setting(&[0; 21]), None);
        assert_eq!(setting(&[]), None);
    }

    #[test]
    fn a_list_has_whole_numbers() {
        assert_eq!(
            list(&[1, 0, 0, 0, 0xFF, 0xFF, 0xFF, 0x7F]),
            Some(vec![1, 2_147_483_647])
        );
        assert_eq!(list(&[]), Some(vec![]));
        assert_eq!(list(&[1, 0, 0, 0, 2]), None);
    }
}
