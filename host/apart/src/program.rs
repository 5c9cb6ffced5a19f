//! "The program runs the challenge check. It reads setting.rec, ticket.rec and
//! challenge.rec": from the contents of these files to what it prints, and from
//! a setting and a list to the files.

use crate::answer::Refusal;
use crate::check::{challenge, read_list};
use crate::setting::Terms;
use crate::{ticket, Answer, Setting};

/// The name of the file that holds the setting.
pub const SETTING: &str = "setting.rec";

/// The name of the file that holds the ticket.
pub const TICKET: &str = "ticket.rec";

/// The name of the file that holds the list.
pub const CHALLENGE: &str = "challenge.rec";

/// The bytes of a setting file.
const SETTING_LENGTH: usize = 20;

/// The bytes of a number of a list.
const NUMBER: usize = 4;

/// The contents of the three files, with `None` for a missing one.
#[derive(Clone, Copy, Debug, Default, PartialEq, Eq)]
pub struct Files<'a> {
    pub setting: Option<&'a [u8]>,
    pub ticket: Option<&'a [u8]>,
    pub challenge: Option<&'a [u8]>,
}

/// The answer to the three files.
pub fn answer(files: &Files) -> Answer {
    decide(files).unwrap_or_else(Answer::from)
}

/// The whole of what is printed for the three files.
pub fn output(files: &Files) -> String {
    line(&answer(files))
}

/// "It prints the four numbers with a space between and a line feed after."
pub fn line(answer: &Answer) -> String {
    let Answer {
        number,
        place,
        row,
        products,
    } = answer;
    format!("{number} {place} {row} {products}\n")
}

/// The order is the challenge check's, "1, 2, 3, 4; then record after record,
/// each by 5, 6 and its own range; then 10, 11, 12", with 19 "after 2" and 21
/// "once every list number has passed 11". The length of the setting file stands
/// with 1 at its begin, that of the challenge file with 10, "in its turn".
fn decide(files: &Files) -> Result<Answer, Refusal> {
    // "A missing file counts as empty".
    let [setting, ticket, list] = [files.setting, files.ticket, files.challenge].map(Option::unwrap_or_default);
    let setting = read_setting(setting)?;
    // "the program keeps to plain tickets"
    let terms = Terms::from(&setting);
    terms.test()?;
    let ticket = ticket::read(&terms, ticket)?;
    let list = read_challenge(&setting, list)?;
    let vectors = read_list(&setting, &list)?;
    Ok(challenge(&terms, &ticket, &vectors))
}

/// "ℓ, m, n, s one byte each, then α, T, v four bytes each"; "The setting record
/// grows to 20 bytes, o in the last four; a file of 16 is now 1", as "a setting
/// file of another length is 1".
fn read_setting(bytes: &[u8]) -> Result<Setting, Refusal> {
    let &[rows, inner, columns, vectors, a0, a1, a2, a3, t0, t1, t2, t3, v0, v1, v2, v3, o0, o1, o2, o3] = bytes else {
        return Err(Refusal { number: 1, place: 0 });
    };
    Ok(Setting {
        rows: rows.into(),
        inner: inner.into(),
        columns: columns.into(),
        vectors: vectors.into(),
        scale: u32::from_le_bytes([a0, a1, a2, a3]),
        bound: u32::from_le_bytes([t0, t1, t2, t3]),
        width: u32::from_le_bytes([v0, v1, v2, v3]),
        rounding: u32::from_le_bytes([o0, o1, o2, o3]),
    })
}

/// "challenge.rec (4-byte numbers)"; "a challenge file of another length than
/// 4·s·n is 10 in its turn". The sizes have passed 1, so the length is small.
fn read_challenge(setting: &Setting, bytes: &[u8]) -> Result<Vec<u32>, Refusal> {
    let count = (setting.vectors * setting.columns) as usize;
    if bytes.len() != NUMBER * count {
        return Err(Refusal { number: 10, place: 0 });
    }
    let (numbers, _) = bytes.as_chunks();
    Ok(numbers.iter().copied().map(u32::from_le_bytes).collect())
}

/// The bytes of a setting file, if each size is within its byte.
pub fn setting_file(setting: &Setting) -> Option<[u8; SETTING_LENGTH]> {
    let [l, m, n, s, alpha, t, v, o] = setting.numbers();
    let mut bytes = [0; SETTING_LENGTH];
    for (byte, size) in bytes.iter_mut().zip([l, m, n, s]) {
        *byte = u8::try_from(size).ok()?;
    }
    for (place, number) in [(4, alpha), (8, t), (12, v), (16, o)] {
        bytes[place..place + NUMBER].copy_from_slice(&number.to_le_bytes());
    }
    Some(bytes)
}

/// The bytes of a challenge file.
pub fn challenge_file(list: &[u32]) -> Vec<u8> {
    list.iter().copied().flat_map(u32::to_le_bytes).collect()
}

#[cfg(test)]
mod tests;
