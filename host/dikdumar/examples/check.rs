//! A line controller's part: a ticket stands in memory as it was received, is
//! checked in both ways, and the answers say what becomes of the pallet.
//!
//!     bash examples/run check cargo
//!
//! examples/check/main.c is the same in C.

use dikdumar::{challenge_check, full_check, Answer, Setting};

const RECORD: usize = 8;

const SETTING: Setting = Setting {
    rows: 2,
    inner: 2,
    columns: 2,
    vectors: 1,
    scale: 10,
    bound: 8,
    width: 5,
    rounding: 0,
};

/// A times B is (-17, 34), (23, -2); the claims are these sums over 10, rounded
/// down, and what is left.
#[rustfmt::skip]
const RECEIVED: [u8; 16 * RECORD] = [
    0x01, 0x00, 0x00, 0x00, 0x03, 0x00, 0x00, 0x00, // A: 3
    0x01, 0x00, 0x00, 0x01, 0xFD, 0xFF, 0xFF, 0x7F, // -2
    0x01, 0x00, 0x01, 0x00, 0x05, 0x00, 0x00, 0x00, // 5
    0x01, 0x00, 0x01, 0x01, 0x04, 0x00, 0x00, 0x00, // 4
    0x02, 0x00, 0x00, 0x00, 0xFE, 0xFF, 0xFF, 0x7F, // B: -1
    0x02, 0x00, 0x00, 0x01, 0x06, 0x00, 0x00, 0x00, // 6
    0x02, 0x00, 0x01, 0x00, 0x07, 0x00, 0x00, 0x00, // 7
    0x02, 0x00, 0x01, 0x01, 0xF7, 0xFF, 0xFF, 0x7F, // -8
    0x03, 0x00, 0x00, 0x00, 0xFD, 0xFF, 0xFF, 0x7F, // quotients: -2
    0x03, 0x00, 0x00, 0x01, 0x03, 0x00, 0x00, 0x00, // 3
    0x03, 0x00, 0x01, 0x00, 0x02, 0x00, 0x00, 0x00, // 2
    0x03, 0x00, 0x01, 0x01, 0xFE, 0xFF, 0xFF, 0x7F, // -1
    0x04, 0x00, 0x00, 0x00, 0x03, 0x00, 0x00, 0x00, // remainders: 3
    0x04, 0x00, 0x00, 0x01, 0x04, 0x00, 0x00, 0x00, // 4
    0x04, 0x00, 0x01, 0x00, 0x03, 0x00, 0x00, 0x00, // 3
    0x04, 0x00, 0x01, 0x01, 0x08, 0x00, 0x00, 0x00, // 8
];

/// What to do on an answer of either check. Number 0 alone lets the pallet pass.
fn action(answer: Answer) -> String {
    let Answer { number, place, row, .. } = answer;
    match number {
        0 => "let the pallet pass".to_string(),
        12 => format!("reject the pallet: caught in row {row}"),
        16 => {
            let (row, column) = (place / SETTING.columns, place % SETTING.columns);
            format!("reject the pallet: the claim of row {row}, column {column} is untrue")
        }
        4 => "hold the pallet and ask for the ticket again: wrong length".to_string(),
        5..=9 => format!("hold the pallet and ask for the ticket again: record {place} is refused"),
        // Never only a new list: a source that gives zeros gives them again.
        21 => "hold the pallet and stop drawing: the source of the numbers has failed".to_string(),
        // The setting (1, 2, 19, 3) or the list (10, 11), which are this program's own.
        _ => "hold the pallet and stop the line: the controller is wrong".to_string(),
    }
}

fn receive(name: &str, ticket: &[u8], list: &[u32]) {
    println!("{name}");
    for (call, answer) in [
        ("challenge check", challenge_check(SETTING, ticket, list)),
        ("full check", full_check(SETTING, ticket)),
    ] {
        let [number, place, row, products] = answer.numbers();
        println!("  {call}: {number} {place} {row} {products}");
        println!("  {}", action(answer));
    }
}

fn main() {
    // In use, a list is drawn at random for each ticket once that is fixed.
    let list = [1, 5];

    receive("a true ticket", &RECEIVED, &list);

    // The first quotient, record 8, is -1: -17 over 10 rounds down to -2.
    let mut ticket = RECEIVED;
    ticket[8 * RECORD + 4] = 0xFE;
    receive("a quotient rounded towards zero", &ticket, &list);

    let mut ticket = RECEIVED;
    ticket[5 * RECORD + 1] = 0x01;
    receive("a byte of record 5 damaged", &ticket, &list);

    receive("the last record lost", &RECEIVED[..RECEIVED.len() - RECORD], &list);

    receive("a list with a number too few", &RECEIVED, &list[..1]);

    receive("a list of zeros", &RECEIVED, &[0, 0]);
}

#[cfg(test)]
mod tests {
    use super::*;

    /// No number but 0 lets a pallet pass, not even one that is not in the table.
    #[test]
    fn only_accepted_passes() {
        for number in (0..=22).chain([u32::MAX]) {
            let answer = Answer {
                number,
                place: 0,
                row: 0,
                products: 0,
            };
            assert_eq!(action(answer) == "let the pallet pass", number == 0, "{number}");
        }
    }
}
