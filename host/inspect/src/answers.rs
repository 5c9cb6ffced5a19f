//! The text of the answers, and of the records that they name.

use dikdumar::Answer;

use crate::layout::{self, Layout};
use crate::terms::Terms;
use crate::words::{self, hex};

/// The answer of the full check with the records that it names, then that of the
/// challenge check, where it was made.
pub fn text(terms: Terms, layout: &Layout, ticket: &[u8], full: Answer, challenge: Option<Answer>) -> String {
    let mut text = answer_text("full check", full, terms);
    for record in named_records(full, layout) {
        text += &record_text(layout, ticket, record, full.number == 5);
    }
    text + &match challenge {
        Some(answer) => answer_text("challenge check", answer, terms),
        None => no_list_text(terms),
    }
}

/// The records that an answer names: the one that is refused, or those of the
/// untrue claim.
pub fn named_records(answer: Answer, layout: &Layout) -> Vec<usize> {
    let place = answer.place as usize;
    match answer.number {
        5..=9 | 18 => vec![place],
        16 => layout.claim_parts().map(|part| part.first + place).collect(),
        _ => Vec::new(),
    }
}

fn answer_text(check: &str, answer: Answer, terms: Terms) -> String {
    let [number, place, row, products] = answer.numbers();
    let call = terms.call(check);
    let meaning = words::meaning(&call, answer, terms);
    format!("{call}: {number} {place} {row} {products}\n  {meaning}\n")
}

fn no_list_text(terms: Terms) -> String {
    let program = match terms.bias_bound {
        None => " (the program takes an empty one)",
        Some(_) => "",
    };
    let call = terms.call("challenge check");
    format!("{call}: not made, since there is no list{program}\n")
}

/// The bytes of a record, where it stands and its value, and how it should begin
/// where it does not begin so.
fn record_text(layout: &Layout, ticket: &[u8], number: usize, is_unexpected: bool) -> String {
    let (records, _) = layout::records(ticket);
    let (Some(record), Some((part, row, column))) = (records.get(number), layout.locate(number)) else {
        return String::new();
    };
    let (name, value) = (part.name, words::value(layout::value(record)));
    let mut text = format!(
        "  record {number}: {}\n    {name}, row {row}, column {column}, {value}\n",
        hex(record)
    );
    if is_unexpected {
        let [found, expected] = [&record[..4], &[part.kind, 0, row as u8, column as u8]].map(hex);
        text += &format!("    it begins {found}, and should begin {expected}\n");
    }
    text
}
