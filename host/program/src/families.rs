//! The families of folders.

mod absent;
mod arguments;
mod challenge_length;
mod drawn;
mod largest;
mod links;
mod list_number;
mod long;
pub mod marked;
mod precedence;
mod rounded;
pub mod rounding_number;
mod setting_length;
mod setting_number;
mod surroundings;
mod ticket_length;
mod unreadable;
mod value;
pub mod zeros;

use crate::case::Family;

use drawn::Rounding;

/// All of them. Whether permissions hold decides what stands in the place of a
/// file without read permission.
pub fn all(permissions_hold: bool) -> Vec<Family> {
    vec![
        Family::new("marked examples", marked::cases()),
        Family::new("missing and empty files", absent::cases()),
        Family::new("lengths of the setting file", setting_length::cases()),
        Family::new("lengths of the ticket file", ticket_length::cases()),
        Family::new("lengths of the challenge file", challenge_length::cases()),
        Family::new("the largest setting", largest::cases()),
        Family::new("precedence of the tests", precedence::cases()),
        Family::new("numbers of the setting", setting_number::cases()),
        Family::new("values of the ticket", value::cases()),
        Family::new("numbers of the list", list_number::cases()),
        Family::new("true tickets drawn", drawn::true_tickets(Rounding::Zero)),
        Family::new("false tickets drawn", drawn::false_tickets(Rounding::Zero)),
        Family::new("damaged files drawn", drawn::damaged_files()),
        unreadable::family(permissions_hold),
        Family::new("symbolic links", links::cases()),
        Family::new("very long files and little memory", long::cases()),
        Family::new("other files and names", surroundings::cases()),
        Family::new("arguments", arguments::cases()),
        Family::new("rounding numbers", rounding_number::cases()),
        Family::new("rounded tickets", rounded::cases()),
        Family::new("rounded true tickets drawn", drawn::true_tickets(Rounding::Drawn)),
        Family::new("rounded false tickets drawn", drawn::false_tickets(Rounding::Drawn)),
        Family::new("rounded tickets of another number drawn", drawn::tickets_of_another()),
        Family::new("rounding numbers with a bit changed, drawn", drawn::changed_bits()),
        Family::new("vectors of zeros", zeros::cases()),
    ]
}

#[cfg(test)]
mod tests;
