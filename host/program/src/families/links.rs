//! Symbolic links: one to a file counts as the file, one to nothing as a missing
//! file.

use crate::case::{Case, Entry};
use crate::sample::{cycle, Sample};

pub fn cases() -> Vec<Case> {
    let c = Sample::of_c();
    let whole = c.case("");
    let largest = Sample::largest().case("links to the three files of the largest setting");
    let mut cases = vec![
        c.case("a link to the setting")
            .setting(Entry::link(whole.setting.clone()))
            .states("0 0 0 12"),
        c.case("a link to the ticket")
            .ticket(Entry::link(whole.ticket.clone()))
            .states("0 0 0 12"),
        c.case("a link to the challenge")
            .challenge(Entry::link(whole.challenge.clone()))
            .states("0 0 0 12"),
        linked(c.case("links to the three files"), Entry::link).states("0 0 0 12"),
        linked(c.case("links to links"), |entry| Entry::link(Entry::link(entry))).states("0 0 0 12"),
        linked(largest, Entry::link).states("0 0 0 40960"),
        c.case("a link to a ticket of 129 bytes")
            .ticket(Entry::link(cycle(&c.ticket, 129)))
            .states("4 0 0 0"),
        c.case("a link to an empty challenge")
            .challenge(Entry::link(Vec::new()))
            .states("10 0 0 0"),
    ];
    let nothing = [
        ("a dangling link", Entry::link(Entry::Missing)),
        ("a link to a folder", Entry::link(Entry::Folder)),
        ("a link to an empty device", Entry::LinkTo("/dev/null")),
    ];
    for (name, entry) in nothing {
        cases.extend(each(&c, name, [entry.clone(), entry.clone(), entry]));
    }
    let itself = [
        apart::program::SETTING,
        apart::program::TICKET,
        apart::program::CHALLENGE,
    ]
    .map(Entry::LinkTo);
    cases.extend(each(&c, "a link to itself", itself));
    cases
}

/// The case with every file behind links.
fn linked(case: Case, link: impl Fn(Entry) -> Entry) -> Case {
    Case {
        setting: link(case.setting),
        ticket: link(case.ticket),
        challenge: link(case.challenge),
        ..case
    }
}

/// A link to nothing in the place of each file.
fn each(c: &Sample, name: &str, [setting, ticket, challenge]: [Entry; 3]) -> [Case; 3] {
    let case = |place: &str| c.case(format!("{name} as {place}"));
    [
        case("setting").setting(setting).states("1 0 0 0"),
        case("ticket").ticket(ticket).states("4 0 0 0"),
        case("challenge").challenge(challenge).states("10 0 0 0"),
    ]
}
