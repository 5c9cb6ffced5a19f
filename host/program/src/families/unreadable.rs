//! Files that are there and can't be read: a folder in the place of each, and a
//! file without read permission. Nothing is read there, as from an empty one.

use crate::case::{Case, Entry, Family};
use crate::sample::Sample;

pub fn family(permissions_hold: bool) -> Family {
    let note = "permissions do not hold here, as for root: folders stand in the place of files without read permission";
    Family {
        note: (!permissions_hold).then_some(note),
        ..Family::new("files that can't be read", cases(permissions_hold))
    }
}

fn cases(permissions_hold: bool) -> Vec<Case> {
    let c = Sample::of_c().case("");
    let folder = |_: &Entry| Entry::Folder;
    let unreadable = |whole: &Entry| match whole {
        Entry::Bytes(bytes) if permissions_hold => Entry::Unreadable(bytes.clone()),
        _ => Entry::Folder,
    };
    let mut cases = each(&c, "a folder", folder);
    cases.extend(each(&c, "no read permission", unreadable));
    let case = c
        .clone()
        .ticket(Entry::Folder)
        .setting(Entry::Missing)
        .states("1 0 0 0");
    cases.push(named(case, "a folder as ticket, no setting"));
    let case = c
        .clone()
        .challenge(Entry::Folder)
        .ticket(Entry::Missing)
        .states("4 0 0 0");
    cases.push(named(case, "a folder as challenge, no ticket"));
    cases
}

fn named(case: Case, description: &str) -> Case {
    Case {
        description: description.to_owned(),
        ..case
    }
}

/// This in the place of each file, then of two and of all.
fn each(c: &Case, name: &str, entry: impl Fn(&Entry) -> Entry) -> Vec<Case> {
    let case = |description: &str| named(c.clone(), &format!("{name} as {description}"));
    let [setting, ticket, challenge] = [&c.setting, &c.ticket, &c.challenge].map(entry);
    vec![
        case("setting").setting(setting.clone()).states("1 0 0 0"),
        case("ticket").ticket(ticket.clone()).states("4 0 0 0"),
        case("challenge").challenge(challenge.clone()).states("10 0 0 0"),
        case("ticket and challenge")
            .ticket(ticket.clone())
            .challenge(challenge.clone())
            .states("4 0 0 0"),
        case("setting, ticket and challenge")
            .setting(setting)
            .ticket(ticket)
            .challenge(challenge)
            .states("1 0 0 0"),
    ]
}
