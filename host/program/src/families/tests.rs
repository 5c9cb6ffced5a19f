//! The families as a whole: how many folders, which numbers, what is stated.

use std::collections::BTreeSet;
use std::sync::LazyLock;

use super::*;
use crate::case::{Case, Entry};

mod readers;

static FAMILIES: LazyLock<Vec<Family>> = LazyLock::new(|| all(true));

fn all_cases() -> impl Iterator<Item = &'static Case> {
    FAMILIES.iter().flat_map(|family| &family.cases)
}

#[test]
fn at_least_700_folders_and_at_most_900() {
    let count = all_cases().count();
    assert!((700..=900).contains(&count), "{count}");
}

#[test]
fn stated_answers_are_those_written_apart() {
    for case in all_cases() {
        if let Some(stated) = &case.stated {
            assert_eq!(*stated, case.expected(), "{}", case.description);
        }
    }
}

#[test]
fn every_number_from_0_to_12_and_19_and_21() {
    let lines: Vec<String> = all_cases().map(Case::expected).collect();
    for number in (0..=12).chain([19, 21]) {
        let begin = format!("{number} ");
        assert!(
            lines.iter().filter(|line| line.starts_with(&begin)).count() >= 5,
            "{number}"
        );
    }
}

#[test]
fn descriptions_tell_folders_apart() {
    for family in FAMILIES.iter() {
        let descriptions: BTreeSet<&str> = family.cases.iter().map(|case| case.description.as_str()).collect();
        assert_eq!(descriptions.len(), family.cases.len(), "{}", family.name);
    }
}

#[test]
fn folders_have_names_of_their_own() {
    let named: Vec<_> = all_cases().filter_map(|case| case.folder.as_ref()).collect();
    let different: BTreeSet<_> = named.iter().collect();
    assert_eq!(named.len(), different.len());
}

#[test]
fn a_note_where_permissions_do_not_hold() {
    let unreadable = |case: &Case| matches!(case.setting, Entry::Unreadable(_));
    let held = unreadable::family(true);
    assert!(held.note.is_none());
    assert!(held.cases.iter().any(unreadable));
    let not_held = unreadable::family(false);
    assert!(not_held.note.is_some());
    assert!(!not_held.cases.iter().any(unreadable));
    assert_eq!(held.cases.len(), not_held.cases.len());
}
