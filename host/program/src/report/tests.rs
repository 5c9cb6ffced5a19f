//! Reports on families of a few cases, with a shell in the place of the program.

use std::path::PathBuf;

use super::*;
use crate::case::Entry;
use crate::run::Memory;
use crate::sample::Sample;
use crate::temporary::Temporary;

/// Case c, where the shell runs this.
fn running(script: &str) -> Case {
    Sample::of_c()
        .case(format!("`{script}`"))
        .argument("-c")
        .argument(script)
}

/// The file that has what is expected of the families.
fn on_file(families: &[Family]) -> String {
    let line = |family: &Family| {
        let mut digest = Digest::default();
        for case in &family.cases {
            digest.update(case.expected().as_bytes());
        }
        format!("{}: {} {digest}\n", family.name, family.cases.len())
    };
    families.iter().map(line).collect()
}

fn report_on(families: &[Family]) -> (bool, String) {
    report_on_file(families, &on_file(families))
}

fn report_on_file(families: &[Family], text: &str) -> (bool, String) {
    let digests = Digests::new("digests.txt", text, &[]).expect("no argument");
    let temporary = Temporary::new().expect("a folder");
    let mut runner = Runner::new(PathBuf::from("/bin/sh"));
    let mut out = Vec::new();
    let passed = report(families, &mut runner, temporary.path(), digests, &mut out).expect("a report");
    (passed, String::from_utf8(out).expect("text"))
}

/// The report on one case that runs this.
fn report_on_script(script: &str) -> String {
    let (passed, text) = report_on(&[Family::new("one", vec![running(script)])]);
    // The other numbers never occur.
    assert!(!passed);
    text
}

#[test]
fn as_expected() {
    let text = report_on_script("echo 0 0 0 12");
    assert_eq!(
        text,
        "one: 1 folders, ok, digest 703795ab4aa95788\n\
         folders as expected, by number: 0: 1, 1: 0, 2: 0, 3: 0, 4: 0, 5: 0, 6: 0, 7: 0, 8: 0, 9: 0, 10: 0, \
         11: 0, 12: 0, 19: 0, 21: 0; FAILED\n\
         digests.txt: every line is of a family\n\
         families 1, folders 1, as expected 1\n\
         2 passed, 1 failed\n"
    );
}

#[test]
fn every_number() {
    use crate::families::{marked, rounding_number, zeros};
    let [examples, others, zeros] = [marked::cases(), rounding_number::cases(), zeros::cases()].map(|cases| {
        let printing = |case: Case| {
            let output = case.expected();
            case.argument("-c")
                .argument(format!("printf '%s\\n' '{}'", output.trim_end()))
        };
        cases.into_iter().map(printing).collect()
    });
    let families = [
        Family::new("first", examples),
        Family::new("second", others),
        Family::new("third", zeros),
    ];
    let (passed, text) = report_on(&families);
    assert!(passed, "{text}");
    assert!(text.ends_with("\n5 passed, 0 failed\n"), "{text}");
}

#[test]
fn every_other_output_is_a_difference() {
    for script in [
        "printf '0 0 0 12'",
        "printf '0 0 0 12\\r\\n'",
        "printf '0 0 0 12 \\n'",
        "printf ' 0 0 0 12\\n'",
        "printf '0  0 0 12\\n'",
        "printf '0 0 0 012\\n'",
        "printf '0 0 0 12\\n\\n'",
        "printf '0,0,0,12\\n'",
        "echo 0 0 0 13",
        "true",
    ] {
        let text = report_on_script(script);
        assert!(text.contains("one: 1 folders, FAILED in 1\n"), "{text}");
        assert!(text.contains("expected \"0 0 0 12\\n\", got \""), "{text}");
        assert!(text.ends_with("\n1 passed, 2 failed\n"), "{text}");
    }
}

#[test]
fn the_right_output_alone_is_not_enough() {
    for (rest, found) in [
        ("exit 1", ": exit status: 1\n"),
        ("kill -ABRT $$", ": signal: 6 (SIGABRT)"),
        ("echo note >&2", ": standard error \"note\\n\"\n"),
        ("echo >>ticket.rec", ": changed: ticket.rec\n"),
        ("rm setting.rec", ": gone: setting.rec\n"),
        ("echo >log", ": new: log\n"),
        (
            "chmod 600 challenge.rec; chmod 777 challenge.rec",
            ": changed: challenge.rec\n",
        ),
    ] {
        let text = report_on_script(&format!("echo 0 0 0 12; {rest}"));
        assert!(text.contains(found), "{text}");
        assert!(text.ends_with("\n1 passed, 2 failed\n"), "{text}");
    }
}

#[test]
fn too_much_memory() {
    let script = "echo 0 0 0 12; exec dd if=/dev/zero of=/dev/null bs=128M count=1 2>/dev/null";
    let (_, text) = report_on(&[Family::new("one", vec![running(script).memory(Memory::Watched)])]);
    assert!(text.contains(" KiB of memory\n"), "{text}");
    assert!(text.ends_with("\n1 passed, 2 failed\n"), "{text}");
}

#[test]
fn a_stated_answer_that_differs() {
    let case = running("echo 0 0 0 12").states("0 0 0 13");
    let (_, text) = report_on(&[Family::new("one", vec![case])]);
    assert!(
        text.contains(": stated \"0 0 0 13\\n\", written apart \"0 0 0 12\\n\"\n"),
        "{text}"
    );
}

#[test]
fn many_differences_are_cut() {
    let (_, text) = report_on(&[Family::new("one", vec![running("exit 1"); 7])]);
    assert!(text.contains("one: 7 folders, FAILED in 7\n"), "{text}");
    assert!(text.contains("    and 3 more\n"), "{text}");
}

#[test]
fn long_output_is_cut() {
    let text = report_on_script("head -c 1000 /dev/zero | tr '\\0' x");
    assert!(text.contains(&format!("\"{}\" and more", "x".repeat(200))), "{text}");
}

#[test]
fn a_note() {
    let family = Family {
        note: Some("to be known"),
        ..Family::new("one", Vec::new())
    };
    let (_, text) = report_on(&[family]);
    assert!(
        text.starts_with("one: 0 folders, ok, digest cbf29ce484222325\n    note: to be known\n"),
        "{text}"
    );
}

#[test]
fn other_output_than_on_file() {
    let families = [Family::new("one", vec![running("echo 0 0 0 12")])];
    let digest = "703795ab4aa95788";
    for (text, found) in [
        (
            "one: 1 703795ab4aa95789\n".to_owned(),
            format!("one: 1 folders, FAILED: expected 1 703795ab4aa95789 by digests.txt, found 1 {digest}\n"),
        ),
        (
            format!("one: 2 {digest}\n"),
            format!("one: 1 folders, FAILED: expected 2 {digest} by digests.txt, found 1 {digest}\n"),
        ),
        (
            String::new(),
            format!("one: 1 folders, FAILED: expected no such family by digests.txt, found 1 {digest}\n"),
        ),
        (
            format!("one: 1 {digest}\ntwo: 1 {digest}\n"),
            format!("\nFAILED: expected \"1 {digest}\" of \"two\" by digests.txt, found no such family\n"),
        ),
    ] {
        let (_, report) = report_on_file(&families, &text);
        assert!(report.contains(&found), "{report}");
        assert!(report.ends_with("\n1 passed, 2 failed\n"), "{report}");
    }
}

#[test]
fn the_order_changes_the_digest() {
    let accepted = running("echo 0 0 0 12");
    let refused = running("echo 4 0 0 0").ticket(Entry::Missing);
    let families = [
        Family::new("first", vec![accepted.clone(), refused.clone()]),
        Family::new("other", vec![refused, accepted]),
    ];
    let (_, report) = report_on(&families);
    assert!(report.ends_with("\n3 passed, 1 failed\n"), "{report}");
    let [first, other] = families.each_ref().map(|family| on_file(std::slice::from_ref(family)));
    let exchanged = first.replace("first", "other") + &other.replace("other", "first");
    let (_, report) = report_on_file(&families, &exchanged);
    assert!(report.ends_with("\n1 passed, 3 failed\n"), "{report}");
}

#[test]
fn the_digest_is_of_what_is_printed() {
    let temporary = Temporary::new().expect("a folder");
    let mut runner = Runner::new(PathBuf::from("/bin/sh"));
    let mut digest = Digest::default();
    for (name, script) in [("1", "echo 0 0 0 13"), ("2", "printf x")] {
        let folder = temporary.path().join(name);
        let found = difference(&running(script), &mut runner, &folder, &mut digest).expect("a run");
        assert!(found.is_some());
    }
    let mut printed = Digest::default();
    printed.update(b"0 0 0 13\nx");
    assert_eq!(digest, printed);
}
