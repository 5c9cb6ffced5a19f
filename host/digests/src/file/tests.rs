//! A file of two families, and runs that have its answers or others.

use std::{env, process};

use super::*;

const TEXT: &str = "\
# What it is.
# How it is written.
one: 1 af63dc4c8601ec8c
two: with a colon: 2 85944171f73967e8
";

fn digest(text: &str) -> Digest {
    let mut digest = Digest::default();
    digest.update(text.as_bytes());
    digest
}

fn compared(text: &str) -> Digests<'_> {
    Digests::new("PATH", text, &[]).expect("no argument")
}

/// A run that has what is on file.
fn take_both(digests: &mut Digests) {
    assert_eq!(digests.take("one", 1, digest("a")), Ok(()));
    assert_eq!(digests.take("two: with a colon", 2, digest("foobar")), Ok(()));
}

#[test]
fn the_same_passes() {
    let mut digests = compared(TEXT);
    take_both(&mut digests);
    assert_eq!(digests.finish(false), Ok("PATH: every line is of a family".into()));
}

#[test]
fn other_answers() {
    let expected = "expected 1 af63dc4c8601ec8c by PATH, found 1 af63df4c8601f1a5".to_owned();
    assert_eq!(compared(TEXT).take("one", 1, digest("b")), Err(expected));
}

#[test]
fn another_count() {
    let expected = "expected 1 af63dc4c8601ec8c by PATH, found 2 af63dc4c8601ec8c".to_owned();
    assert_eq!(compared(TEXT).take("one", 2, digest("a")), Err(expected));
}

#[test]
fn a_family_that_is_not_on_file() {
    let mut digests = compared(TEXT);
    take_both(&mut digests);
    let expected = Err("expected no such family by PATH, found 1 af63dc4c8601ec8c".to_owned());
    for name in ["three", "on", "two", "", "# What it is."] {
        assert_eq!(digests.take(name, 1, digest("a")), expected);
    }
    // A line is that of one family.
    assert_eq!(digests.take("one", 1, digest("a")), expected);
}

#[test]
fn a_line_that_no_family_has() {
    let mut digests = compared(TEXT);
    assert_eq!(digests.take("two: with a colon", 2, digest("foobar")), Ok(()));
    let expected = "FAILED: expected \"1 af63dc4c8601ec8c\" of \"one\" by PATH, found no such family";
    assert_eq!(digests.finish(false), Err(expected.into()));
}

/// Those that can't be read are such lines too.
#[test]
fn every_line_that_no_family_has() {
    let text = format!("{TEXT}one: 1 af63dc4c8601ec8c\n\n# no comment here\n");
    let mut digests = compared(&text);
    take_both(&mut digests);
    let expected = "\
        FAILED: expected \"1 af63dc4c8601ec8c\" of \"one\" by PATH, found no such family\n\
        FAILED: expected \"\" of \"\" by PATH, found no such family\n\
        FAILED: expected \"\" of \"# no comment here\" by PATH, found no such family";
    assert_eq!(digests.finish(false), Err(expected.into()));
}

#[test]
fn changed_lines_are_noticed() {
    for (from, to) in [
        ("one: 1", "one: 2"),
        ("one: 1", "one: 01"),
        ("one: 1", "one:  1"),
        ("one: 1", "one : 1"),
        ("one: 1", "One: 1"),
        ("af63", "AF63"),
        ("ec8c", "ec8d"),
        ("ec8c", "ec8"),
        ("ec8c", "ec8c "),
        ("one: 1 af63dc4c8601ec8c\n", ""),
    ] {
        let text = TEXT.replacen(from, to, 1);
        assert_ne!(text, TEXT);
        assert!(compared(&text).take("one", 1, digest("a")).is_err(), "{text}");
    }
}

#[test]
fn arguments() {
    let new = |arguments: &[&str]| {
        let arguments: Vec<OsString> = arguments.iter().map(OsString::from).collect();
        Digests::new("PATH", TEXT, &arguments).map(|digests| digests.writes)
    };
    assert_eq!(new(&[]), Some(false));
    assert_eq!(new(&[WRITE]), Some(true));
    for others in [&[""][..], &["--write"], &[WRITE, WRITE], &[WRITE, "PATH"]] {
        assert_eq!(new(others), None);
    }
}

/// A path for a file, which is not there.
fn fresh_path(name: &str) -> String {
    let path = env::temp_dir().join(format!("digests-{}-{name}", process::id()));
    path.to_str().expect("a path in Unicode").to_owned()
}

#[test]
fn written_anew() {
    let path = fresh_path("written");
    let mut digests = Digests::new(&path, TEXT, &[WRITE.into()]).expect("one argument");
    for (name, text) in [("one", "b"), ("three", "foobar")] {
        assert_eq!(digests.take(name, 3, digest(text)), Ok(()));
    }
    assert_eq!(digests.finish(false), Ok(format!("{path} is written, 2 lines")));
    let written = fs::read_to_string(&path).expect("the file");
    fs::remove_file(&path).expect("the file is there");
    let expected = "\
        # What it is.\n\
        # How it is written.\n\
        one: 3 af63df4c8601f1a5\n\
        three: 3 85944171f73967e8\n";
    assert_eq!(written, expected);

    let mut digests = compared(&written);
    assert_eq!(digests.take("one", 3, digest("b")), Ok(()));
    assert_eq!(digests.take("three", 3, digest("foobar")), Ok(()));
    assert!(digests.finish(false).is_ok());
}

#[test]
fn not_written_after_a_failure() {
    let path = fresh_path("failed");
    let digests = Digests::new(&path, TEXT, &[WRITE.into()]).expect("one argument");
    assert_eq!(
        digests.finish(true),
        Err(format!("FAILED: {path} is not written, since something else failed"))
    );
    assert!(!fs::exists(&path).expect("an answer"));
}

#[test]
fn a_path_that_can_not_be_written() {
    let path = fresh_path("none") + "/digests.txt";
    let digests = Digests::new(&path, TEXT, &[WRITE.into()]).expect("one argument");
    let report = digests.finish(false).expect_err("there is no such folder");
    assert!(
        report.starts_with(&format!("FAILED: {path} is not written: ")),
        "{report}"
    );
}
