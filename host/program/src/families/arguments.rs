//! A program started with arguments: they are ignored.

use std::ffi::OsString;
use std::os::unix::ffi::OsStringExt;

use crate::case::{Case, Entry};
use crate::sample::Sample;

pub fn cases() -> Vec<Case> {
    let c = Sample::of_c();
    let lists: [(&str, Vec<OsString>); 8] = [
        ("a word", vec!["argument".into()]),
        ("an empty one", vec!["".into()]),
        ("--help", vec!["--help".into()]),
        ("--version", vec!["--version".into()]),
        ("another folder", vec!["/".into()]),
        (
            "the files",
            vec!["challenge.rec".into(), "setting.rec".into(), "ticket.rec".into()],
        ),
        ("one that is not UTF-8", vec![OsString::from_vec(vec![0xFF, 0xFE])]),
        ("300 numbers", (0..300).map(|k| k.to_string().into()).collect()),
    ];
    let with_c = lists.map(|(name, arguments)| Case {
        arguments,
        ..c.case(format!("arguments: {name}")).states("0 0 0 12")
    });
    let with_nothing = Case::new("arguments and no files", Entry::Missing, Entry::Missing, Entry::Missing)
        .argument("--help")
        .argument("/")
        .states("1 0 0 0");
    with_c.into_iter().chain([with_nothing]).collect()
}
