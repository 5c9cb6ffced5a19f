//! Other files in the folder, other names, read-only files and odd names of the
//! folder itself. Only the three names count, as they are written.

use std::ffi::OsString;
use std::os::unix::ffi::OsStringExt;

use apart::program::challenge_file;

use crate::case::{Case, Entry};
use crate::sample::{setting_bytes, Sample, P};

pub fn cases() -> Vec<Case> {
    [others(), other_names(), read_only(), folders()].concat()
}

fn others() -> Vec<Case> {
    let c = Sample::of_c();
    vec![
        c.case("unrelated files")
            .beside("README", b"text")
            .beside("result.rec", &[0; 100])
            .beside("operand.rec", &[1; 16])
            .beside("4", b"")
            .states("0 0 0 12"),
        c.case("hidden and kept files with other contents")
            .beside(".setting.rec", &[])
            .beside(".ticket.rec", &[0; 128])
            .beside("setting.rec~", &[255; 20])
            .beside("ticket.rec.bak", &c.with_value(0, P))
            .beside("challenge.rec.1", &challenge_file(&[1, P]))
            .beside("Ticket.rec", &[])
            .beside("CHALLENGE.REC", &[])
            .states("0 0 0 12"),
        Case::new("unrelated files only", Entry::Missing, Entry::Missing, Entry::Missing)
            .beside("README", b"text")
            .beside("result.rec", &[0; 100])
            .states("1 0 0 0"),
    ]
}

/// A file under a name that is not quite its own is missing.
fn other_names() -> Vec<Case> {
    let c = Sample::of_c();
    let setting = setting_bytes(&c.setting);
    let challenge = challenge_file(&c.list);
    let mut cases = Vec::new();
    for name in ["Setting.rec", "SETTING.REC", "setting"] {
        let case = c.case(name).setting(Entry::Missing).beside(name, &setting);
        cases.push(case.states("1 0 0 0"));
    }
    for name in ["Ticket.rec", "TICKET.REC", "ticket"] {
        let case = c.case(name).ticket(Entry::Missing).beside(name, &c.ticket);
        cases.push(case.states("4 0 0 0"));
    }
    for name in ["Challenge.rec", "CHALLENGE.REC", "challenge"] {
        let case = c.case(name).challenge(Entry::Missing).beside(name, &challenge);
        cases.push(case.states("10 0 0 0"));
    }
    cases
}

fn read_only() -> Vec<Case> {
    let c = Sample::of_c();
    vec![Case::new(
        "files that may not be written",
        Entry::ReadOnly(setting_bytes(&c.setting)),
        Entry::ReadOnly(c.ticket),
        Entry::ReadOnly(challenge_file(&c.list)),
    )
    .states("0 0 0 12")]
}

fn folders() -> Vec<Case> {
    let c = Sample::of_c();
    vec![
        c.case("a folder with spaces in its name")
            .in_folder("a folder")
            .states("0 0 0 12"),
        c.case("a folder with other letters in its name")
            .in_folder("Prüfung ℓ")
            .states("0 0 0 12"),
        c.case("a folder with a name that is not UTF-8")
            .in_folder(OsString::from_vec(vec![b'x', 0xFF, 0xFE]))
            .states("0 0 0 12"),
        c.case("a folder with a long name")
            .in_folder("long".repeat(60))
            .states("0 0 0 12"),
    ]
}
