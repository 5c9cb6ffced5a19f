//! Runs every family and says what came of it.

use std::io::{self, Write};
use std::path::Path;

use digests::{Digest, Digests};

use crate::case::{Case, Family};
use crate::folder::{self, Snapshot};
use crate::run::{Runner, MEMORY};

/// The differences that are printed of a family.
const SHOWN: usize = 4;

/// The numbers that the program can answer.
const NUMBERS: [usize; 15] = [0, 1, 2, 3, 4, 5, 6, 7, 8, 9, 10, 11, 12, 19, 21];

/// Runs the families in folders below `parent` and writes a line for each, and
/// what differs. Says whether all passed.
pub fn report(
    families: &[Family],
    runner: &mut Runner,
    parent: &Path,
    mut digests: Digests,
    out: &mut dyn Write,
) -> io::Result<bool> {
    let mut tally = Tally::default();
    for family in families {
        report_family(family, runner, parent, &mut digests, &mut tally, out)?;
    }
    report_numbers(&mut tally, out)?;
    let on_file = digests.finish(tally.failed > 0);
    tally.count(on_file.is_ok());
    writeln!(out, "{}", on_file.unwrap_or_else(|other| other))?;
    writeln!(
        out,
        "families {}, folders {}, as expected {}",
        families.len(),
        tally.folders,
        tally.as_expected
    )?;
    writeln!(out, "{} passed, {} failed", tally.passed, tally.failed)?;
    Ok(tally.failed == 0)
}

#[derive(Default)]
struct Tally {
    folders: usize,
    as_expected: usize,
    /// The folders as expected, by the number of the answer, as in `NUMBERS`.
    numbers: [usize; NUMBERS.len()],
    /// Families, the test of the numbers and that of the digests on file.
    passed: usize,
    failed: usize,
}

impl Tally {
    fn count(&mut self, passed: bool) {
        if passed {
            self.passed += 1;
        } else {
            self.failed += 1;
        }
    }
}

fn report_family(
    family: &Family,
    runner: &mut Runner,
    parent: &Path,
    digests: &mut Digests,
    tally: &mut Tally,
    out: &mut dyn Write,
) -> io::Result<()> {
    let mut differences = Vec::new();
    let mut digest = Digest::default();
    for case in &family.cases {
        let standard_name = format!("{:04}", tally.folders).into();
        let folder = parent.join(case.folder.as_ref().unwrap_or(&standard_name));
        tally.folders += 1;
        let found = difference(case, runner, &folder, &mut digest)
            .map_err(|error| io::Error::other(format!("{}: {}: {error}", family.name, case.description)))?;
        match found {
            Some(difference) => differences.push(format!("{}: {difference}", case.description)),
            None => {
                tally.as_expected += 1;
                let found = number(&case.expected());
                if let Some(index) = NUMBERS.iter().position(|&number| found == Some(number)) {
                    tally.numbers[index] += 1;
                }
            }
        }
    }
    let Family { name, cases, note } = family;
    let count = cases.len();
    let on_file = digests.take(name, count as u64, digest);
    let verdict = match (differences.len(), &on_file) {
        (0, Ok(())) => format!("ok, digest {digest}"),
        (0, Err(other)) => format!("FAILED: {other}"),
        (failed, _) => format!("FAILED in {failed}"),
    };
    writeln!(out, "{name}: {count} folders, {verdict}")?;
    if let Some(note) = note {
        writeln!(out, "    note: {note}")?;
    }
    for difference in differences.iter().take(SHOWN) {
        writeln!(out, "    {difference}")?;
    }
    if differences.len() > SHOWN {
        writeln!(out, "    and {} more", differences.len() - SHOWN)?;
    }
    tally.count(differences.is_empty() && on_file.is_ok());
    Ok(())
}

/// Fails if one of the numbers never occurs.
fn report_numbers(tally: &mut Tally, out: &mut dyn Write) -> io::Result<()> {
    let counts: Vec<String> = NUMBERS
        .iter()
        .zip(tally.numbers)
        .map(|(number, count)| format!("{number}: {count}"))
        .collect();
    let passed = !tally.numbers.contains(&0);
    let verdict = if passed { "ok" } else { "FAILED" };
    writeln!(out, "folders as expected, by number: {}; {verdict}", counts.join(", "))?;
    tally.count(passed);
    Ok(())
}

/// Runs the program in the folder of a case and says what is not as expected. What
/// it prints goes into the digest.
fn difference(case: &Case, runner: &mut Runner, folder: &Path, digest: &mut Digest) -> io::Result<Option<String>> {
    folder::make(folder, case)?;
    let before = Snapshot::of(folder)?;
    let run = runner.run(folder, &case.arguments, case.bounds);
    let changes = before.differences(&Snapshot::of(folder)?);
    digest.update(&run.output);

    let expected = case.expected();
    let mut found = Vec::new();
    if let Some(stated) = case.stated.as_ref().filter(|stated| **stated != expected) {
        found.push(format!("stated {stated:?}, written apart {expected:?}"));
    }
    if run.output != expected.as_bytes() {
        found.push(format!("expected {expected:?}, got {}", shown(&run.output)));
    }
    if !run.succeeded() {
        found.push(run.end.to_string());
    }
    if !run.errors.is_empty() {
        found.push(format!("standard error {}", shown(&run.errors)));
    }
    if run.memory > MEMORY {
        found.push(format!("{} KiB of memory", run.memory));
    }
    found.extend(changes);
    Ok((!found.is_empty()).then(|| found.join("; ")))
}

/// The begin of what was printed, on one line.
fn shown(bytes: &[u8]) -> String {
    const LENGTH: usize = 200;
    let text = String::from_utf8_lossy(&bytes[..bytes.len().min(LENGTH)]);
    let more = if bytes.len() > LENGTH { " and more" } else { "" };
    format!("{text:?}{more}")
}

/// The first number of an output.
fn number(output: &str) -> Option<usize> {
    output.split(' ').next()?.parse().ok()
}

#[cfg(test)]
mod tests;
