//! Compares every call of the proved library with the implementation written
//! apart from it: the residue calls on all pairs of corner values and on random
//! inputs, and the power of two on every exponent up to 2^16 and on corners above;
//! the two checks and the writer, for plain tickets and for bias tickets, on
//! families of cases; the quotes for both on families of settings; and begin, step
//! and addition of runs on families of states. Each family is one test, which also
//! holds the digest of its answers to digests.txt. It is one more that the checks,
//! the writers, the quotes and the calls of runs gave each of their numbers and marks
//! at some case, and one that every line of digests.txt was met. The last line says
//! how many passed, and how many did not.
//!
//! Usage: `compare [--write-digests]`

#![forbid(unsafe_code)]

mod cases;
mod comparison;
mod families;
mod generator;
mod inputs;
mod outcome;
mod parts;
mod quotes;
mod residues;
mod runs;
mod setting;

use std::env;
use std::ffi::OsString;
use std::process::ExitCode;

use digests::Digests;

use cases::{mark_name, Kind};
use comparison::Numbers;
use outcome::Report;

fn main() -> ExitCode {
    let arguments: Vec<OsString> = env::args_os().skip(1).collect();
    let on_file = include_str!("../digests.txt");
    let Some(mut digests) = Digests::new("host/compare/digests.txt", on_file, &arguments) else {
        eprintln!("usage: compare [{}]", digests::WRITE);
        return ExitCode::from(2);
    };
    let mut run = Run::default();
    let mut inputs = 0;
    for family in residues::all() {
        let outcome = residues::compare(family.call, family.inputs);
        inputs += outcome.compared;
        run.take(outcome.report(family.name, &mut digests));
    }
    let mut numbers = Numbers::default();
    let families = families::all();
    for family in &families {
        let outcome = comparison::compare(family, cases::library, cases::apart);
        numbers.add(&outcome.numbers);
        run.take(outcome.report(&family.name, "cases", &mut digests));
    }
    let quotes = quotes::all();
    for family in &quotes {
        let outcome = quotes::compare(family, &quotes::SIDES);
        numbers.add(&outcome.numbers);
        run.take(outcome.report(&family.name, "quotes", &mut digests));
    }
    let runs = runs::all();
    for family in &runs {
        let outcome = runs::compare(family, &runs::SIDES);
        numbers.add(&outcome.numbers);
        run.take(outcome.report(family.name, "calls", &mut digests));
    }
    run.take(every_number(&numbers));
    run.take(digests.finish(run.failed > 0));
    let count = families.len() + quotes.len() + runs.len();
    println!("{}", summary(count, &numbers, inputs));
    println!("{} passed, {} failed", run.passed, run.failed);
    if run.failed == 0 {
        ExitCode::SUCCESS
    } else {
        ExitCode::FAILURE
    }
}

/// The tests made so far.
#[derive(Default)]
struct Run {
    passed: u64,
    failed: u64,
}

impl Run {
    fn take(&mut self, report: Report) {
        match report {
            Ok(line) => {
                self.passed += 1;
                println!("{line}");
            }
            Err(line) => {
                self.failed += 1;
                println!("{line}");
            }
        }
    }
}

/// A number or a mark that a call answers no case with has not been compared.
fn every_number(numbers: &Numbers) -> Report {
    let mut lines = vec![String::from("answers of each number:")];
    let mut missing = Vec::new();
    for kind in Kind::ALL {
        lines.push(format!("  {}", kind.name()));
        for &number in kind.numbers() {
            let count = numbers.of(kind, number);
            lines.push(format!("    {number:2}: {count}"));
            if count == 0 {
                missing.push(format!("{number} by the {}", kind.name()));
            }
        }
        for &mark in kind.marks() {
            let count = numbers.of_mark(kind, mark);
            lines.push(format!("    {}: {count}", mark_name(mark)));
            if count == 0 {
                missing.push(format!("{} by the {}", mark_name(mark), kind.name()));
            }
        }
    }
    let lines = lines.join("\n");
    if missing.is_empty() {
        Ok(lines)
    } else {
        Err(format!("{lines}\nnever answered: {}", missing.join(", ")))
    }
}

/// How many families there are and cases of each call, how many residue calls
/// and inputs of them, in a form that a script can read.
fn summary(families: usize, numbers: &Numbers, inputs: u64) -> String {
    let cases = Kind::ALL.map(|kind| format!("{} {}", kind.name(), numbers.cases(kind)));
    let calls = residues::CALLS.len();
    format!(
        "families {families}, {}, residue calls {calls}, inputs {inputs}",
        cases.join(", ")
    )
}

#[cfg(test)]
mod tests {
    use apart::Mark;

    use super::*;

    /// Every number and every mark of every call once, except one.
    fn all_but(missing: Option<(Kind, u32)>, missing_mark: Option<(Kind, Mark)>) -> Numbers {
        let mut numbers = Numbers::default();
        for kind in Kind::ALL {
            for &number in kind.numbers() {
                if Some((kind, number)) != missing {
                    numbers.count(kind, number);
                }
            }
            for &mark in kind.marks() {
                if Some((kind, mark)) != missing_mark {
                    numbers.count_mark(kind, mark);
                }
            }
        }
        numbers
    }

    #[test]
    fn a_number_that_never_occurs_is_noticed() {
        assert!(every_number(&all_but(None, None)).is_ok());
        for kind in Kind::ALL {
            for &number in kind.numbers() {
                let numbers = all_but(Some((kind, number)), None);
                let report = every_number(&numbers).expect_err("a number is missing");
                let end = format!("never answered: {number} by the {}", kind.name());
                assert!(report.ends_with(&end), "{report}");
            }
        }
    }

    #[test]
    fn a_mark_that_never_occurs_is_noticed() {
        let mut missed = 0;
        for kind in Kind::ALL {
            for &mark in kind.marks() {
                let numbers = all_but(None, Some((kind, mark)));
                let report = every_number(&numbers).expect_err("a mark is missing");
                let end = format!("never answered: {} by the {}", mark_name(mark), kind.name());
                assert!(report.ends_with(&end), "{report}");
                missed += 1;
            }
        }
        assert_eq!(missed, 8);
    }

    #[test]
    fn every_number_of_the_table_is_given_by_some_call() {
        for number in 0..=22 {
            assert!(Kind::ALL.iter().any(|kind| kind.numbers().contains(&number)));
        }
    }

    #[test]
    fn what_fails_is_counted() {
        let mut run = Run::default();
        for report in [Ok(String::new()), Err(String::new()), Ok(String::new())] {
            run.take(report);
        }
        assert_eq!((run.passed, run.failed), (2, 1));
    }

    #[test]
    fn the_summary() {
        assert_eq!(
            summary(5, &all_but(None, None), 3),
            "families 5, challenge check 15, full check 12, writer 8, bias challenge check 17, bias full check 14, \
             bias writer 10, quote 5, bias quote 6, run begin 14, run step 15, run addition 9, residue calls 7, inputs 3"
        );
    }
}
