//! Runs the built program in folders of files and holds everything that it
//! prints against the implementation written apart, against the stated answers
//! and, by digests.txt, against what it printed before.
//!
//! Usage: `program PATH-OF-PROGRAM [--write-digests]`

#![forbid(unsafe_code)]

mod case;
mod families;
mod folder;
mod random;
mod report;
mod run;
mod sample;
mod temporary;

use std::ffi::OsString;
use std::path::Path;
use std::process::ExitCode;
use std::{env, io};

use digests::Digests;

use run::Runner;
use temporary::Temporary;

fn main() -> ExitCode {
    let arguments: Vec<OsString> = env::args_os().skip(1).collect();
    let Some((program, digests)) = read(&arguments) else {
        eprintln!("usage: program PATH-OF-PROGRAM [{}]", digests::WRITE);
        return ExitCode::from(2);
    };
    match test(program, digests) {
        Ok(true) => ExitCode::SUCCESS,
        Ok(false) => ExitCode::FAILURE,
        Err(error) => {
            eprintln!("the test itself failed: {error}");
            ExitCode::from(2)
        }
    }
}

fn read(arguments: &[OsString]) -> Option<(&Path, Digests<'static>)> {
    let (program, others) = arguments.split_first()?;
    let on_file = include_str!("../digests.txt");
    let digests = Digests::new("host/program/digests.txt", on_file, others)?;
    Some((program.as_ref(), digests))
}

/// Whether every test passed.
fn test(program: &Path, digests: Digests) -> io::Result<bool> {
    // The program is started in other folders than this.
    let mut runner = Runner::new(std::path::absolute(program)?);
    let temporary = Temporary::new()?;
    let families = families::all(temporary.permissions_hold()?);
    report::report(
        &families,
        &mut runner,
        temporary.path(),
        digests,
        &mut io::stdout().lock(),
    )
}
