//! `inspect FOLDER` shows the ticket of a folder for a person: the setting, the
//! four matrices, every claim beside its exact sum, and the answers of the full
//! check and, where there is a list, of the challenge check. It takes any bytes.
//!
//! `inspect FOLDER --bias W` shows a bias ticket so, with its fifth matrix.
//!
//! It decides nothing: the answers are the library's.

mod answers;
mod arguments;
mod files;
mod inputs;
mod layout;
mod list;
mod report;
mod table;
mod terms;
#[cfg(test)]
mod tests;
mod ticket;
mod words;

use std::env;
use std::io::{self, ErrorKind, Write};
use std::process::ExitCode;

use arguments::{Arguments, USAGE};
use files::Files;

fn main() -> ExitCode {
    let arguments: Vec<_> = env::args_os().skip(1).collect();
    let Some(Arguments { folder, bias_bound }) = Arguments::new(&arguments) else {
        return error(USAGE);
    };
    if !folder.is_dir() {
        return error(&format!("there is no folder {}", folder.display()));
    }
    let text = match Files::read(&folder) {
        Ok(files) => report::report(&files, bias_bound),
        Err(reason) => return error(&reason.to_string()),
    };
    match io::stdout().write_all(text.as_bytes()) {
        Err(reason) if reason.kind() != ErrorKind::BrokenPipe => error(&reason.to_string()),
        _ => ExitCode::SUCCESS,
    }
}

fn error(reason: &str) -> ExitCode {
    eprintln!("inspect: {reason}");
    ExitCode::from(2)
}
