//! `quote --rows N --inner N ..` says what the tickets of a layer will need,
//! before it is built: the figures as a small table, or why there are none and
//! what would have to change.
//!
//! It decides nothing: the figures are the library's, and every number that it
//! proposes was asked of the library.

#![forbid(unsafe_code)]

mod arguments;
mod draw;
mod figures;
mod layer;
mod parameters;
mod powers;
mod refusal;
mod remedies;
#[cfg(test)]
mod tests;
mod usage;
mod words;

use std::env;
use std::io::{self, ErrorKind, Write};
use std::process::ExitCode;

use arguments::Request;
use draw::Draw;
use layer::Layer;

fn main() -> ExitCode {
    let arguments: Vec<_> = env::args_os().skip(1).collect();
    let (text, status) = match Request::new(&arguments) {
        Ok(Request::Help) => (usage::text(), 0),
        Ok(Request::Quote(layer, draw)) => report(layer, draw),
        Err(reason) => return error(&reason),
    };
    match io::stdout().write_all(text.as_bytes()) {
        Err(reason) if reason.kind() != ErrorKind::BrokenPipe => error(&reason.to_string()),
        _ => ExitCode::from(status),
    }
}

/// The text for a layer and the exit status: 0 with figures, 1 without.
fn report(layer: Layer, draw: Draw) -> (String, u8) {
    let quote = layer.quote();
    match quote.number {
        0 => (figures::text(layer, draw, quote), 0),
        number => (refusal::text(layer, number), 1),
    }
}

fn error(reason: &str) -> ExitCode {
    eprintln!("quote: {reason}");
    ExitCode::from(2)
}
