//! Safe Rust functions over the proved static library: the two checks of a
//! ticket, the writer of tickets, the same three for bias tickets, quotes for
//! both kinds before there is a ticket, the challenge check one row at a step, and
//! residue arithmetic.
//!
//! A ticket holds two integer matrices A and B and, for every entry S of their
//! product, a quotient q and a remainder r, those of S + o over α: the claim is
//! αq + r - o = S. A bias ticket also holds a bias c for every S, and its claims
//! are αq + r - o = S + c.
//!
//! Every call takes every value of its arguments, and changes none that is lent
//! for reading. None panics, allocates, or asks anything of its caller.
//!
//! ```
//! use dikdumar::{challenge_check, full_check, write_ticket, Setting};
//!
//! // ℓ = m = n = 2, s = 1, α = 10, T = 8, v = 5, o = 0.
//! let setting = Setting::from([2, 2, 2, 1, 10, 8, 5, 0]);
//!
//! let mut ticket = [0; 128];
//! let answer = write_ticket(setting, &[3, -2, 5, 4], &[-1, 6, 7, -8], &mut ticket);
//! assert_eq!(answer.numbers(), [0, 128, 0, 8]);
//!
//! assert_eq!(full_check(setting, &ticket).number, 0);
//! // In use, the list is drawn at random once the ticket is fixed.
//! assert_eq!(challenge_check(setting, &ticket, &[1, 2]).number, 0);
//!
//! // The first quotient, -2, becomes -1: its claim is untrue.
//! ticket[8 * 8 + 4] += 1;
//! assert_eq!(challenge_check(setting, &ticket, &[1, 5]).number, 12);
//! assert_eq!(full_check(setting, &ticket).number, 16);
//! ```
//!
//! ```
//! use dikdumar::{bias_challenge_check, bias_full_check, write_bias_ticket, BiasSetting};
//!
//! // The same with a bias, and W = 23.
//! let setting = BiasSetting::from([2, 2, 2, 1, 10, 8, 5, 0, 23]);
//!
//! let mut ticket = [0; 160];
//! let (a, b, bias) = ([3, -2, 5, 4], [-1, 6, 7, -8], [-4, 23, -23, 5]);
//! let answer = write_bias_ticket(setting, &a, &b, &bias, &mut ticket);
//! assert_eq!(answer.numbers(), [0, 160, 0, 8]);
//!
//! assert_eq!(bias_full_check(setting, &ticket).number, 0);
//! assert_eq!(bias_challenge_check(setting, &ticket, &[1, 2]).number, 0);
//!
//! // The last entry of the bias, 5, becomes 6: its claim is untrue.
//! ticket[8 * 11 + 4] += 1;
//! assert_eq!(bias_challenge_check(setting, &ticket, &[1, 2]).number, 12);
//! assert_eq!(bias_full_check(setting, &ticket).number, 16);
//! ```
//!
//! The library is linked from target/staticlib/libdikdumar.a, which
//! `bash .ci/build dikdumar` writes.

#![deny(unsafe_code)]
#![warn(missing_docs)]

mod answer;
pub mod check;
#[allow(unsafe_code)]
mod library;
pub mod quote;
pub mod residue;
pub mod run;
mod setting;
pub mod writer;

pub use answer::Answer;
pub use check::{bias_challenge_check, bias_full_check, challenge_check, full_check};
pub use quote::{quote_bias_ticket, quote_ticket, Quote};
pub use run::{run_add, run_begin, run_step, Mark, Run, RunAnswer};
pub use setting::{BiasSetting, Setting};
pub use writer::{write_bias_ticket, write_ticket};

/// The version of this interface, as `DIKDUMAR_VERSION` in include/dikdumar.h has
/// it.
pub const VERSION: &str = env!("CARGO_PKG_VERSION");

#[cfg(test)]
mod tests {
    #[test]
    fn the_version_is_that_of_the_headers() {
        let define = format!("\n#define DIKDUMAR_VERSION \"{}\"\n", super::VERSION);
        assert!(include_str!("../../../include/dikdumar.h").contains(&define));
        assert!(include_str!("../../../include/dikdumar_residue.h").contains(&define));
    }
}
