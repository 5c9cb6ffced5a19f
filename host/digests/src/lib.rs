//! Digests of all answers of a family of cases, and the file that says which
//! they are. A family whose digest stays has the answers that it had.

#![forbid(unsafe_code)]

mod digest;
mod file;

pub use digest::Digest;
pub use file::{Digests, WRITE};
