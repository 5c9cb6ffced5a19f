//! What a comparison found.

use digests::Digest;

/// The line of a test, an error if some answer was not the right one.
pub type Report = Result<String, String>;

/// The report where both sides agree, with what the file says to the digest.
pub fn agreed(line: String, digest: Digest, on_file: Result<(), String>) -> Report {
    match on_file {
        Ok(()) => Ok(format!("{line}, digest {digest}")),
        Err(other) => Err(format!("{line}, but FAILED: {other}")),
    }
}
