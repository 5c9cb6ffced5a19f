//! The digests on file, and those of a run.

use std::ffi::OsString;
use std::fs;

use crate::Digest;

/// The argument of a run that writes the file anew and does not compare with it.
pub const WRITE: &str = "--write-digests";

/// The file: a comment, whose lines begin with #, and a line for each family,
/// `NAME: COUNT DIGEST`.
pub struct Digests<'a> {
    /// From the root of the repository.
    path: &'a str,
    comment: Vec<&'a str>,
    /// The lines on file that no family of the run has had: the name, and the
    /// count with the digest.
    left: Vec<(&'a str, &'a str)>,
    /// The lines of the run.
    found: Vec<String>,
    writes: bool,
}

impl<'a> Digests<'a> {
    /// For a run with these arguments: none, or `WRITE`.
    pub fn new(path: &'a str, text: &'a str, arguments: &[OsString]) -> Option<Digests<'a>> {
        let writes = match arguments {
            [] => false,
            [argument] if argument == WRITE => true,
            _ => return None,
        };
        let comment: Vec<&str> = text.lines().take_while(|line| line.starts_with('#')).collect();
        let lines = text.lines().skip(comment.len());
        Some(Digests {
            path,
            comment,
            left: lines.map(|line| line.rsplit_once(": ").unwrap_or((line, ""))).collect(),
            found: Vec::new(),
            writes,
        })
    }

    /// Takes what a family gave, and fails where the file has something else.
    pub fn take(&mut self, name: &str, count: u64, digest: Digest) -> Result<(), String> {
        let found = format!("{count} {digest}");
        self.found.push(format!("{name}: {found}"));
        if self.writes {
            return Ok(());
        }
        let Some(index) = self.left.iter().position(|line| line.0 == name) else {
            return Err(format!("expected no such family by {}, found {found}", self.path));
        };
        let (_, expected) = self.left.remove(index);
        if found == expected {
            Ok(())
        } else {
            Err(format!("expected {expected} by {}, found {found}", self.path))
        }
    }

    /// Fails where there are lines on file that no family has had. A run that writes
    /// the file does it here, unless something `failed` in it.
    pub fn finish(self, failed: bool) -> Result<String, String> {
        let path = self.path;
        if self.writes && failed {
            Err(format!("FAILED: {path} is not written, since something else failed"))
        } else if self.writes {
            match fs::write(path, self.text()) {
                Ok(()) => Ok(format!("{path} is written, {} lines", self.found.len())),
                Err(error) => Err(format!("FAILED: {path} is not written: {error}")),
            }
        } else if self.left.is_empty() {
            Ok(format!("{path}: every line is of a family"))
        } else {
            let line =
                |(name, expected)| format!("FAILED: expected {expected:?} of {name:?} by {path}, found no such family");
            Err(self.left.into_iter().map(line).collect::<Vec<_>>().join("\n"))
        }
    }

    /// The file anew.
    fn text(&self) -> String {
        let comment = self.comment.iter().copied();
        let lines = comment.chain(self.found.iter().map(String::as_str));
        lines.flat_map(|line| [line, "\n"]).collect()
    }
}

#[cfg(test)]
mod tests;
