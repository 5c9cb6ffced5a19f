//! What is to be shown.

use std::ffi::OsString;
use std::path::PathBuf;

pub const USAGE: &str = "usage: inspect FOLDER [--bias W]; the folder holds setting.rec, ticket.rec and perhaps \
                         challenge.rec, and with --bias a bias ticket, whose bias bound is W, 0 to 4294967295";

#[derive(Debug, PartialEq, Eq)]
pub struct Arguments {
    pub folder: PathBuf,
    /// W, where a bias ticket is to be shown.
    pub bias_bound: Option<u32>,
}

impl Arguments {
    /// None where they are not those of the usage.
    pub fn new(arguments: &[OsString]) -> Option<Arguments> {
        let (folder, bias_bound) = match arguments {
            [folder] => (folder, None),
            [folder, option, bound] if option == "--bias" => (folder, Some(bound.to_str()?.parse().ok()?)),
            _ => return None,
        };
        let folder = PathBuf::from(folder);
        Some(Arguments { folder, bias_bound })
    }
}

#[cfg(test)]
mod tests {
    use super::*;

    fn arguments(words: &[&str]) -> Option<Arguments> {
        let words: Vec<OsString> = words.iter().map(OsString::from).collect();
        Arguments::new(&words)
    }

    #[test]
    fn a_folder_and_perhaps_a_bias_bound() {
        for (words, bias_bound) in [
            (&["here"][..], None),
            (&["here", "--bias", "0"], Some(0)),
            (&["here", "--bias", "23"], Some(23)),
            (&["here", "--bias", "4294967295"], Some(u32::MAX)),
        ] {
            let folder = PathBuf::from("here");
            assert_eq!(arguments(words), Some(Arguments { folder, bias_bound }));
        }
    }

    #[test]
    fn anything_else_is_wrong() {
        for words in [
            &[][..],
            &["here", "there"],
            &["here", "--bias"],
            &["here", "--bias", ""],
            &["here", "--bias", "-1"],
            &["here", "--bias", "W"],
            &["here", "--bias", "4294967296"],
            &["here", "--bias", "23", "24"],
            &["here", "--bound", "23"],
            &["--bias", "23", "here"],
        ] {
            assert_eq!(arguments(words), None, "{words:?}");
        }
    }
}
