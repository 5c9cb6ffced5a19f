//! The three files of a folder, as far as they are read.

use std::fs::File;
use std::io::{self, ErrorKind, Read};
use std::path::Path;

/// At most so many bytes of a file are read. Every ticket, list and setting is
/// shorter, so a file that is longer has the wrong length whatever follows.
pub const READ_AT_MOST: usize = 65_536;

/// What was read of a file.
#[derive(Clone, Debug, PartialEq, Eq)]
pub struct Contents {
    pub bytes: Vec<u8>,
    /// The file has more bytes than these.
    pub is_longer: bool,
}

/// The files of a folder; none where one is missing.
#[derive(Clone, Debug)]
pub struct Files {
    pub setting: Option<Contents>,
    pub ticket: Option<Contents>,
    pub challenge: Option<Contents>,
}

impl Files {
    /// Reads the files of a folder. A file that is there and cannot be read is an
    /// error.
    pub fn read(folder: &Path) -> io::Result<Files> {
        let read = |name| {
            let path = folder.join(name);
            read_file(&path)
                .map_err(|reason| io::Error::new(reason.kind(), format!("cannot read {}: {reason}", path.display())))
        };
        Ok(Files {
            setting: read("setting.rec")?,
            ticket: read("ticket.rec")?,
            challenge: read("challenge.rec")?,
        })
    }
}

fn read_file(path: &Path) -> io::Result<Option<Contents>> {
    let file = match File::open(path) {
        Err(reason) if reason.kind() == ErrorKind::NotFound => return Ok(None),
        opened => opened?,
    };
    let mut bytes = Vec::new();
    file.take(READ_AT_MOST as u64 + 1).read_to_end(&mut bytes)?;
    let is_longer = bytes.len() > READ_AT_MOST;
    bytes.truncate(READ_AT_MOST);
    Ok(Some(Contents { bytes, is_longer }))
}

#[cfg(test)]
mod tests {
    use super::*;
    use std::{env, fs, process};

    #[test]
    fn reading_is_bounded() {
        let folder = env::temp_dir().join(format!("inspect-{}", process::id()));
        fs::create_dir_all(&folder).expect("a temporary folder");
        fs::write(folder.join("setting.rec"), [7; READ_AT_MOST]).expect("a file");
        fs::write(folder.join("ticket.rec"), [7; READ_AT_MOST + 1]).expect("a file");
        let files = Files::read(&folder);
        fs::create_dir(folder.join("challenge.rec")).expect("a folder in place of a file");
        let unreadable = Files::read(&folder);
        fs::remove_dir_all(&folder).expect("the temporary folder");

        let files = files.expect("readable files");
        let contents = |is_longer| {
            let bytes = vec![7; READ_AT_MOST];
            Some(Contents { bytes, is_longer })
        };
        assert_eq!(files.setting, contents(false));
        assert_eq!(files.ticket, contents(true));
        assert_eq!(files.challenge, None);
        assert!(unreadable
            .expect_err("a folder is no file")
            .to_string()
            .contains("challenge.rec"));
    }
}
