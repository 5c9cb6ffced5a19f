//! A folder of files and what the program is to print in it.

use std::borrow::Cow;
use std::ffi::OsString;
use std::time::Duration;

use apart::program::{self, Files};

use crate::run::{Bounds, Memory};

/// What stands in the place of a file.
#[derive(Clone, Debug)]
pub enum Entry {
    Missing,
    Bytes(Vec<u8>),
    /// A file that may be read and not written.
    ReadOnly(Vec<u8>),
    /// A file without read permission.
    Unreadable(Vec<u8>),
    /// A file of these bytes and then zeros, which take no room on the disk.
    Sparse {
        start: Vec<u8>,
        length: u64,
    },
    /// A folder with a file in it.
    Folder,
    /// A symbolic link to this, which stands beside it.
    Link(Box<Entry>),
    /// A symbolic link to a path where nothing can be read.
    LinkTo(&'static str),
}

impl Entry {
    pub fn sparse(start: &[u8], length: u64) -> Entry {
        Entry::Sparse {
            start: start.to_vec(),
            length,
        }
    }

    pub fn link(to: impl Into<Entry>) -> Entry {
        Entry::Link(Box::new(to.into()))
    }

    /// What can be read there.
    pub fn contents(&self) -> Option<Cow<'_, [u8]>> {
        // Far beyond the largest right length of any file, 49,152.
        const TOO_LONG: u64 = 1 << 20;
        match self {
            Entry::Missing | Entry::Unreadable(_) | Entry::Folder | Entry::LinkTo(_) => None,
            Entry::Bytes(bytes) | Entry::ReadOnly(bytes) => Some(Cow::from(bytes)),
            // A shorter file stands for it that is too long as well.
            Entry::Sparse { start, length } => {
                let mut bytes = start.clone();
                bytes.resize(TOO_LONG.min(*length) as usize, 0);
                Some(Cow::from(bytes))
            }
            Entry::Link(to) => to.contents(),
        }
    }
}

impl From<Vec<u8>> for Entry {
    fn from(bytes: Vec<u8>) -> Entry {
        Entry::Bytes(bytes)
    }
}

impl From<&[u8]> for Entry {
    fn from(bytes: &[u8]) -> Entry {
        Entry::Bytes(bytes.to_vec())
    }
}

/// A folder, how the program is started in it, and what it is to print.
#[derive(Clone, Debug)]
pub struct Case {
    pub description: String,
    pub setting: Entry,
    pub ticket: Entry,
    pub challenge: Entry,
    /// Other files, by name.
    pub others: Vec<(&'static str, Vec<u8>)>,
    /// The folder's own name, if it matters.
    pub folder: Option<OsString>,
    pub arguments: Vec<OsString>,
    pub bounds: Bounds,
    /// The whole output, where it is stated.
    pub stated: Option<String>,
}

impl Case {
    pub fn new(
        description: impl Into<String>,
        setting: impl Into<Entry>,
        ticket: impl Into<Entry>,
        challenge: impl Into<Entry>,
    ) -> Case {
        Case {
            description: description.into(),
            setting: setting.into(),
            ticket: ticket.into(),
            challenge: challenge.into(),
            others: Vec::new(),
            folder: None,
            arguments: Vec::new(),
            bounds: Bounds::default(),
            stated: None,
        }
    }

    pub fn setting(self, setting: impl Into<Entry>) -> Case {
        Case {
            setting: setting.into(),
            ..self
        }
    }

    pub fn ticket(self, ticket: impl Into<Entry>) -> Case {
        Case {
            ticket: ticket.into(),
            ..self
        }
    }

    pub fn challenge(self, challenge: impl Into<Entry>) -> Case {
        Case {
            challenge: challenge.into(),
            ..self
        }
    }

    /// Another file in the folder.
    pub fn beside(mut self, name: &'static str, bytes: &[u8]) -> Case {
        self.others.push((name, bytes.to_vec()));
        self
    }

    pub fn in_folder(self, name: impl Into<OsString>) -> Case {
        Case {
            folder: Some(name.into()),
            ..self
        }
    }

    pub fn argument(mut self, argument: impl Into<OsString>) -> Case {
        self.arguments.push(argument.into());
        self
    }

    pub fn memory(mut self, memory: Memory) -> Case {
        self.bounds.memory = memory;
        self
    }

    pub fn time(mut self, time: Duration) -> Case {
        self.bounds.time = time;
        self
    }

    /// States the line that is to be printed, here without its line feed.
    pub fn states(self, line: impl AsRef<str>) -> Case {
        Case {
            stated: Some(format!("{}\n", line.as_ref())),
            ..self
        }
    }

    /// What the implementation written apart says to the files.
    pub fn expected(&self) -> String {
        let [setting, ticket, challenge] = [&self.setting, &self.ticket, &self.challenge].map(Entry::contents);
        program::output(&Files {
            setting: setting.as_deref(),
            ticket: ticket.as_deref(),
            challenge: challenge.as_deref(),
        })
    }
}

/// Cases that test one thing.
pub struct Family {
    pub name: &'static str,
    pub cases: Vec<Case>,
    /// What is to be known of the family in this run.
    pub note: Option<&'static str>,
}

impl Family {
    pub fn new(name: &'static str, cases: Vec<Case>) -> Family {
        Family {
            name,
            cases,
            note: None,
        }
    }
}
