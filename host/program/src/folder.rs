//! Making a folder, and seeing whether it is as it was.

use std::collections::BTreeMap;
use std::fs::{self, File, Metadata, Permissions};
use std::io;
use std::os::unix::fs::{symlink, MetadataExt, PermissionsExt};
use std::path::{Path, PathBuf};

use apart::program::{CHALLENGE, SETTING, TICKET};

use crate::case::{Case, Entry};

/// Makes the folder of a case, which is not there before.
pub fn make(folder: &Path, case: &Case) -> io::Result<()> {
    fs::create_dir(folder)?;
    make_entry(folder, SETTING, &case.setting)?;
    make_entry(folder, TICKET, &case.ticket)?;
    make_entry(folder, CHALLENGE, &case.challenge)?;
    for (name, bytes) in &case.others {
        fs::write(folder.join(name), bytes)?;
    }
    Ok(())
}

fn make_entry(folder: &Path, name: &str, entry: &Entry) -> io::Result<()> {
    let path = folder.join(name);
    match entry {
        Entry::Missing => Ok(()),
        Entry::Bytes(bytes) => fs::write(path, bytes),
        Entry::ReadOnly(bytes) => make_with_mode(&path, bytes, 0o444),
        Entry::Unreadable(bytes) => make_with_mode(&path, bytes, 0o000),
        Entry::Sparse { start, length } => {
            fs::write(&path, start)?;
            File::options().write(true).open(path)?.set_len(*length)
        }
        Entry::Folder => {
            fs::create_dir(&path)?;
            fs::write(path.join(name), "in a folder")
        }
        Entry::Link(to) => {
            let beside = format!("{name}.target");
            make_entry(folder, &beside, to)?;
            symlink(beside, path)
        }
        Entry::LinkTo(to) => symlink(to, path),
    }
}

fn make_with_mode(path: &Path, bytes: &[u8], mode: u32) -> io::Result<()> {
    fs::write(path, bytes)?;
    fs::set_permissions(path, Permissions::from_mode(mode))
}

/// All that a folder holds, by path, down to the bytes.
#[derive(PartialEq, Eq)]
pub struct Snapshot {
    items: BTreeMap<PathBuf, Item>,
}

#[derive(PartialEq, Eq)]
struct Item {
    mode: u32,
    length: u64,
    /// When the contents and when anything was changed, in seconds and
    /// nanoseconds.
    changed: [i64; 4],
    contents: Contents,
}

#[derive(PartialEq, Eq)]
enum Contents {
    Bytes(Vec<u8>),
    LinkTo(PathBuf),
    /// A folder, a file that can't be read, or one so long that the times have
    /// to do.
    Unseen,
}

impl Snapshot {
    pub fn of(folder: &Path) -> io::Result<Snapshot> {
        let mut items = BTreeMap::new();
        see(folder, Path::new(""), &mut items)?;
        Ok(Snapshot { items })
    }

    /// The paths that are new, gone or changed in a later snapshot, each with the
    /// word before it.
    pub fn differences(&self, later: &Snapshot) -> Vec<String> {
        let gone_or_changed = self
            .items
            .iter()
            .filter_map(|(path, item)| match later.items.get(path) {
                None => Some(("gone", path)),
                Some(other) if other != item => Some(("changed", path)),
                Some(_) => None,
            });
        let new = later.items.keys().filter(|path| !self.items.contains_key(*path));
        gone_or_changed
            .chain(new.map(|path| ("new", path)))
            .map(|(word, path)| format!("{word}: {}", path.display()))
            .collect()
    }
}

/// Sees everything below `inner` in the folder.
fn see(folder: &Path, inner: &Path, items: &mut BTreeMap<PathBuf, Item>) -> io::Result<()> {
    for entry in fs::read_dir(folder.join(inner))? {
        let inner = inner.join(entry?.file_name());
        let path = folder.join(&inner);
        let metadata = path.symlink_metadata()?;
        if metadata.is_dir() {
            see(folder, &inner, items)?;
        }
        let item = Item {
            mode: metadata.mode(),
            length: metadata.len(),
            changed: [
                metadata.mtime(),
                metadata.mtime_nsec(),
                metadata.ctime(),
                metadata.ctime_nsec(),
            ],
            contents: contents(&path, &metadata)?,
        };
        items.insert(inner, item);
    }
    Ok(())
}

fn contents(path: &Path, metadata: &Metadata) -> io::Result<Contents> {
    const LONGEST: u64 = 1 << 22;
    if metadata.is_symlink() {
        fs::read_link(path).map(Contents::LinkTo)
    } else if metadata.is_file() && metadata.len() <= LONGEST {
        // One without read permission stays unseen.
        Ok(fs::read(path).map_or(Contents::Unseen, Contents::Bytes))
    } else {
        Ok(Contents::Unseen)
    }
}

#[cfg(test)]
mod tests {
    use super::*;
    use crate::temporary::Temporary;

    fn case() -> Case {
        Case::new(
            "each kind of entry",
            Entry::link(Entry::link(&b"abc"[..])),
            Entry::Folder,
            Entry::sparse(b"xy", 1 << 30),
        )
        .beside("other", b"def")
    }

    #[test]
    fn made_as_told() {
        let temporary = Temporary::new().expect("a folder");
        let folder = temporary.path().join("case");
        make(&folder, &case()).expect("made");
        assert_eq!(fs::read(folder.join("setting.rec")).expect("read"), b"abc");
        assert!(folder.join("ticket.rec").is_dir());
        let length = fs::metadata(folder.join("challenge.rec")).expect("metadata").len();
        assert_eq!(length, 1 << 30);
        assert_eq!(fs::read(folder.join("other")).expect("read"), b"def");
    }

    #[test]
    fn links_to_nothing() {
        let temporary = Temporary::new().expect("a folder");
        let folder = temporary.path().join("case");
        let case = Case::new(
            "links",
            Entry::link(Entry::Missing),
            Entry::LinkTo("ticket.rec"),
            Entry::LinkTo("/dev/null"),
        );
        make(&folder, &case).expect("made");
        assert!(folder.join("setting.rec").is_symlink());
        let dangling = fs::read(folder.join("setting.rec")).expect_err("nothing there");
        assert_eq!(dangling.kind(), io::ErrorKind::NotFound);
        assert!(fs::read(folder.join("ticket.rec")).is_err());
        assert_eq!(fs::read(folder.join("challenge.rec")).expect("read"), b"");
    }

    #[test]
    fn changes_are_seen() {
        let temporary = Temporary::new().expect("a folder");
        let folder = temporary.path().join("case");
        make(&folder, &case()).expect("made");
        let before = Snapshot::of(&folder).expect("seen");
        let again = Snapshot::of(&folder).expect("seen");
        assert!(before.differences(&again).is_empty());

        fs::write(folder.join("setting.rec"), "abd").expect("written through the links");
        fs::write(folder.join("ticket.rec/added"), "").expect("written");
        fs::remove_file(folder.join("other")).expect("removed");
        let after = Snapshot::of(&folder).expect("seen");
        let differences = before.differences(&after);
        for difference in [
            "changed: setting.rec.target.target",
            "new: ticket.rec/added",
            "gone: other",
        ] {
            assert!(differences.iter().any(|found| found == difference), "{differences:?}");
        }
    }
}
