//! A fresh temporary folder.

use std::fs::{self, File, Permissions};
use std::os::unix::fs::PermissionsExt;
use std::path::{Path, PathBuf};
use std::{env, io, process};

/// A folder that is removed with all that it holds when this is dropped.
pub struct Temporary {
    path: PathBuf,
}

impl Temporary {
    /// Makes a folder that was not there before.
    pub fn new() -> io::Result<Temporary> {
        for attempt in 0..1000 {
            let path = env::temp_dir().join(format!("program-{}-{attempt}", process::id()));
            match fs::create_dir(&path) {
                Ok(()) => return Ok(Temporary { path }),
                Err(error) if error.kind() == io::ErrorKind::AlreadyExists => {}
                Err(error) => return Err(error),
            }
        }
        Err(io::Error::other("no name is free for a temporary folder"))
    }

    pub fn path(&self) -> &Path {
        &self.path
    }

    /// Whether a file without read permission can't be read here. Root reads it.
    pub fn permissions_hold(&self) -> io::Result<bool> {
        let path = self.path.join("permissions");
        fs::write(&path, "x")?;
        fs::set_permissions(&path, Permissions::from_mode(0o000))?;
        let held = File::open(&path).is_err();
        fs::remove_file(&path)?;
        Ok(held)
    }
}

impl Drop for Temporary {
    fn drop(&mut self) {
        if let Err(error) = fs::remove_dir_all(&self.path) {
            eprintln!("{} is left over: {error}", self.path.display());
        }
    }
}

#[cfg(test)]
mod tests {
    use super::*;

    #[test]
    fn fresh_and_removed() {
        let first = Temporary::new().expect("a folder");
        let second = Temporary::new().expect("another folder");
        assert_ne!(first.path(), second.path());
        let path = first.path().to_owned();
        fs::create_dir(path.join("inner")).expect("a folder in it");
        fs::write(path.join("inner/file"), "x").expect("a file in it");
        drop(first);
        assert!(!path.exists());
        assert!(second.path().exists());
    }
}
