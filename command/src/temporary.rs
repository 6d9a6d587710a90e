//! A file that nobody meets half-written: it is made under another name in the same folder, and
//! gets its own name when it is whole.

use crate::errors;
use crate::signals::{self, Kept};
use std::fs::{self, File};
use std::io::{ErrorKind, Result};
use std::path::{Path, PathBuf};
use std::process;
use std::sync::atomic::{AtomicU64, Ordering};

pub struct Temporary {
    path: PathBuf,
    target: PathBuf,
    /// Whether a file of the target's name is replaced.
    replace: bool,
    _kept: Kept,
}

impl Temporary {
    /// A new file beside `target`. Where the target is a link to a file, beside that file, which is
    /// then replaced: the link stays.
    pub fn new(target: &Path, replace: bool) -> Result<(Temporary, File)> {
        let target = match target.metadata() {
            Ok(_) => target.canonicalize()?,
            Err(_) => target.to_path_buf(),
        };
        loop {
            let path = unused(&target);
            let kept = signals::keep(&path).ok_or_else(|| {
                errors::told("too many files are written at once: take fewer with -j")
            })?;
            match File::options().write(true).create_new(true).open(&path) {
                Ok(file) => {
                    let temporary = Temporary { path, target, replace, _kept: kept };
                    // Who may read the file that is replaced may read the new one, and nobody else.
                    if let Ok(about) = temporary.target.metadata() {
                        file.set_permissions(about.permissions())?;
                    }
                    return Ok((temporary, file));
                }
                Err(error) if error.kind() == ErrorKind::AlreadyExists => {}
                Err(error) => return Err(error),
            }
        }
    }

    /// Gives the file, which is whole, its own name.
    pub fn finish(self, file: File) -> Result<()> {
        // So that the name does not come to the disk before the bytes, and so that a disk that tells
        // late of its want of room tells it here.
        file.sync_data()?;
        drop(file);
        if self.replace {
            return fs::rename(&self.path, &self.target);
        }
        // A link fails where the name is taken meanwhile; not every disk can make one.
        match fs::hard_link(&self.path, &self.target) {
            Err(error) if error.kind() != ErrorKind::AlreadyExists => self.rename_to_free(),
            done => done,
        }
    }

    fn rename_to_free(&self) -> Result<()> {
        match self.target.symlink_metadata() {
            Ok(_) => Err(ErrorKind::AlreadyExists.into()),
            Err(_) => fs::rename(&self.path, &self.target),
        }
    }
}

/// The name is gone already where the file was renamed.
impl Drop for Temporary {
    fn drop(&mut self) {
        let _ = fs::remove_file(&self.path);
    }
}

/// A name of this process alone, beside `target`.
fn unused(target: &Path) -> PathBuf {
    static COUNT: AtomicU64 = AtomicU64::new(0);
    let count = COUNT.fetch_add(1, Ordering::Relaxed);
    target.with_file_name(format!(".tillsparrow-{}-{count}", process::id()))
}

#[cfg(test)]
mod tests {
    use super::*;
    use std::io::Write;

    /// A folder of its own for a test.
    fn folder(name: &str) -> PathBuf {
        let path = std::env::temp_dir().join(format!("tillsparrow-{name}-{}", process::id()));
        fs::create_dir_all(&path).unwrap();
        path
    }

    fn names(folder: &Path) -> Vec<String> {
        let mut names: Vec<String> = fs::read_dir(folder)
            .unwrap()
            .map(|entry| entry.unwrap().file_name().into_string().unwrap())
            .collect();
        names.sort();
        names
    }

    fn written(target: &Path, replace: bool, text: &[u8]) -> Result<()> {
        let (temporary, mut file) = Temporary::new(target, replace)?;
        file.write_all(text)?;
        temporary.finish(file)
    }

    #[test]
    fn a_file_comes_whole_or_not_at_all() {
        let folder = folder("whole");
        let target = folder.join("tray.png");
        let (temporary, file) = Temporary::new(&target, false).unwrap();
        assert!(names(&folder)[0].starts_with(".tillsparrow-"));
        drop((temporary, file));
        assert!(names(&folder).is_empty());
        written(&target, false, b"whole").unwrap();
        assert_eq!(names(&folder), ["tray.png"]);
        assert_eq!(written(&target, false, b"again").unwrap_err().kind(), ErrorKind::AlreadyExists);
        assert_eq!(fs::read(&target).unwrap(), b"whole");
        written(&target, true, b"again").unwrap();
        assert_eq!((fs::read(&target).unwrap(), names(&folder).len()), (b"again".to_vec(), 1));
        fs::remove_dir_all(folder).unwrap();
    }

    #[test]
    fn a_link_stays_and_its_file_is_replaced() {
        let folder = folder("link");
        fs::write(folder.join("file"), b"old").unwrap();
        std::os::unix::fs::symlink("file", folder.join("link")).unwrap();
        written(&folder.join("link"), true, b"new").unwrap();
        assert_eq!(fs::read(folder.join("file")).unwrap(), b"new");
        assert!(folder.join("link").symlink_metadata().unwrap().is_symlink());
        assert_eq!(names(&folder), ["file", "link"]);
        fs::remove_dir_all(folder).unwrap();
    }
}
