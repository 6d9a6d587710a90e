//! The files that come in.

use crate::answer::Trouble;
use crate::{errors, shown, signals, words};
use memmap2::Mmap;
use std::ffi::OsString;
use std::fs::{File, Metadata};
use std::io::{Read, Result};
use std::ops::Deref;
use std::os::unix::fs::MetadataExt;
use std::os::unix::io::AsFd;
use std::path::{Path, PathBuf};

/// A file of more bytes is mapped and not read.
const MOST_READ: u64 = 64 << 20;

/// What tells a file from every other, whatever name it is given by: its device and its number there.
pub type Identity = (u64, u64);

/// The identity of what may be spoilt by writing to it: a file with bytes of its own.
pub fn identity(about: &Metadata) -> Option<Identity> {
    about.is_file().then(|| (about.dev(), about.ino()))
}

/// What a standard stream is: a file, a pipe, a terminal.
pub fn about_stream(stream: impl AsFd) -> Result<Metadata> {
    File::from(stream.as_fd().try_clone_to_owned()?).metadata()
}

pub enum Source {
    Standard,
    File(PathBuf),
}

impl From<OsString> for Source {
    fn from(word: OsString) -> Source {
        match word == "-" {
            true => Source::Standard,
            false => Source::File(word.into()),
        }
    }
}

impl Source {
    /// Its name for people.
    pub fn shown(&self) -> String {
        match self {
            Source::Standard => "standard input".to_string(),
            Source::File(path) => shown::name(path),
        }
    }

    /// None for what is no file with bytes of its own, or cannot be looked at.
    pub fn identity(&self) -> Option<Identity> {
        let about = match self {
            Source::Standard => about_stream(std::io::stdin()),
            Source::File(path) => path.metadata(),
        };
        identity(&about.ok()?)
    }

    /// Fails where it is seen at once that there is nothing to read, which is said before anything
    /// that is wrong with an output.
    pub fn look(&self) -> std::result::Result<(), Trouble> {
        let about = match self {
            Source::Standard => return Ok(()),
            Source::File(path) => path.metadata(),
        };
        match about {
            Ok(about) if about.is_dir() => Err(words::unread(&errors::is_a_folder())),
            Ok(_) => Ok(()),
            Err(error) => Err(words::unread(&error)),
        }
    }

    pub fn read(&self) -> std::result::Result<Content, Trouble> {
        let content = match self {
            Source::Standard => read_standard(),
            Source::File(path) => read_file(path),
        };
        content.map_err(|error| words::unread(&error))
    }
}

/// The bytes of a file.
pub enum Content {
    Read(Vec<u8>),
    Mapped(Mmap),
}

impl Deref for Content {
    type Target = [u8];

    fn deref(&self) -> &[u8] {
        match self {
            Content::Read(bytes) => bytes,
            Content::Mapped(bytes) => bytes,
        }
    }
}

fn read_standard() -> Result<Content> {
    if signals::was_closed(signals::INPUT) {
        return Err(errors::told("is closed: give it a file or a pipe"));
    }
    let mut bytes = Vec::new();
    std::io::stdin().lock().read_to_end(&mut bytes)?;
    Ok(Content::Read(bytes))
}

fn read_file(path: &Path) -> Result<Content> {
    let mut file = File::open(path)?;
    let about = file.metadata()?;
    if about.is_dir() {
        return Err(errors::is_a_folder());
    }
    if about.is_file() && about.len() > MOST_READ {
        // SAFETY: the map is only read here. What the calls are lent must stay as it is, and a file
        // that another program writes to does not: where its bytes change during a call, no proof
        // speaks of the answer (decode mostly refuses the record then), and where the file is cut,
        // the system ends the call, which `signals` tells in a line. A file that is read has its
        // own copy, so this concerns files of over 64 MiB alone.
        if let Ok(bytes) = unsafe { Mmap::map(&file) } {
            return Ok(Content::Mapped(bytes));
        }
    }
    let mut bytes = Vec::new();
    file.read_to_end(&mut bytes)?;
    Ok(Content::Read(bytes))
}

#[cfg(test)]
mod tests {
    use super::*;

    #[test]
    fn the_files_are_those_of_the_system() {
        let tray = Source::from(OsString::from("../docs/tray.jpg"));
        let other = Source::from(OsString::from("../docs/../docs/tray.jpg"));
        assert!(tray.identity().is_some() && tray.identity() == other.identity());
        assert_eq!(Source::from(OsString::from("/dev/null")).identity(), None);
        assert_eq!(tray.read().unwrap()[..2], [255, 216]);
        assert!(tray.look().is_ok());
        for absent in ["src", "absent.jpg"].map(|name| Source::from(OsString::from(name))) {
            assert_eq!(absent.look().unwrap_err(), absent.read().err().unwrap());
        }
        assert_eq!(Source::from(OsString::from("-")).shown(), "standard input");
    }

    #[test]
    fn a_large_file_is_mapped() {
        let path = std::env::temp_dir().join(format!("tillsparrow-mapped-{}", std::process::id()));
        let file = File::create(&path).unwrap();
        file.set_len(MOST_READ).unwrap();
        assert!(matches!(read_file(&path), Ok(Content::Read(_))));
        file.set_len(MOST_READ + 1).unwrap();
        let content = read_file(&path).unwrap();
        std::fs::remove_file(&path).unwrap();
        assert!(matches!(content, Content::Mapped(_)) && content.len() as u64 == MOST_READ + 1);
    }
}
