//! Where outputs go, and which may not be written.

use crate::answer::Trouble;
use crate::source::{self, Identity, Source};
use crate::{shown, signals, words};
use std::collections::{HashMap, HashSet};
use std::ffi::{OsStr, OsString};
use std::fs::File;
use std::io::{self, Read};
use std::os::unix::ffi::OsStrExt;
use std::path::{Path, PathBuf};

/// What -o says.
#[derive(Debug, PartialEq)]
pub enum Out {
    /// Nothing: beside each file.
    Beside,
    Standard,
    File(PathBuf),
    Folder(PathBuf),
}

impl Out {
    /// The meaning of -o for so many files, or why it has none.
    pub fn new(named: Option<OsString>, files: usize) -> Result<Out, String> {
        let named = match named {
            Some(named) => named,
            None => return Ok(Out::Beside),
        };
        if named.is_empty() {
            return Err("-o takes the name of a file or a folder".to_string());
        }
        if named == "-" {
            return match files {
                1 => Ok(Out::Standard),
                _ => Err("-o - takes one FILE: give a folder for many".to_string()),
            };
        }
        let path = PathBuf::from(named);
        if path.as_os_str().as_bytes().ends_with(b"/") || path.is_dir() {
            return Ok(Out::Folder(path));
        }
        match files {
            1 => Ok(Out::File(path)),
            _ => {
                let name = shown::name(&path);
                Err(format!("{name} is no folder, and many files want one: make it, or end its name with / to have it made"))
            }
        }
    }
}

/// How the name of an output is made from the name of its file.
#[derive(Clone, Copy)]
pub enum Naming {
    /// Its ending is replaced by this one.
    Ending(&'static str),
    /// It stays as it is.
    Own,
}

impl Naming {
    fn of(self, file: &Path) -> OsString {
        let own = file.file_name().unwrap_or(file.as_os_str());
        match self {
            Naming::Ending(ending) => Path::new(own).with_extension(ending).into_os_string(),
            Naming::Own => own.to_os_string(),
        }
    }
}

/// Where one output goes.
#[derive(Debug, PartialEq)]
pub enum Place {
    Standard,
    File(PathBuf),
}

impl Place {
    pub fn shown(&self) -> String {
        match self {
            Place::Standard => "standard output".to_string(),
            Place::File(path) => shown::name(path),
        }
    }

    fn identity(&self) -> Option<Identity> {
        let about = match self {
            Place::Standard => source::about_stream(io::stdout()),
            Place::File(path) => path.metadata(),
        };
        source::identity(&about.ok()?)
    }
}

/// The places of all outputs of a call.
pub struct Places {
    out: Out,
    force: bool,
    /// Whether a file that is there is replaced, one that is not taken.
    pub replace: bool,
    inputs: HashSet<Identity>,
    /// For each file the name of an earlier one whose output has the same name.
    clashes: Vec<Option<String>>,
}

impl Places {
    /// Makes the folder, where one is to be made.
    pub fn new(
        out: Out,
        force: bool,
        sources: &[Source],
        naming: Naming,
    ) -> Result<Places, String> {
        if let Out::Folder(folder) = &out {
            std::fs::create_dir_all(folder)
                .map_err(|error| words::unmade(&shown::name(folder), &error))?;
        }
        // A file that is named by -o is meant, but for a photograph.
        let replace = force || matches!(out, Out::File(_));
        let inputs = sources.iter().filter_map(Source::identity).collect();
        let clashes = clashes(&out, sources, naming);
        Ok(Places { out, force, replace, inputs, clashes })
    }

    /// Where the output of a source goes, which is file `i` of the call.
    pub fn of(&self, i: usize, source: &Source, naming: Naming) -> Result<Place, Trouble> {
        let place = match (&self.out, source) {
            (Out::Standard, _) | (Out::Beside, Source::Standard) => Place::Standard,
            (Out::File(path), _) => Place::File(path.clone()),
            (Out::Beside, Source::File(path)) => Place::File(path.with_file_name(naming.of(path))),
            (Out::Folder(folder), Source::File(path)) => Place::File(folder.join(naming.of(path))),
            (Out::Folder(_), Source::Standard) => {
                return Err(Trouble::Failed(
                    "has no name for a file in a folder: give -o FILE".to_string(),
                ));
            }
        };
        match &self.clashes[i] {
            None => Ok(place),
            Some(other) => Err(Trouble::Failed(format!(
                "its output would have the name of that of {other}, {}: run them one by one with -o",
                place.shown()
            ))),
        }
    }

    /// Fails where the place is taken and not to be replaced. One that is an input of the call counts
    /// as free here: what is said of it waits for what the library says of the input.
    pub fn is_free(&self, place: &Place) -> Result<(), Trouble> {
        match place {
            Place::Standard if signals::is_terminal(signals::OUTPUT) => Err(Trouble::Failed(
                "its bytes are not for a terminal: give -o FILE, or a pipe".to_string(),
            )),
            Place::File(path) if self.is_taken(path) && !self.is_input(place) => {
                let name = place.shown();
                Err(Trouble::Failed(format!(
                    "{name} is there already: take another name with -o, or --force to replace it"
                )))
            }
            _ => Ok(()),
        }
    }

    /// A photograph is taken though -o names it: where a shell makes `-o a.jpg b.jpg` of `-o *.jpg`,
    /// nobody means to lose the first.
    fn is_taken(&self, path: &Path) -> bool {
        match (self.force, self.replace) {
            (true, _) => false,
            (false, true) => is_photograph(path),
            (false, false) => path.symlink_metadata().is_ok(),
        }
    }

    fn is_input(&self, place: &Place) -> bool {
        place.identity().map_or(false, |identity| self.inputs.contains(&identity))
    }

    /// Fails where the place is a file that is read in the same call.
    pub fn is_no_input(&self, place: &Place) -> Result<(), Trouble> {
        match self.is_input(place) {
            false => Ok(()),
            true => Err(Trouble::Failed(format!(
                "{} is a file that is read here: take another name with -o",
                place.shown()
            ))),
        }
    }
}

/// Whether a regular file begins as a JPEG file does.
fn is_photograph(path: &Path) -> bool {
    let mut first = [0; 2];
    path.is_file()
        && File::open(path).and_then(|mut file| file.read_exact(&mut first)).is_ok()
        && first == [255, 216]
}

/// For each source the name of the first one whose output has the same name in the same folder.
fn clashes(out: &Out, sources: &[Source], naming: Naming) -> Vec<Option<String>> {
    let mut folders = HashMap::new();
    let mut firsts: HashMap<(PathBuf, OsString), String> = HashMap::new();
    let mut clash = |source: &Source| {
        let path = match source {
            Source::File(path) => path,
            Source::Standard => return None,
        };
        let folder = match out {
            Out::Folder(folder) => folder.as_path(),
            _ => path.parent().unwrap_or(path),
        };
        // By whatever name a folder is given.
        let real = folders.entry(folder.to_path_buf()).or_insert_with(|| real(folder));
        let key = (real.clone(), naming.of(path));
        match firsts.get(&key) {
            Some(first) => Some(first.clone()),
            None => {
                firsts.insert(key, source.shown());
                None
            }
        }
    };
    sources.iter().map(&mut clash).collect()
}

fn real(folder: &Path) -> PathBuf {
    let named = if folder.as_os_str() == OsStr::new("") { Path::new(".") } else { folder };
    named.canonicalize().unwrap_or_else(|_| folder.to_path_buf())
}

#[cfg(test)]
mod tests {
    use super::*;

    const PNG: Naming = Naming::Ending("png");

    fn sources(names: &[&str]) -> Vec<Source> {
        names.iter().map(|name| Source::from(OsString::from(name))).collect()
    }

    fn placed(out: Out, names: &[&str], naming: Naming) -> Vec<Result<Place, Trouble>> {
        let sources = sources(names);
        let places = Places::new(out, false, &sources, naming).unwrap();
        sources.iter().enumerate().map(|(i, source)| places.of(i, source, naming)).collect()
    }

    fn file(name: &str) -> Result<Place, Trouble> {
        Ok(Place::File(name.into()))
    }

    #[test]
    fn an_output_stands_beside_its_file_with_another_ending() {
        let names = ["tray.jpg", "a/b.c/tray", "IMG.2.JPG", ".jpg", "-"];
        let beside = [
            file("tray.png"),
            file("a/b.c/tray.png"),
            file("IMG.2.png"),
            file(".jpg.png"),
            Ok(Place::Standard),
        ];
        assert_eq!(placed(Out::Beside, &names, PNG), beside);
        assert_eq!(
            placed(Out::Beside, &["x/tray.jpeg"], Naming::Ending("settled.jpg")),
            [file("x/tray.settled.jpg")]
        );
    }

    #[test]
    fn a_folder_takes_names_and_tells_of_two_alike() {
        let folder = || Out::Folder("src".into());
        assert_eq!(
            placed(folder(), &["a/t.jpg", "b/u.jpg"], Naming::Own),
            [file("src/t.jpg"), file("src/u.jpg")]
        );
        let both = placed(folder(), &["a/t.jpg", "b/t.jpeg", "-"], PNG);
        assert_eq!(both[0], file("src/t.png"));
        assert!(
            matches!(&both[1], Err(Trouble::Failed(line)) if line.contains("a/t.jpg") && line.contains("src/t.png"))
        );
        assert!(both[2].is_err());
        assert!(placed(Out::Beside, &["src/t.jpg", "./src/../src/t.png"], PNG)[1].is_err());
        assert!(placed(Out::Beside, &["src/t.jpg", "t.jpg"], PNG)[1].is_ok());
    }

    #[test]
    fn what_o_says_is_known_before_anything_is_done() {
        let out = |name: &str, files| Out::new(Some(name.into()), files);
        assert_eq!(out("-", 1), Ok(Out::Standard));
        assert_eq!(out("x.png", 1), Ok(Out::File("x.png".into())));
        assert_eq!(out("new/", 2), Ok(Out::Folder("new/".into())));
        assert_eq!(out("src", 2), Ok(Out::Folder("src".into())));
        assert!(out("-", 2).is_err() && out("x.png", 2).is_err() && out("", 1).is_err());
    }

    #[test]
    fn an_input_is_never_an_output() {
        let sources = sources(&["../docs/tray.jpg"]);
        let places = Places::new(Out::Beside, true, &sources, Naming::Own).unwrap();
        let place = Place::File("../docs/../docs/tray.jpg".into());
        assert!(places.is_free(&place).is_ok() && places.is_no_input(&place).is_err());
        let careful = Places::new(Out::Beside, false, &sources, Naming::Own).unwrap();
        assert!(careful.is_free(&Place::File("Cargo.toml".into())).is_err());
        assert!(careful.is_no_input(&Place::File("Cargo.toml".into())).is_ok());
    }

    #[test]
    fn a_photograph_is_replaced_by_force_alone() {
        let sources = sources(&["other.jpg"]);
        let tray = Place::File("../docs/tray.jpg".into());
        let named = |force| {
            Out::new(Some("../docs/tray.jpg".into()), 1)
                .and_then(|out| Places::new(out, force, &sources, Naming::Own))
        };
        assert!(named(false).unwrap().is_free(&tray).is_err());
        assert!(named(true).unwrap().is_free(&tray).is_ok());
        assert!(named(false).unwrap().is_free(&Place::File("Cargo.toml".into())).is_ok());
        assert!(named(false).unwrap().is_free(&Place::File("absent".into())).is_ok());
    }
}
