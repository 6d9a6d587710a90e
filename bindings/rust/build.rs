//! Finds the archive of the proved library and links it: in the directory that
//! `TILLSPARROW_LIB_DIR` names, else where the repository's `./library` puts it. An archive does not
//! tell what its record holds; the header that was installed with it does.

use std::path::{Path, PathBuf};
use std::process::exit;
use std::{env, fs};

const VARIABLE: &str = "TILLSPARROW_LIB_DIR";
const ARCHIVE: &str = "libtillsparrow.a";
/// Where the header is, seen from the archive: in `target/library`, and where it was installed.
const HEADERS: [&str; 2] = ["include/tillsparrow.h", "../include/tillsparrow.h"];
/// A field that the record has since it holds the sampling of four channels, and is 46 numbers.
const FIELD: &str = "uint64_t across[4];";

fn main() {
    println!("cargo:rerun-if-env-changed={VARIABLE}");
    println!("cargo:rerun-if-changed=build.rs");
    let directory = directory();
    let archive = directory.join(ARCHIVE);
    println!("cargo:rerun-if-changed={}", archive.display());
    if !archive.is_file() {
        give_up(&format!("there is no {ARCHIVE} in {}", directory.display()));
    }
    if is_of_another_version(&directory) {
        let place = directory.display();
        give_up(&format!("{ARCHIVE} in {place} is of another version, whose record is another"));
    }
    println!("cargo:rustc-link-search=native={}", directory.display());
    println!("cargo:rustc-link-lib=static=tillsparrow");
}

/// An empty variable counts as none.
fn directory() -> PathBuf {
    let home = PathBuf::from(env::var_os("CARGO_MANIFEST_DIR").expect("cargo names the crate"));
    match env::var_os(VARIABLE).filter(|named| !named.is_empty()) {
        Some(named) => home.join(named),
        None => home.join("../../target/library"),
    }
}

/// By the header that stands with the archive. Where there is none, nothing is known against it.
fn is_of_another_version(directory: &Path) -> bool {
    let headers = HEADERS.map(|place| directory.join(place));
    let header = headers.iter().find(|place| place.is_file());
    header.map_or(false, |place| {
        println!("cargo:rerun-if-changed={}", place.display());
        !fs::read_to_string(place).map_or(false, |text| text.contains(FIELD))
    })
}

fn give_up(why: &str) -> ! {
    eprintln!(
        "tillsparrow: {why}: run ./library at the top of the repository, or set {VARIABLE} to the \
         directory that holds it"
    );
    exit(1);
}
