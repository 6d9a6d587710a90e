//! The words of a line on standard error: what happened, and what to do.

use crate::answer::Trouble;
use crate::errors;
use std::io::{Error, ErrorKind};
use tillsparrow::Refused;

/// The trouble of a file that the library refuses: its number, why, where its scan broke, and what to do.
pub fn refusal(refused: &Refused, bytes: &[u8]) -> Trouble {
    match refused.number {
        // The room was made for the record that was found: only the memory can be short.
        Refused::SHORT_ROOM => no_memory(),
        // The record was this file's a moment ago.
        Refused::NOT_ITS_RECORD => Trouble::Failed(
            "changed while it was read: run it again when nothing writes to it".to_string(),
        ),
        _ => Trouble::Refused(format!(
            "{}: {}",
            refused.line_for(bytes.len()),
            to_do(refused, bytes)
        )),
    }
}

fn to_do(refused: &Refused, bytes: &[u8]) -> &'static str {
    match refused.number {
        Refused::TOO_LONG | Refused::TOO_LARGE => "take a smaller file",
        Refused::CUT_SHORT if refused.scan_broke() => "it was cut; copy it again from the camera",
        Refused::CUT_SHORT => "copy it again from the camera",
        Refused::BARE_255 | Refused::NO_CODE => IS_DAMAGED,
        Refused::MALFORMED if refused.scan_broke() => IS_DAMAGED,
        Refused::MALFORMED if bytes.is_empty() => "the file is empty; copy it again from the camera",
        Refused::MALFORMED if !bytes.starts_with(&[255, 216]) => is_not_jpeg(bytes),
        Refused::MALFORMED => "copy it again from the camera; a file that stays so is damaged, or the tables in its head are faulty, and cannot be trusted",
        Refused::UNSUPPORTED => "have the camera write baseline files in one scan (progressive and 12-bit ones are not read, nor more than four channels)",
        Refused::NO_END_CODE => "it cannot be settled; compare the pictures that decode writes",
        _ => "please report it",
    }
}

/// A scan whose bytes did not run out, and which still broke.
const IS_DAMAGED: &str = "copy it again from the camera; a file that stays so is damaged, or what wrote it is faulty, and cannot be trusted";

/// A file that does not begin as JPEG files do. What it is instead is told where its first bytes tell.
fn is_not_jpeg(bytes: &[u8]) -> &'static str {
    const KINDS: [(&[u8], &str); 8] = [
        (b"\x89PNG", "it is not a JPEG file but a PNG file; give the JPEG file of the camera"),
        (b"GIF8", "it is not a JPEG file but a GIF file; give the JPEG file of the camera"),
        (b"BM", "it is not a JPEG file but a BMP file; give the JPEG file of the camera"),
        (
            b"II*\0",
            "it is not a JPEG file but a TIFF or raw file; have the camera write JPEG files",
        ),
        (
            b"MM\0*",
            "it is not a JPEG file but a TIFF or raw file; have the camera write JPEG files",
        ),
        (
            b"RIFF",
            "it is not a JPEG file but a WebP or RIFF file; give the JPEG file of the camera",
        ),
        (b"%PDF", "it is not a JPEG file but a PDF file; give the JPEG file of the camera"),
        (
            b"\0\0\0\x0cjP  ",
            "it is not a JPEG file but a JPEG 2000 file; have the camera write JPEG files",
        ),
    ];
    if bytes.get(4..8) == Some(b"ftyp") {
        return "it is not a JPEG file but a HEIF or video file; have the camera write JPEG files";
    }
    let kind = KINDS.iter().find(|(first, _)| bytes.starts_with(first));
    kind.map_or("it is not a JPEG file; give the JPEG file of the camera", |(_, words)| words)
}

/// How the channels of a picture stand that is not written as one, since no form has so many.
pub fn beside(channels: usize) -> String {
    let count = if channels == 2 { "two" } else { "four" };
    format!(
        "has {count} channels: each is written in grey, side by side, the first one on the left"
    )
}

const NO_MEMORY: &str =
    "there is not enough memory: close other programs, take -j 1, or a computer with more of it";

/// A file's picture has no room.
pub fn no_memory() -> Trouble {
    Trouble::Failed(NO_MEMORY.to_string())
}

const MANY_FILES: &str =
    "too many files are open: take fewer at a time with -j, or raise the limit (ulimit -n)";

/// What the system says of an error, without its number.
fn said(error: &Error) -> String {
    let text = error.to_string();
    text.split(" (os error ").next().unwrap_or_default().to_string()
}

/// A file could not be read.
pub fn unread(error: &Error) -> Trouble {
    let why = match (error.kind(), error.raw_os_error().unwrap_or_default()) {
        (_, errors::IS_A_FOLDER) => "is a folder: give the files in it, such as FOLDER/*.jpg",
        (_, errors::MANY_FILES | errors::MANY_FILES_IN_ALL) => MANY_FILES,
        (ErrorKind::NotFound, _) => "there is no such file: look at its name and its folder",
        (ErrorKind::PermissionDenied, _) => "may not be read: have its owner allow it",
        (ErrorKind::OutOfMemory, _) => NO_MEMORY,
        // The words of this program.
        (ErrorKind::Other, _) => return Trouble::Failed(error.to_string()),
        _ => {
            let why = format!("cannot be read: {}: copy it again from the camera", said(error));
            return Trouble::Failed(why);
        }
    };
    Trouble::Failed(why.to_string())
}

/// What was to be written to `place` could not be.
pub fn unwritten(place: &str, error: &Error) -> String {
    let why = match (error.kind(), error.raw_os_error().unwrap_or_default()) {
        (_, errors::DISK_FULL | errors::SHARE_OF_DISK_FULL) => "the disk is full: make room and run it again",
        (_, errors::FILE_TOO_LARGE) => {
            "it is too large for a file here: raise the limit (ulimit -f), or take another disk with -o"
        }
        (_, errors::DISK_READ_ONLY) => "the disk is read-only: take another folder with -o",
        (_, errors::IS_A_FOLDER) => "it is a folder: take another name with -o",
        (_, errors::MANY_FILES | errors::MANY_FILES_IN_ALL) => MANY_FILES,
        (ErrorKind::BrokenPipe, _) => "the pipe was closed: let its reader read to the end",
        (ErrorKind::NotFound, _) => "there is no such folder: make it, or take another with -o",
        (ErrorKind::PermissionDenied, _) => "its folder may not be written to: take another with -o",
        (ErrorKind::AlreadyExists, _) => {
            "it is there already: take another name with -o, or --force to replace it"
        }
        (ErrorKind::OutOfMemory, _) => NO_MEMORY,
        // The words of this program.
        (ErrorKind::Other, _) => return format!("{place} cannot be written: {error}"),
        _ => return format!("{place} cannot be written: {}: take another place with -o", said(error)),
    };
    format!("{place} cannot be written: {why}")
}

/// A folder could not be made.
pub fn unmade(folder: &str, error: &Error) -> String {
    format!("the folder {folder} cannot be made: {}: take another with -o", said(error))
}

#[cfg(test)]
mod tests {
    use super::*;

    fn refused(number: u64, block: u64, place: u64) -> Refused {
        Refused { number, left: 0, block, place, needed: None }
    }

    fn line(refused: &Refused, bytes: &[u8]) -> String {
        match refusal(refused, bytes) {
            Trouble::Refused(line) => line,
            Trouble::Failed(line) => panic!("{} is no refusal: {line}", refused.number),
        }
    }

    #[test]
    fn a_refusal_has_number_meaning_and_what_to_do() {
        for number in [1, 2, 3, 4, 5, 6, 9, 10, 11] {
            let refused = refused(number, 0, 0);
            let line = line(&refused, &[255, 216]);
            let parts: Vec<&str> = line.splitn(3, ": ").collect();
            assert_eq!(parts[0], format!("refused {number}"));
            assert_eq!(parts[1], refused.meaning());
            assert!(parts[2].len() > 10 && !line.contains('\n'), "{line}");
        }
        for number in [7, 8] {
            assert!(matches!(refusal(&refused(number, 0, 0), b""), Trouble::Failed(_)));
        }
    }

    /// A copy that was cut is told from a file that is damaged.
    #[test]
    fn a_broken_scan_has_its_block_and_its_place() {
        let bytes = [&[255, 216][..], &[0; 31_350]].concat();
        let parts = |number| {
            let line = line(&refused(number, 1207, 31_337), &bytes);
            let (why, to_do) = line.rsplit_once(": ").unwrap();
            (why.to_string(), to_do.to_string())
        };
        let place = "block 1207, which begins at byte 31,337 of 31,352";
        assert_eq!(parts(3).0, format!("refused 3: the bytes ran out in {place}"));
        assert_eq!(
            parts(10).0,
            format!("refused 10: a 255 is followed by neither 0 nor the end in {place}")
        );
        assert_eq!(parts(11).0, format!("refused 11: no code of the table matches in {place}"));
        assert_eq!(
            parts(4).0,
            "refused 4: the scan breaks a rule of the format at block 1207, whose reading began at byte 31,337 of 31,352"
        );
        assert_eq!(parts(3).1, "it was cut; copy it again from the camera");
        for number in [4, 10, 11] {
            assert!(parts(number).1.contains("damaged, or what wrote it is faulty"), "{number}");
        }
    }

    #[test]
    fn what_is_no_jpeg_file_is_named() {
        let said = |bytes: &[u8]| line(&refused(4, 0, 0), bytes);
        assert!(said(b"").contains("is empty"));
        assert!(said(b"\x89PNG\r\n\x1a\n").contains("not a JPEG file but a PNG file"));
        assert!(said(b"\0\0\0\x18ftypheic").contains("HEIF"));
        assert!(said(b"tray 7").contains("not a JPEG file"));
        assert!(!said(b"\xff\xd8\xff").contains("not a JPEG"));
        assert!(said(b"\xff\xd8\xff").contains("damaged, or the tables in its head are faulty"));
    }

    #[test]
    fn the_systems_words_come_without_their_number() {
        assert!(unwritten("x", &Error::from_raw_os_error(28)).contains("the disk is full"));
        assert_eq!(said(&Error::from_raw_os_error(5)), "Input/output error");
    }

    /// The numbers are those of the system: what it calls them is what they are taken for.
    #[test]
    fn the_numbers_of_errors_are_the_systems() {
        let names = [
            (errors::IS_A_FOLDER, "Is a directory"),
            (errors::MANY_FILES_IN_ALL, "Too many open files in system"),
            (errors::MANY_FILES, "Too many open files"),
            (errors::FILE_TOO_LARGE, "File too large"),
            (errors::DISK_FULL, "No space left on device"),
            (errors::DISK_READ_ONLY, "Read-only file system"),
            (errors::SHARE_OF_DISK_FULL, "Disk quota exceeded"),
        ];
        for (number, name) in names {
            assert_eq!(said(&Error::from_raw_os_error(number)), name);
            assert!(!unwritten("x", &Error::from_raw_os_error(number)).contains(name), "{name}");
        }
    }

    #[test]
    fn of_too_many_open_files_fewer_are_to_be_taken() {
        for number in [errors::MANY_FILES, errors::MANY_FILES_IN_ALL] {
            let error = Error::from_raw_os_error(number);
            let read = unread(&error);
            assert!(
                matches!(&read, Trouble::Failed(line) if line.contains("take fewer at a time with -j") && !line.contains("camera")),
                "{read:?}"
            );
            assert!(unwritten("x", &error).contains("take fewer at a time with -j"));
        }
    }
}
