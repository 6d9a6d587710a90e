//! Errors of reading and writing: those of this program, and the numbers that Linux has for what the
//! oldest compiler that builds the command, Rust 1.63, has no name for.

use std::error;
use std::io::{Error, ErrorKind};

pub const IS_A_FOLDER: i32 = 21;
/// All programs together have as many files open as the system allows.
pub const MANY_FILES_IN_ALL: i32 = 23;
/// This program has.
pub const MANY_FILES: i32 = 24;
pub const FILE_TOO_LARGE: i32 = 27;
pub const DISK_FULL: i32 = 28;
pub const DISK_READ_ONLY: i32 = 30;
pub const SHARE_OF_DISK_FULL: i32 = 122;

/// An error in the words of this program.
pub fn told(words: impl Into<Box<dyn error::Error + Send + Sync>>) -> Error {
    Error::new(ErrorKind::Other, words)
}

pub fn is_a_folder() -> Error {
    Error::from_raw_os_error(IS_A_FOLDER)
}
