//! Reads baseline JPEG files with the proved library Tillsparrow.
//!
//! The calls allocate nothing, keep nothing and answer by number. Any bytes, limits, budget and
//! record may come in; on a refusal every lent buffer is as it was.
//!
//! | call | answers |
//! |---|---|
//! | [`inspect`] | the file's [`Record`] |
//! | [`decode`] | the picture and the samples of its blocks, in two lent buffers |
//! | [`settle`] | the settled file, in a lent buffer |
//! | [`comment`], [`has_comment`] | a comment, as a part of the file's own bytes |
//!
//! [`read`], [`settled`] and [`comments`] do the same with memory of their own:
//!
//! ```
//! let file = std::fs::read("../../docs/tray.jpg")?;
//! let picture = tillsparrow::read(&file)?;
//! assert_eq!((picture.width, picture.height, picture.channels), (144, 144, 3));
//! assert_eq!(picture.samples.len(), 144 * 144 * 3);
//! # Ok::<(), Box<dyn std::error::Error>>(())
//! ```
//!
//! A file has one to four channels, and each has its own sampling, which [`Record::sampling`] tells
//! as `2x2,1x2,1x2`. Three channels are given as red, green and blue, or as they are coded where
//! that is asked for; one, two and four always as they are coded. A program that shows pictures
//! looks at [`Picture::channels`]: 1 is grey, 3 is colour, and what 2 and 4 mean no file says.
//!
//! A refusal is a [`Refused`]: its number and, where the scan broke, the block and the place, so
//! that a copy that was cut is told from a camera that writes what it should not:
//!
//! ```
//! let file = std::fs::read("../../docs/tray.jpg")?;
//! let refused = tillsparrow::read(&file[..10_600]).unwrap_err();
//! assert_eq!((refused.number, refused.block, refused.place), (3, 481, 10_588));
//! assert_eq!(
//!     refused.line_for(10_600),
//!     "refused 3: the bytes ran out in block 481, which begins at byte 10,588 of 10,600"
//! );
//! # Ok::<(), Box<dyn std::error::Error>>(())
//! ```
//!
//! A call has a price: 2 for each byte of the file and 1, and the record's work where it comes to
//! the scan. What a call may take is its budget; `u64::MAX` always suffices for a file that is
//! read without a given record.

#![deny(missing_docs, unsafe_op_in_unsafe_fn)]

mod calls;
mod comments;
mod own;
mod raw;
mod record;
mod refused;

pub use calls::{comment, decode, has_comment, inspect, settle, Inspected, Settled};
pub use comments::{comments, comments_of};
pub use own::{read, read_inspected, read_within, settled, Picture};
pub use record::{Colour, Limits, Record};
pub use refused::Refused;

/// The code of the crate's page is run as an example too.
#[cfg(doctest)]
#[doc = include_str!("../README.md")]
struct Page;
