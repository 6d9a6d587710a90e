//! All comments of a file in one reading of it.
//!
//! [`comments`] has the library read the file once, and then walks over the header, which is
//! accepted by then. That walk stands outside the proof. What holds it is a test: in
//! `tests/comments.rs` it finds, in thousands of files and changed files, the very parts that the
//! proved [`comment`](crate::comment) and [`has_comment`](crate::has_comment) find one by one.

use crate::{inspect, Colour, Limits, Record, Refused};

/// The marker code of a comment.
const COMMENT: u8 = 254;

/// The texts of all comments before the scan, in order, each a part of `bytes`. The file is read
/// once; a refusal is [`inspect`]'s.
///
/// Where they stand is found by a walk over the accepted header, which is not proved; the crate's
/// tests hold it to [`comment`](crate::comment) and [`has_comment`](crate::has_comment), which are.
///
/// ```
/// let file = std::fs::read("../../docs/tray.jpg")?;
/// for text in tillsparrow::comments(&file)? {
///     println!("{}", String::from_utf8_lossy(text));
/// }
/// # Ok::<(), Box<dyn std::error::Error>>(())
/// ```
pub fn comments(bytes: &[u8]) -> Result<Vec<&[u8]>, Refused> {
    let seen = inspect(bytes, Colour::AsCoded, Limits::NONE, u64::MAX)?;
    Ok(comments_of(bytes, &seen.record))
}

/// The same for a file that [`inspect`] has read already: `record` is what it found. The file is
/// not read again.
///
/// Any bytes and any record may come in; where the record is not the file's, the answer means
/// nothing, and is still parts of `bytes`.
pub fn comments_of<'a>(bytes: &'a [u8], record: &Record) -> Vec<&'a [u8]> {
    let end = usize::try_from(record.start).map_or(bytes.len(), |start| start.min(bytes.len()));
    // Behind the two bytes that open a file.
    let mut left = bytes[..end].get(2..).unwrap_or_default();
    let mut texts = Vec::new();
    while let Some((code, body, behind)) = segment(left) {
        if code == COMMENT {
            texts.push(body);
        }
        left = behind;
    }
    texts
}

/// The segment at the front: its marker's code, its body, and what is behind it. None where there
/// is no whole segment.
fn segment(bytes: &[u8]) -> Option<(u8, &[u8], &[u8])> {
    // A marker is 255 and its code, and any number of 255 may stand before it.
    let fill = bytes.iter().position(|&byte| byte != 255).filter(|&fill| fill > 0)?;
    let code = bytes[fill];
    let rest = &bytes[fill + 1..];
    // High byte first; the length counts its own two bytes.
    let length = usize::from(u16::from_be_bytes([*rest.first()?, *rest.get(1)?]));
    Some((code, rest.get(2..length)?, &rest[length..]))
}

#[cfg(test)]
mod tests {
    use super::*;

    fn texts(bytes: &[u8], start: u64) -> Vec<&[u8]> {
        comments_of(bytes, &Record { start, ..Record::default() })
    }

    #[test]
    fn the_walk_ends_at_the_scan() {
        let bytes =
            b"\xff\xd8\xff\xfe\0\x03a\xff\xff\xff\xfe\0\x02\xff\xe1\0\x04\xff\xfe\xff\xfe\0\x03b";
        assert_eq!(texts(bytes, bytes.len() as u64), [&b"a"[..], b"", b"b"]);
        assert_eq!(texts(bytes, u64::MAX), [&b"a"[..], b"", b"b"]);
        assert_eq!(texts(bytes, bytes.len() as u64 - 1), [&b"a"[..], b""]);
        assert_eq!(texts(bytes, 7), [b"a"]);
    }

    /// No length and no cut makes it fail, whatever record comes in.
    #[test]
    fn every_part_of_a_header_is_answered() {
        let bytes = b"\xff\xd8\xff\xfe\0\x05abc\xff\xff\xfe\0\x04de\xff\xfe\xff\xff\0\xff\xfe\0\x01\xff\xfe\0\0";
        for from in 0..=bytes.len() {
            for start in 0..=bytes.len() as u64 + 1 {
                let own = bytes[from..].as_ptr_range();
                let inside =
                    |text: &&[u8]| own.start <= text.as_ptr() && text.as_ptr_range().end <= own.end;
                assert!(
                    texts(&bytes[from..], start).iter().all(inside),
                    "from {from}, start {start}"
                );
            }
        }
    }
}
