//! How names and texts from outside are shown: a line stays one line, and no terminal is fooled.

use std::fmt::Write;
use std::os::unix::ffi::OsStrExt;
use std::path::Path;
use std::str;

/// Whether a character is shown as it is. Controls are not, nor are the marks that turn the
/// direction of a line or break it.
fn is_plain(character: char) -> bool {
    let unseen = matches!(character,
        '\u{ad}' | '\u{61c}' | '\u{200b}'..='\u{200f}' | '\u{2028}'..='\u{202e}' | '\u{2060}'..='\u{206f}' | '\u{feff}'
        | '\u{fff9}'..='\u{fffb}' | '\u{e0000}'..='\u{e007f}');
    !character.is_control() && !unseen
}

fn push_bytes(line: &mut String, bytes: &[u8]) {
    for &byte in bytes {
        match byte {
            b'\n' => line.push_str("\\n"),
            _ => write!(line, "\\x{byte:02x}").expect("a string takes every text"),
        }
    }
}

/// The text that bytes begin with, the bytes behind it that are no character, and what is behind these.
fn split_text(bytes: &[u8]) -> (&str, &[u8], &[u8]) {
    let error = match str::from_utf8(bytes) {
        Ok(text) => return (text, &[], &[]),
        Err(error) => error,
    };
    let (text, behind) = bytes.split_at(error.valid_up_to());
    // No length is told of a character that the end of the bytes cuts short.
    let (broken, behind) = behind.split_at(error.error_len().unwrap_or(behind.len()));
    (str::from_utf8(text).expect("it is a text up to there"), broken, behind)
}

/// Bytes as one line: what can be printed as it is, a newline as `\n`, every other byte as `\xNN`.
pub fn line(bytes: &[u8]) -> String {
    let mut line = String::new();
    let mut left = bytes;
    while !left.is_empty() {
        let (text, broken, behind) = split_text(left);
        for character in text.chars() {
            match is_plain(character) {
                true => line.push(character),
                false => push_bytes(&mut line, character.encode_utf8(&mut [0; 4]).as_bytes()),
            }
        }
        push_bytes(&mut line, broken);
        left = behind;
    }
    line
}

/// The same for a text of this program that quotes what came from outside.
pub fn escaped(text: &str) -> String {
    line(text.as_bytes())
}

/// A file's name. A plain one as it is; one that holds a quote, a control or bytes that are no
/// UTF-8 in quotes, where a backslash begins an escape.
pub fn name(path: &Path) -> String {
    let bytes = path.as_os_str().as_bytes();
    let is_quote = |byte: &u8| matches!(byte, b'"' | b'\'');
    let whole = line(bytes);
    if whole.as_bytes() == bytes && !bytes.is_empty() && !bytes.iter().any(is_quote) {
        return whole;
    }
    let mut quoted = Vec::with_capacity(bytes.len() + 2);
    for &byte in bytes {
        if matches!(byte, b'"' | b'\\') {
            quoted.push(b'\\');
        }
        quoted.push(byte);
    }
    format!("\"{}\"", line(&quoted))
}

#[cfg(test)]
mod tests {
    use super::*;
    use std::ffi::OsStr;

    fn shown(bytes: &[u8]) -> String {
        name(Path::new(OsStr::from_bytes(bytes)))
    }

    #[test]
    fn plain_names_stay() {
        for plain in [
            "tray.jpg",
            "two  spaces .jpg",
            "f\u{fc}r.jpg",
            "fu\u{308}r.jpg",
            "back\\slash.jpg",
            "$(touch X)`touch Y`.jpg",
            "-",
        ] {
            assert_eq!(shown(plain.as_bytes()), plain);
        }
    }

    #[test]
    fn other_names_are_quoted_and_stay_one_line() {
        assert_eq!(shown(b"a\nb.jpg"), r#""a\nb.jpg""#);
        assert_eq!(shown(b"tab\t\x1b[31m.jpg"), r#""tab\x09\x1b[31m.jpg""#);
        assert_eq!(shown(b"f\xfcr.jpg"), r#""f\xfcr.jpg""#);
        assert_eq!(shown(b"say \"no\"\\.jpg"), r#""say \"no\"\\.jpg""#);
        assert_eq!(shown(b"it's.jpg"), r#""it's.jpg""#);
        assert_eq!(shown(b""), r#""""#);
        assert_eq!(shown("gpj.\u{202e}yart".as_bytes()), r#""gpj.\xe2\x80\xaeyart""#);
    }

    /// Two names are never shown alike.
    #[test]
    fn what_is_shown_tells_names_apart() {
        let bytes = [b'a', b'\n', b'n', b'\\', b'"', 0xff, b'x'];
        let mut seen = std::collections::HashMap::new();
        for number in 0..7_usize.pow(4) {
            let name: Vec<u8> = (0..4).map(|at| bytes[number / 7_usize.pow(at) % 7]).collect();
            let other = seen.insert(shown(&name), name.clone());
            assert!(other.is_none(), "{name:?} and {other:?} look alike");
        }
    }

    #[test]
    fn a_text_is_one_line() {
        assert_eq!(
            line(b"tray 36\nrow B\r\x07\xff\xc2\x9b \xc3\xa9"),
            "tray 36\\nrow B\\x0d\\x07\\xff\\xc2\\x9b \u{e9}"
        );
        assert_eq!(line(b""), "");
    }

    /// A character that is cut short, within a text or at its end, takes nothing else with it.
    #[test]
    fn every_byte_that_is_no_text_is_shown() {
        assert_eq!(line(b"\xe2\x82\xacx\xe2\x82x\xe2\x82"), "\u{20ac}x\\xe2\\x82x\\xe2\\x82");
        assert_eq!(
            line(b"\xf0\x9f\x98\xc3\xa9\x80\xed\xa0\x80"),
            "\\xf0\\x9f\\x98\u{e9}\\x80\\xed\\xa0\\x80"
        );
        for byte in 128..=255 {
            assert_eq!(line(&[b'a', byte, b'b', byte]), format!("a\\x{byte:02x}b\\x{byte:02x}"));
        }
    }
}
