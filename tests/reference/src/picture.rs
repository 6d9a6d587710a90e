//! Pictures as PGM and PPM: what the program writes, and how far two pictures lie apart.

use crate::calls::{self, Limits, UNLIMITED};
use crate::record::Record;

/// The program's limits: three buffers of 65,536 bytes and sides up to 65,535.
pub const PROGRAM: Limits = Limits { input: 65_536, side: 65_535, output: 65_536 };

/// What the program writes for a file, with these limits. Two and four channels it refuses 5,
/// behind all that inspect refuses.
pub fn written(file: &[u8], limits: &Limits) -> Vec<u8> {
    let (answer, record) = calls::inspect(file, 1, limits, UNLIMITED);
    if answer.number != 0 {
        return format!("refused {}\n", answer.number).into_bytes();
    }
    if record.channels == 2 || record.channels == 4 {
        return b"refused 5\n".to_vec();
    }
    let kind = if record.channels == 1 { "P5" } else { "P6" };
    let mut bytes = format!("{kind}\n{} {}\n255\n", record.width, record.height).into_bytes();
    bytes.extend(decoded(file, &record));
    bytes
}

/// What decode writes for a file without limits, one to four bytes a pixel; or inspect's number.
pub fn samples(file: &[u8], colour: u64) -> Result<Vec<u8>, u8> {
    let (answer, record) = calls::inspect(file, colour, &Limits::NONE, UNLIMITED);
    match answer.number {
        0 => Ok(decoded(file, &record)),
        number => Err(number),
    }
}

/// The picture of an accepted file.
fn decoded(file: &[u8], record: &Record) -> Vec<u8> {
    let (mut output, mut scratch) =
        (vec![0; record.output as usize], vec![0; record.scratch as usize]);
    let answer = calls::decode(file, record, &mut output, &mut scratch, UNLIMITED);
    assert_eq!(answer.number, 0);
    output
}

/// The opening lines of a PGM or PPM, and its samples.
fn parts(picture: &[u8]) -> Option<(&[u8], &[u8])> {
    let mut ends =
        picture.iter().enumerate().filter(|(_, &byte)| byte == b'\n').map(|(at, _)| at + 1);
    let end = ends.nth(2)?;
    Some(picture.split_at(end))
}

/// The largest difference of two samples; `None` if the pictures are not of one kind and size.
pub fn distance(a: &[u8], b: &[u8]) -> Option<u8> {
    let ((head_a, a), (head_b, b)) = (parts(a)?, parts(b)?);
    if head_a != head_b || a.len() != b.len() {
        return None;
    }
    Some(a.iter().zip(b).map(|(&a, &b)| a.abs_diff(b)).max().unwrap_or(0))
}
