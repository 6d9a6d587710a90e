//! The calls of the library on slices: each lends its arguments to the C function and sorts the
//! answer into what was asked for and a refusal.

use crate::{raw, Colour, Limits, Record, Refused};

/// What [`inspect`] answers.
#[derive(Clone, Copy, Debug, PartialEq, Eq, Hash)]
pub struct Inspected {
    /// What the file holds.
    pub record: Record,
    /// What is left of the budget.
    pub left: u64,
}

/// What [`settle`] answers.
#[derive(Clone, Copy, Debug, PartialEq, Eq, Hash)]
pub struct Settled {
    /// The bytes of the settled file, which stand at the front of the lent buffer.
    pub length: usize,
    /// What is left of the budget.
    pub left: u64,
}

/// `value` where the number is 0, else the refusal.
fn answer<T>(value: T, refused: Refused) -> Result<T, Refused> {
    match refused.number {
        0 => Ok(value),
        _ => Err(refused),
    }
}

/// What a file holds, or the number of the first rule that refuses it, and where its scan broke
/// the block and the place.
///
/// It takes 2 for each byte of the file and 1 from the budget, and the record's work where it
/// comes to the scan.
///
/// ```
/// use tillsparrow::{inspect, Colour, Limits};
/// let file = std::fs::read("../../docs/tray.jpg")?;
/// let limits = Limits { side: 1000, ..Limits::NONE };
/// let seen = inspect(&file, Colour::RedGreenBlue, limits, 10_000_000)?;
/// let price = 2 * file.len() as u64 + 1 + seen.record.work;
/// assert_eq!(seen.left, 10_000_000 - price);
/// assert_eq!(inspect(&file[..100], Colour::AsCoded, limits, 1000).unwrap_err().number, 3);
/// # Ok::<(), Box<dyn std::error::Error>>(())
/// ```
pub fn inspect(
    bytes: &[u8],
    colour: Colour,
    limits: Limits,
    budget: u64,
) -> Result<Inspected, Refused> {
    // SAFETY: a slice's pointer is not null, also where it is empty, and its bytes stay as they
    // are while it is borrowed; nothing is written.
    let seen = unsafe {
        raw::tillsparrow_inspect(
            bytes.as_ptr(),
            bytes.len(),
            colour == Colour::RedGreenBlue,
            limits.input,
            limits.side,
            limits.output,
            budget,
        )
    };
    let raw::Inspected { number, left, block, place, found } = seen;
    let refused = Refused { number, left, block, place, needed: None };
    answer(Inspected { record: found, left }, refused)
}

/// The picture of a file whose record is given, row by row, its one to four channels interleaved, at
/// the front of `output`, and the samples of its blocks at the front of `scratch`. What is left of
/// the budget.
///
/// Any record may come in; one that is not the file's is refused 8, which names no block, also
/// where the scan broke. Limits are set aside. It takes what [`inspect`] takes.
///
/// ```
/// use tillsparrow::{decode, inspect, Colour, Limits};
/// let file = std::fs::read("../../docs/tray.jpg")?;
/// let record = inspect(&file, Colour::RedGreenBlue, Limits::NONE, u64::MAX)?.record;
/// let mut output = vec![0; record.output as usize];
/// let mut scratch = vec![0; record.scratch as usize];
/// decode(&file, &record, &mut output, &mut scratch, u64::MAX)?;
/// # Ok::<(), Box<dyn std::error::Error>>(())
/// ```
pub fn decode(
    bytes: &[u8],
    record: &Record,
    output: &mut [u8],
    scratch: &mut [u8],
    budget: u64,
) -> Result<u64, Refused> {
    // SAFETY: a slice's pointer is not null, also where it is empty; two slices that are borrowed
    // to be written overlap neither each other nor the bytes; every record may come in.
    let drawn = unsafe {
        raw::tillsparrow_decode(
            bytes.as_ptr(),
            bytes.len(),
            *record,
            output.as_mut_ptr(),
            output.len(),
            scratch.as_mut_ptr(),
            scratch.len(),
            budget,
        )
    };
    let raw::Decoded { number, left } = drawn;
    answer(left, Refused { number, left, block: 0, place: 0, needed: None })
}

/// The settled file at the front of `output`: the same head and the same coefficients, coded in
/// the one settled way, without the fill bytes that may stand before a scan's markers. At
/// [`inspect`]'s price, and a scan that broke is refused as [`inspect`] refuses it.
///
/// Where the buffer is too short the refusal says how many bytes are needed:
///
/// ```
/// use tillsparrow::{settle, Limits};
/// let file = std::fs::read("../../docs/tray.jpg")?;
/// let needed = settle(&file, Limits::NONE, u64::MAX, &mut []).unwrap_err().needed.unwrap();
/// let mut output = vec![0; needed as usize];
/// assert_eq!(settle(&file, Limits::NONE, u64::MAX, &mut output)?.length, output.len());
/// # Ok::<(), Box<dyn std::error::Error>>(())
/// ```
pub fn settle(
    bytes: &[u8],
    limits: Limits,
    budget: u64,
    output: &mut [u8],
) -> Result<Settled, Refused> {
    // SAFETY: a slice's pointer is not null, also where it is empty; a slice that is borrowed to
    // be written does not overlap the bytes.
    let made = unsafe {
        raw::tillsparrow_settle(
            bytes.as_ptr(),
            bytes.len(),
            limits.input,
            limits.side,
            limits.output,
            budget,
            output.as_mut_ptr(),
            output.len(),
        )
    };
    let raw::Settled { number, left, block, place, length } = made;
    let needed = (number == Refused::SHORT_ROOM).then_some(length);
    let refused = Refused { number, left, block, place, needed };
    answer(Settled { length: length as usize, left }, refused)
}

/// The text of comment `i`, counted from 0 over the comment segments before the scan: a part of
/// `bytes`. Empty where there is none, or where the file is not accepted, limits aside.
///
/// ```
/// use tillsparrow::comment;
/// let mut file = std::fs::read("../../docs/tray.jpg")?;
/// file.splice(2..2, *b"\xff\xfe\x00\x09tray 36");
/// assert_eq!(comment(&file, 0), b"tray 36");
/// assert_eq!(comment(&file, 0).as_ptr(), file[6..].as_ptr());
/// # Ok::<(), Box<dyn std::error::Error>>(())
/// ```
pub fn comment(bytes: &[u8], i: usize) -> &[u8] {
    // SAFETY: a slice's pointer is not null, also where it is empty, and its bytes stay as they
    // are while it is borrowed; nothing is written.
    let part = unsafe { raw::tillsparrow_comment(bytes.as_ptr(), bytes.len(), i) };
    &bytes[part.at as usize..][..part.length as usize]
}

/// Whether comment `i` is there, which an empty text does not tell, and what is left of the
/// budget. At [`inspect`]'s price and with its numbers, its block and its place.
pub fn has_comment(
    bytes: &[u8],
    i: usize,
    limits: Limits,
    budget: u64,
) -> Result<(bool, u64), Refused> {
    // SAFETY: a slice's pointer is not null, also where it is empty, and its bytes stay as they
    // are while it is borrowed; nothing is written.
    let found = unsafe {
        raw::tillsparrow_has_comment(
            bytes.as_ptr(),
            bytes.len(),
            i,
            limits.input,
            limits.side,
            limits.output,
            budget,
        )
    };
    let raw::Presence { number, left, block, place, there } = found;
    answer((there == 1, left), Refused { number, left, block, place, needed: None })
}
