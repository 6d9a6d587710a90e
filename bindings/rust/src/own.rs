//! The calls with memory of their own. Each is given the budget that suffices for every file.

use crate::{decode, inspect, settle, Colour, Limits, Record, Refused};

/// A picture that was read.
#[derive(Clone, Debug, PartialEq, Eq, Hash)]
pub struct Picture {
    /// Samples across.
    pub width: usize,
    /// Samples down.
    pub height: usize,
    /// 1 for grey; 3 for red, green and blue, or for three channels as they are coded; 2 or 4 for
    /// so many channels as they are coded, never converted (a printer's four are most often its
    /// inks).
    pub channels: usize,
    /// Row by row, channels interleaved.
    pub samples: Vec<u8>,
}

impl Picture {
    /// The samples of the pixel that stands `x` to the right and `y` down, one for each channel;
    /// none where that is outside.
    pub fn pixel(&self, x: usize, y: usize) -> Option<&[u8]> {
        if x >= self.width || y >= self.height {
            return None;
        }
        let at = (y * self.width + x) * self.channels;
        self.samples.get(at..at + self.channels)
    }
}

/// `length` bytes, or none of them where there is not so much memory. The calls refuse a buffer
/// that is too short, so that want of memory is a refusal and ends nothing.
fn room(length: u64) -> Vec<u8> {
    let mut bytes = Vec::new();
    if bytes.try_reserve_exact(length as usize).is_ok() {
        bytes.resize(length as usize, 0);
    }
    bytes
}

/// The picture of a file: grey; red, green and blue; or two or four channels as they are coded. No
/// limits; where files come from others, use [`read_within`]. Refused 7 where there is not enough
/// memory.
pub fn read(bytes: &[u8]) -> Result<Picture, Refused> {
    read_within(bytes, Limits::NONE)
}

/// The picture of a file that keeps the limits.
///
/// ```
/// use tillsparrow::{read_within, Limits, Refused};
/// let file = std::fs::read("../../docs/tray.jpg")?;
/// let refused = read_within(&file, Limits { side: 143, ..Limits::NONE }).unwrap_err();
/// assert_eq!(refused.number, Refused::TOO_LARGE);
/// assert_eq!(refused.to_string(), "refused 6: a side, or the samples, above a limit");
/// # Ok::<(), Box<dyn std::error::Error>>(())
/// ```
pub fn read_within(bytes: &[u8], limits: Limits) -> Result<Picture, Refused> {
    let record = inspect(bytes, Colour::RedGreenBlue, limits, u64::MAX)?.record;
    read_inspected(bytes, &record)
}

/// The picture of a file that [`inspect`] has read already, in the colour of its record. Refused 7
/// where there is not enough memory, and 8 where the record is not the file's.
///
/// ```
/// use tillsparrow::{inspect, read_inspected, Colour, Limits};
/// let file = std::fs::read("../../docs/tray.jpg")?;
/// let record = inspect(&file, Colour::AsCoded, Limits::NONE, u64::MAX)?.record;
/// let coded = read_inspected(&file, &record)?;
/// assert_ne!(coded, tillsparrow::read(&file)?);
/// # Ok::<(), Box<dyn std::error::Error>>(())
/// ```
pub fn read_inspected(bytes: &[u8], record: &Record) -> Result<Picture, Refused> {
    let mut samples = room(record.output);
    let mut scratch = room(record.scratch);
    decode(bytes, record, &mut samples, &mut scratch, u64::MAX)?;
    Ok(Picture {
        width: record.width as usize,
        height: record.height as usize,
        channels: record.channels as usize,
        samples,
    })
}

/// The settled file. Refused 7 where there is not enough memory.
///
/// ```
/// let file = std::fs::read("../../docs/tray.jpg")?;
/// let settled = tillsparrow::settled(&file)?;
/// assert_eq!(tillsparrow::settled(&settled)?, settled);
/// # Ok::<(), Box<dyn std::error::Error>>(())
/// ```
pub fn settled(bytes: &[u8]) -> Result<Vec<u8>, Refused> {
    // A settled file is seldom longer than the file; where it is, the refusal says by how much.
    let mut output = room(bytes.len() as u64);
    let mut made = settle(bytes, Limits::NONE, u64::MAX, &mut output);
    if let Err(Refused { needed: Some(needed), .. }) = made {
        output = room(needed);
        made = settle(bytes, Limits::NONE, u64::MAX, &mut output);
    }
    output.truncate(made?.length);
    Ok(output)
}

#[cfg(test)]
mod tests {
    use super::room;

    #[test]
    fn want_of_memory_is_a_short_buffer() {
        assert_eq!(room(u64::MAX), []);
        assert_eq!(room(1 << 62), []);
        assert_eq!(room(3), [0, 0, 0]);
    }
}
