//! Where scans broke, told by a line of answers and the header of the case's file.

use crate::cases::{Case, INSPECT, SETTLE};
use crate::header;
use crate::layout;

/// The block at which a scan broke.
#[derive(Clone, Copy, Debug, PartialEq, Eq)]
pub enum Place {
    First,
    BehindRestart,
    Elsewhere,
    /// The final marker.
    End,
}

/// The number of a line that names where a scan broke, and which block that is.
pub fn told(case: &Case, line: &str) -> Option<(u64, Place)> {
    let mut words = line.split(' ').map_while(|word| word.parse().ok());
    let (job, number, _left) = (words.next()?, words.next()?, words.next()?);
    // No scan starts at 0, so that a line which names nothing is known by its place.
    let (block, at): (u64, u64) = (words.next()?, words.next()?);
    if ![INSPECT, SETTLE].contains(&job) || at == 0 {
        return None;
    }
    Some((number, place(&case.file, block)?))
}

/// Which block this is; `None` where the header is refused.
pub fn place(file: &[u8], block: u64) -> Option<Place> {
    let record = header::read(file, 0).ok()?;
    let per_mcu = layout::blocks_per_mcu(&record);
    let (mcu, in_mcu) = (block / per_mcu, block % per_mcu);
    let restarted = in_mcu == 0 && layout::restart_before(&record, mcu).is_some();
    Some(match block {
        0 => Place::First,
        _ if block == record.blocks => Place::End,
        _ if restarted => Place::BehindRestart,
        _ => Place::Elsewhere,
    })
}
