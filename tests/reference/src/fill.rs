//! Fill in the scan, told by the bytes behind the header alone.

use crate::header;

/// The file's head and the bytes behind it; `None` where the header is refused.
fn parts(file: &[u8]) -> Option<(&[u8], &[u8])> {
    let record = header::read(file, 0).ok()?;
    Some(file.split_at(record.first_coded as usize))
}

/// Whether two 255s stand side by side behind the header. In the data a 0 follows each 255, and
/// a marker's 255 its code: in an accepted file only fill brings them together. In a refused one
/// it is fill too, or fill where none may stand.
pub fn stands_in(file: &[u8]) -> bool {
    parts(file).is_some_and(|(_, scan)| scan.windows(2).any(|pair| pair == [255, 255]))
}

/// The file with one 255 in place of each run of them behind the header: an accepted one without
/// its fill. `None` where there is none.
pub fn without(file: &[u8]) -> Option<Vec<u8>> {
    let (head, scan) = parts(file)?;
    let mut bytes = head.to_vec();
    for (at, &byte) in scan.iter().enumerate() {
        if (byte, scan.get(at + 1)) != (255, Some(&255)) {
            bytes.push(byte);
        }
    }
    (bytes.len() < file.len()).then_some(bytes)
}
