//! The crate jpeg-decoder for C, twice: with its own vector code (SSSE3 on x86-64; on other processors a stable compiler builds none) and without.

use std::io::Cursor;
use std::slice;

/// The bytes of the picture, 0 where there is none; copied to `output` where there is as much room.
fn copied(pixels: Option<Vec<u8>>, output: *mut u8, room: usize) -> usize {
    let pixels = pixels.unwrap_or_default();
    if pixels.len() <= room {
        // SAFETY: the caller lends `room` bytes at `output`.
        unsafe { slice::from_raw_parts_mut(output, pixels.len()) }.copy_from_slice(&pixels);
    }
    pixels.len()
}

/// # Safety
/// `bytes` points to `length` bytes, `output` to `room` bytes.
#[no_mangle]
pub unsafe extern "C" fn crate_with_vectors(
    bytes: *const u8,
    length: usize,
    output: *mut u8,
    room: usize,
) -> usize {
    let file = Cursor::new(slice::from_raw_parts(bytes, length));
    copied(decoder_with_vectors::Decoder::new(file).decode().ok(), output, room)
}

/// # Safety
/// As `crate_with_vectors`.
#[no_mangle]
pub unsafe extern "C" fn crate_without_vectors(
    bytes: *const u8,
    length: usize,
    output: *mut u8,
    room: usize,
) -> usize {
    let file = Cursor::new(slice::from_raw_parts(bytes, length));
    copied(decoder_without_vectors::Decoder::new(file).decode().ok(), output, room)
}
