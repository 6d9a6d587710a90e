//! The calls of the reference reader (tests/reference) for C. Its modules are taken as they are, by their paths.
#![allow(dead_code)]

#[path = "../../../tests/reference/src/bits.rs"]
mod bits;
#[path = "../../../tests/reference/src/calls.rs"]
mod calls;
#[path = "../../../tests/reference/src/header.rs"]
mod header;
#[path = "../../../tests/reference/src/huffman.rs"]
mod huffman;
#[path = "../../../tests/reference/src/layout.rs"]
mod layout;
#[path = "../../../tests/reference/src/record.rs"]
mod record;
#[path = "../../../tests/reference/src/scan.rs"]
mod scan;
#[path = "../../../tests/reference/src/settle.rs"]
mod settle;
#[path = "../../../tests/reference/src/transform.rs"]
mod transform;

use calls::{Answer, Limits};
use record::{Record, NUMBERS};
use std::slice::{from_raw_parts, from_raw_parts_mut};

/// The bytes and the budget of a call.
#[repr(C)]
pub struct Asked {
    bytes: *const u8,
    length: usize,
    limits: [u64; 3],
    budget: u64,
}

/// The number, what is left, and where a scan broke; settle's length beside it.
#[repr(C)]
pub struct Told {
    number: u64,
    left: u64,
    block: u64,
    place: u64,
    length: u64,
}

impl Asked {
    fn limits(&self) -> Limits {
        Limits { input: self.limits[0], side: self.limits[1], output: self.limits[2] }
    }

    /// # Safety
    /// `bytes` points to `length` bytes.
    unsafe fn file(&self) -> &[u8] {
        from_raw_parts(self.bytes, self.length)
    }
}

fn told(answer: Answer, length: u64) -> Told {
    let Answer { number, left, block, place } = answer;
    Told { number: u64::from(number), left, block, place, length }
}

/// # Safety
/// Every pointer points to as many bytes as its length says; `found` to 46 numbers.
#[no_mangle]
pub unsafe extern "C" fn reference_inspect(
    asked: &Asked,
    colour: u64,
    found: &mut [u64; NUMBERS],
) -> Told {
    let (answer, record) = calls::inspect(asked.file(), colour, &asked.limits(), asked.budget);
    *found = record.numbers();
    told(answer, 0)
}

/// # Safety
/// As `reference_inspect`.
#[no_mangle]
pub unsafe extern "C" fn reference_decode(
    asked: &Asked,
    found: &[u64; NUMBERS],
    output: *mut u8,
    output_length: usize,
    scratch: *mut u8,
    scratch_length: usize,
) -> Told {
    let output = from_raw_parts_mut(output, output_length);
    let scratch = from_raw_parts_mut(scratch, scratch_length);
    let record = Record::from_numbers(found);
    told(calls::decode(asked.file(), &record, output, scratch, asked.budget), 0)
}

/// # Safety
/// As `reference_inspect`.
#[no_mangle]
pub unsafe extern "C" fn reference_settle(
    asked: &Asked,
    output: *mut u8,
    output_length: usize,
) -> Told {
    let output = from_raw_parts_mut(output, output_length);
    let (answer, length) = calls::settle(asked.file(), &asked.limits(), asked.budget, output);
    told(answer, length)
}
