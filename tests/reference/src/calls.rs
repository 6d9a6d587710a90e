//! The three calls: their order of refusals and what each takes from the budget.

use crate::header;
use crate::layout;
use crate::record::Record;
use crate::scan::{self, Broken};
use crate::settle as settling;
use crate::transform;

pub const UNLIMITED: u64 = u64::MAX;

#[derive(Clone, Copy, Debug, PartialEq, Eq)]
pub struct Limits {
    pub input: u64,
    pub side: u64,
    pub output: u64,
}

impl Limits {
    pub const NONE: Limits = Limits { input: UNLIMITED, side: UNLIMITED, output: UNLIMITED };
}

/// A refusal number (0 is success) and what is left of the budget. Where inspect or settle met
/// a fault in the scan, also the block and the place that it names; else both are 0.
#[derive(Clone, Copy, Debug, PartialEq, Eq)]
pub struct Answer {
    pub number: u8,
    pub left: u64,
    pub block: u64,
    pub place: u64,
}

impl Answer {
    /// An answer that names no block.
    fn unnamed(number: u8, left: u64) -> Answer {
        Answer { number, left, block: 0, place: 0 }
    }
}

fn refuse<T: Default>(number: u8, left: u64) -> (Answer, T) {
    (Answer::unnamed(number, left), T::default())
}

fn accept<T>(left: u64, value: T) -> (Answer, T) {
    (Answer::unnamed(0, left), value)
}

/// 2n + 1 as a whole number.
pub fn header_price(file: &[u8]) -> u128 {
    2 * file.len() as u128 + 1
}

/// Inspect, in order: 1; 2 for 2n+1; the header 3/4/5; 6; 2 for work; the scan, 3/4/10/11.
pub fn inspect(file: &[u8], colour: u64, limits: &Limits, budget: u64) -> (Answer, Record) {
    let price = header_price(file);
    if file.len() as u128 > u128::from(limits.input) || price > u128::from(u64::MAX) {
        return refuse(1, budget);
    }
    if u128::from(budget) < price {
        return refuse(2, budget);
    }
    let left = budget - price as u64;
    let record = match header::read(file, colour) {
        Ok(record) => record,
        Err(number) => return refuse(number, left),
    };
    if above_limits(&record, limits) {
        return refuse(6, left);
    }
    if left < record.work {
        return refuse(2, left);
    }
    let left = left - record.work;
    match scan::read(file, &record, &mut |_, _, _| {}) {
        Ok(()) => accept(left, record),
        Err(Broken { number, block, place }) => {
            (Answer { number, left, block, place }, Record::default())
        }
    }
}

/// Number 6: "width or height above the side limit, or 64 x blocks or output bytes above
/// the output limit".
fn above_limits(record: &Record, limits: &Limits) -> bool {
    record.width > limits.side
        || record.height > limits.side
        || record.scratch > limits.output
        || record.output > limits.output
}

/// Decode, in order: 7 by the record's lengths; 2 for 2n+1 and its work; 8.
pub fn decode(
    file: &[u8],
    record: &Record,
    output: &mut [u8],
    scratch: &mut [u8],
    budget: u64,
) -> Answer {
    if (output.len() as u64) < record.output || (scratch.len() as u64) < record.scratch {
        return Answer::unnamed(7, budget);
    }
    let price = header_price(file) + u128::from(record.work);
    if u128::from(budget) < price {
        return Answer::unnamed(2, budget);
    }
    let left = budget - price as u64;
    // "Limits set aside and with the record's colour choice."
    let samples = match header::read(file, record.colour) {
        Ok(own) if own == *record => block_samples(file, record),
        _ => None,
    };
    let Some(samples) = samples else {
        return Answer::unnamed(8, left);
    };
    let picture = layout::picture(record, &samples);
    scratch[..samples.len()].copy_from_slice(&samples);
    output[..picture.len()].copy_from_slice(&picture);
    Answer::unnamed(0, left)
}

/// "Each block's 64 samples are written at their own part of the scratch." `None` for a
/// fault in the scan.
fn block_samples(file: &[u8], record: &Record) -> Option<Vec<u8>> {
    let table = transform::basis_table();
    let mut samples = Vec::new();
    scan::read(file, record, &mut |block, channel, levels| {
        let at = record.quantizers[record.quantizer_ids[channel] as usize] as usize;
        let coefficients = transform::coefficients(levels, &file[at..at + 64]);
        assert_eq!(samples.len() as u64, 64 * block);
        samples.extend(transform::samples(&table, &coefficients));
    })
    .ok()?;
    Some(samples)
}

/// Settle: as inspect, then 9, then 7, which also returns the length needed.
pub fn settle(file: &[u8], limits: &Limits, budget: u64, buffer: &mut [u8]) -> (Answer, u64) {
    let (answer, record) = inspect(file, 0, limits, budget);
    if answer.number != 0 {
        return (answer, 0);
    }
    let Some(settled) = settling::settled(file, &record) else {
        return refuse(9, answer.left);
    };
    let length = settled.len() as u64;
    if buffer.len() < settled.len() {
        return (Answer::unnamed(7, answer.left), length);
    }
    buffer[..settled.len()].copy_from_slice(&settled);
    accept(answer.left, length)
}
