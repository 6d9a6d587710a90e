//! One line of answers for each case.

use crate::calls::{self, Answer, Limits, UNLIMITED};
use crate::cases::{self, Case, Stop};
use crate::record::Record;
use std::fmt::Write as _;
use std::io::{self, Read, Write};

/// Answers every case of the input. False if a bad case stopped it.
pub fn all(input: &mut dyn Read, output: &mut dyn Write) -> io::Result<bool> {
    loop {
        match Case::read(input)? {
            Ok(case) => writeln!(output, "{}", line(&case))?,
            Err(Stop::End) => return Ok(true),
            Err(Stop::Bad) => {
                writeln!(output, "bad case")?;
                return Ok(false);
            }
        }
    }
}

/// The line of a case.
pub fn line(case: &Case) -> String {
    match case.job {
        cases::INSPECT => inspect_line(&case.file, case.colour, &case.limits, case.budget),
        cases::DECODE_OWN => {
            let (_, own) = calls::inspect(&case.file, case.colour, &Limits::NONE, UNLIMITED);
            decode_line(case, &own)
        }
        cases::SETTLE => settle_line(case),
        _ => decode_line(case, case.record.as_ref().expect("job 4 has a record")),
    }
}

/// `1 number budget-left block place` and the record.
pub fn inspect_line(file: &[u8], colour: u64, limits: &Limits, budget: u64) -> String {
    let (answer, record) = calls::inspect(file, colour, limits, budget);
    let mut line = naming(1, answer);
    for number in record.numbers() {
        write!(line, " {number}").unwrap();
    }
    line
}

/// `job number budget-left A S`.
fn decode_line(case: &Case, record: &Record) -> String {
    let (mut output, mut scratch) = (output_before(case.room), scratch_before(case.scratch_room));
    let answer = calls::decode(&case.file, record, &mut output, &mut scratch, case.budget);
    format!("{} {} {}", opening(case.job, answer), adler(&output), adler(&scratch))
}

/// `3 number budget-left block place length A`.
fn settle_line(case: &Case) -> String {
    let mut buffer = output_before(case.room);
    let (answer, length) = calls::settle(&case.file, &case.limits, case.budget, &mut buffer);
    format!("{} {length} {}", naming(3, answer), adler(&buffer))
}

/// The opening of a line that names the block and the place of a broken scan.
fn naming(job: u64, answer: Answer) -> String {
    format!("{} {} {}", opening(job, answer), answer.block, answer.place)
}

fn opening(job: u64, answer: Answer) -> String {
    format!("{job} {} {}", answer.number, answer.left)
}

/// The output or settle buffer holds 11i mod 253 at place i.
pub fn output_before(room: u64) -> Vec<u8> {
    (0..room).map(|i| (11 * i % 253) as u8).collect()
}

/// The scratch holds 7i mod 251 at place i.
pub fn scratch_before(room: u64) -> Vec<u8> {
    (0..room).map(|i| (7 * i % 251) as u8).collect()
}

/// The Adler-32 sum.
pub fn adler(bytes: &[u8]) -> u32 {
    let (mut low, mut high) = (1, 0);
    // 5552 bytes keep both sums within 32 bits.
    for chunk in bytes.chunks(5552) {
        for &byte in chunk {
            low += u32::from(byte);
            high += low;
        }
        low %= 65521;
        high %= 65521;
    }
    65536 * high + low
}

#[cfg(test)]
mod tests {
    use super::*;

    #[test]
    fn adler_sums() {
        assert_eq!(adler(b""), 1);
        assert_eq!(adler(b"Wikipedia"), 0x11e6_0398);
        assert_eq!(adler(&[255; 262_144]), {
            let (mut low, mut high) = (1u64, 0u64);
            for _ in 0..262_144 {
                low = (low + 255) % 65521;
                high = (high + low) % 65521;
            }
            (65536 * high + low) as u32
        });
    }

    #[test]
    fn bad_case_stops() {
        let mut lines = Vec::new();
        assert!(!all(&mut &[0u8; 71][..], &mut lines).unwrap());
        assert_eq!(lines, b"bad case\n");
    }
}
