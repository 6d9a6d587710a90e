//! The case format: a run of cases, each of big-endian 8-byte numbers and the file's bytes.

use crate::calls::Limits;
use crate::record::{Record, NUMBERS};
use std::io::{self, Read};

/// Rooms and files are at most this long.
pub const MOST: u64 = 262_144;

pub const INSPECT: u64 = 1;
pub const DECODE_OWN: u64 = 2;
pub const SETTLE: u64 = 3;
pub const DECODE_GIVEN: u64 = 4;

#[derive(Clone, Debug, PartialEq, Eq)]
pub struct Case {
    pub job: u64,
    pub colour: u64,
    pub limits: Limits,
    pub budget: u64,
    /// Length of the output or settle buffer.
    pub room: u64,
    pub scratch_room: u64,
    pub file: Vec<u8>,
    /// For job 4 alone.
    pub record: Option<Record>,
}

/// Why no case could be read.
#[derive(Debug, PartialEq, Eq)]
pub enum Stop {
    End,
    Bad,
}

impl Case {
    /// The case as bytes.
    pub fn bytes(&self) -> Vec<u8> {
        let limits = [self.limits.input, self.limits.side, self.limits.output];
        let mut bytes = Vec::with_capacity(72 + self.file.len() + 8 * NUMBERS);
        let mut put = |number: u64| bytes.extend(number.to_be_bytes());
        put(self.job);
        put(self.colour);
        limits.into_iter().for_each(&mut put);
        put(self.budget);
        put(self.room);
        put(self.scratch_room);
        put(self.file.len() as u64);
        bytes.extend(&self.file);
        if let Some(record) = &self.record {
            record.numbers().into_iter().for_each(|number| bytes.extend(number.to_be_bytes()));
        }
        bytes
    }

    /// The next case, or why there is none.
    pub fn read(input: &mut dyn Read) -> io::Result<Result<Case, Stop>> {
        let mut head = [0; 72];
        let got = fill(input, &mut head)?;
        if got == 0 {
            return Ok(Err(Stop::End));
        }
        if got < head.len() {
            return Ok(Err(Stop::Bad));
        }
        let number = |i: usize| u64::from_be_bytes(head[8 * i..8 * i + 8].try_into().unwrap());
        let (job, colour, n) = (number(0), number(1), number(8));
        let (room, scratch_room) = (number(6), number(7));
        let too_large = [room, scratch_room, n].iter().any(|&size| size > MOST);
        if !(1..=4).contains(&job) || colour > 1 || too_large {
            return Ok(Err(Stop::Bad));
        }
        let mut file = vec![0; n as usize];
        if fill(input, &mut file)? < file.len() {
            return Ok(Err(Stop::Bad));
        }
        let limits = Limits { input: number(2), side: number(3), output: number(4) };
        let budget = number(5);
        let mut case = Case { job, colour, limits, budget, room, scratch_room, file, record: None };
        if job == DECODE_GIVEN {
            case.record = read_record(input)?;
            if case.record.is_none() {
                return Ok(Err(Stop::Bad));
            }
        }
        Ok(Ok(case))
    }
}

/// A given record; `None` where it is cut or its colour choice is neither 0 nor 1.
fn read_record(input: &mut dyn Read) -> io::Result<Option<Record>> {
    let mut bytes = [0; 8 * NUMBERS];
    if fill(input, &mut bytes)? < bytes.len() {
        return Ok(None);
    }
    let mut list = [0; NUMBERS];
    for (number, chunk) in list.iter_mut().zip(bytes.chunks(8)) {
        *number = u64::from_be_bytes(chunk.try_into().unwrap());
    }
    let record = Record::from_numbers(&list);
    Ok((record.colour <= 1).then_some(record))
}

/// Reads until the buffer is full or the input ends; how many bytes came.
fn fill(input: &mut dyn Read, buffer: &mut [u8]) -> io::Result<usize> {
    let mut got = 0;
    while got < buffer.len() {
        match input.read(&mut buffer[got..])? {
            0 => break,
            more => got += more,
        }
    }
    Ok(got)
}

#[cfg(test)]
mod tests {
    use super::*;

    fn case(job: u64) -> Case {
        Case {
            job,
            colour: 1,
            limits: Limits { input: 2, side: 3, output: 4 },
            budget: u64::MAX,
            room: 6,
            scratch_room: MOST,
            file: vec![255, 216, 7],
            record: (job == DECODE_GIVEN).then(|| Record { work: 9, ..Record::default() }),
        }
    }

    fn read(bytes: &[u8]) -> Result<Case, Stop> {
        Case::read(&mut &bytes[..]).unwrap()
    }

    #[test]
    fn cases_there_and_back() {
        for job in 1..=4 {
            let case = case(job);
            assert_eq!(read(&case.bytes()), Ok(case));
        }
        assert_eq!(read(&[]), Err(Stop::End));
    }

    #[test]
    fn bad_cases() {
        for job in 1..=4 {
            let bytes = case(job).bytes();
            assert!((1..bytes.len()).all(|cut| read(&bytes[..cut]) == Err(Stop::Bad)));
        }
        let changed = |change: &dyn Fn(&mut Case)| {
            let mut case = case(4);
            change(&mut case);
            read(&case.bytes())
        };
        assert_eq!(changed(&|case| case.job = 0), Err(Stop::Bad));
        assert_eq!(changed(&|case| case.job = 5), Err(Stop::Bad));
        assert_eq!(changed(&|case| case.colour = 2), Err(Stop::Bad));
        assert_eq!(changed(&|case| case.room = MOST + 1), Err(Stop::Bad));
        assert_eq!(changed(&|case| case.scratch_room = MOST + 1), Err(Stop::Bad));
        assert_eq!(changed(&|case| case.file = vec![0; 262_145]), Err(Stop::Bad));
        assert_eq!(changed(&|case| case.record.as_mut().unwrap().colour = 2), Err(Stop::Bad));
    }
}
