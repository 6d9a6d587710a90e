//! The values around every boundary that a case of a file has.

use crate::calls::{self, Limits, UNLIMITED};
use crate::cases::{Case, DECODE_GIVEN, DECODE_OWN, INSPECT, MOST, SETTLE};
use crate::header;
use crate::random::Random;
use crate::record::Record;

/// What the boundaries depend on.
pub struct Facts {
    pub file: Vec<u8>,
    /// The header's record, whatever the scan may be.
    pub head: Option<Record>,
    pub accepted: bool,
    pub settled: Option<u64>,
}

impl Facts {
    pub fn of(file: Vec<u8>) -> Facts {
        let head = header::read(&file, 0).ok();
        let (answer, length) = calls::settle(&file, &Limits::NONE, UNLIMITED, &mut []);
        let settled = (answer.number == 7).then_some(length);
        let accepted = [0, 7, 9].contains(&answer.number);
        Facts { file, head, accepted, settled }
    }

    pub fn blocks(&self) -> u64 {
        self.head.as_ref().map_or(0, |head| head.blocks)
    }

    /// The record that decides a decode, or that of the header.
    fn record(&self, job: u64, given: Option<&Record>) -> Record {
        match (job, given) {
            (DECODE_GIVEN, Some(record)) => record.clone(),
            (DECODE_OWN, _) if !self.accepted => Record::default(),
            _ => self.head.clone().unwrap_or_default(),
        }
    }
}

/// For each of the six numbers of a case: what lets everything pass, first the value just
/// enough, then a larger one; and the values worth trying.
pub struct Bounds {
    pub enough: [[u64; 2]; 6],
    pub tries: [Vec<u64>; 6],
}

fn around(value: u64) -> [u64; 3] {
    [value.saturating_sub(1), value, value.saturating_add(1)]
}

fn room(size: u64) -> u64 {
    size.min(MOST)
}

impl Bounds {
    pub fn of(facts: &Facts, job: u64, given: Option<&Record>, random: &mut Random) -> Bounds {
        let record = facts.record(job, given);
        let n = facts.file.len() as u64;
        let header_price = 2 * n + 1;
        let price = header_price.saturating_add(record.work);
        let side = record.width.max(record.height);
        let output = record.scratch.max(record.output);
        let (buffer, scratch) = match job {
            INSPECT => (0, 0),
            SETTLE => (facts.settled.unwrap_or(0), 0),
            _ => (room(record.output), room(record.scratch)),
        };
        let more = |size: u64, random: &mut Random| room(size + random.between(1, 90));
        let huge = huge(random);
        let sides = [around(record.width), around(record.height)].concat();
        let lengths = [around(record.scratch), around(record.output)].concat();
        let prices = [around(header_price), around(price), around(record.work)].concat();
        Bounds {
            enough: [
                [n, UNLIMITED],
                [side, UNLIMITED],
                [output, UNLIMITED],
                [price, UNLIMITED],
                [buffer, more(buffer, random)],
                [scratch, more(scratch, random)],
            ],
            tries: [
                [&around(n)[..], &huge].concat(),
                [&sides[..], &[65535, 65536], &huge].concat(),
                [&lengths[..], &huge].concat(),
                [&prices[..], &prices, &huge].concat(),
                rooms(&[buffer, if job == SETTLE { n } else { buffer }]),
                rooms(&[scratch]),
            ],
        }
    }

    /// A case with these six numbers.
    pub fn case(
        job: u64,
        colour: u64,
        numbers: [u64; 6],
        facts: &Facts,
        given: Option<&Record>,
    ) -> Case {
        let [input, side, output, budget, room, scratch_room] = numbers;
        Case {
            job,
            colour,
            limits: Limits { input, side, output },
            budget,
            room,
            scratch_room,
            file: facts.file.clone(),
            record: given.filter(|_| job == DECODE_GIVEN).cloned(),
        }
    }
}

/// Values at the edges of 64 bits, and one from anywhere.
fn huge(random: &mut Random) -> [u64; 8] {
    let half = 1 << 63;
    [0, 1, UNLIMITED, UNLIMITED - 1, half, half - 1, 1 << 32, random.next()]
}

fn rooms(sizes: &[u64]) -> Vec<u64> {
    let mut list = vec![0];
    for &size in sizes {
        list.extend(around(size).map(room));
    }
    list
}
