//! The generator of cases: the same ones for the same seed and part.

mod bounds;
mod breaks;
mod careless;
mod coder;
mod damage;
mod draft;
mod faults;
pub mod files;
mod plan;
pub mod sampling;
mod tables;

#[cfg(test)]
mod coverage;
#[cfg(test)]
mod fills;
#[cfg(test)]
mod flaws;
#[cfg(test)]
mod reasons;
#[cfg(test)]
mod shapes;
#[cfg(test)]
mod tests;

use crate::cases::{Case, DECODE_GIVEN, DECODE_OWN, INSPECT, MOST, SETTLE};
use crate::layout;
use crate::random::Random;
use crate::record::{Record, NUMBERS};
use bounds::{Bounds, Facts};
use std::io::{self, Write};

/// Writes so many cases.
pub fn write(count: u64, seed: u64, part: u64, output: &mut dyn Write) -> io::Result<()> {
    let mut generator = Generator::of_part(seed, part);
    for _ in 0..count {
        output.write_all(&generator.next().bytes())?;
    }
    Ok(())
}

/// A stream of cases without end.
pub struct Generator {
    random: Random,
    waiting: Vec<Case>,
    /// Records of files met before.
    records: Vec<Record>,
    /// The next shape of those that are dealt in turn, how many were, and of how many cases.
    turn: u64,
    dealt: u64,
    made: u64,
}

/// One shape is dealt for so many cases: in a part of 100,000 nearly a thousand of the 1965, of
/// which the next part leaves 983 behind. So two parts deal all of them.
const CASES_A_SHAPE: u64 = 100;
const TURNS_A_PART: u64 = 983;

impl Generator {
    pub fn new(random: Random) -> Generator {
        let records = vec![Record::default()];
        Generator { random, waiting: Vec::new(), records, turn: 0, dealt: 0, made: 0 }
    }

    /// Parts go on with the shapes that those before them leave.
    fn of_part(seed: u64, part: u64) -> Generator {
        let first = Random::new(seed).next() % sampling::SHAPES;
        let turn = first + part % sampling::SHAPES * TURNS_A_PART;
        Generator { turn, ..Generator::new(Random::of_part(seed, part)) }
    }

    pub fn next(&mut self) -> Case {
        loop {
            if let Some(case) = self.waiting.pop() {
                self.made += 1;
                return case;
            }
            if self.dealt * CASES_A_SHAPE <= self.made {
                self.deal();
            } else {
                self.group();
            }
            self.waiting.reverse();
        }
    }

    /// A file of the next shape: its record, its picture, its settled form.
    fn deal(&mut self) {
        let file = files::of_shape(&mut self.random, sampling::dealt(self.turn));
        (self.turn, self.dealt) = (self.turn + 1, self.dealt + 1);
        let facts = Facts::of(file);
        for job in [INSPECT, DECODE_OWN, SETTLE] {
            let bounds = Bounds::of(&facts, job, None, &mut self.random);
            let colour = self.random.between(0, 1);
            let numbers = bounds.enough.map(|enough| enough[0]);
            self.waiting.push(Bounds::case(job, colour, numbers, &facts, None));
        }
    }

    /// The cases of one group of files.
    fn group(&mut self) {
        let mut first = None;
        for file in files::group(&mut self.random) {
            let facts = Facts::of(file);
            let large = facts.blocks() > 300 || facts.file.len() > 6000;
            if !large && self.random.chance(1, 60) {
                self.sweep(&facts);
            } else {
                self.chosen(&facts, first.as_ref(), large);
            }
            if first.is_none() {
                first = facts.head.clone();
            }
            if let Some(head) = facts.head {
                self.keep(head);
            }
        }
    }

    /// Keeps the records of eight files.
    fn keep(&mut self, head: Record) {
        if self.records.len() < 8 {
            self.records.push(head);
        } else {
            let at = self.random.below(8);
            self.records[at] = head;
        }
    }

    /// A few cases of each job at random.
    fn chosen(&mut self, facts: &Facts, first: Option<&Record>, large: bool) {
        for job in [INSPECT, DECODE_OWN, SETTLE, DECODE_GIVEN] {
            let (low, high) = match (large, facts.accepted, job) {
                (true, ..) => (1, 1),
                (_, true, _) => (2, 4),
                (_, _, INSPECT | SETTLE) => (1, 2),
                // A damaged head, while the record from before the damage is at hand.
                (_, _, DECODE_GIVEN) if facts.head.is_none() && first.is_some() => (1, 2),
                _ => (0, 1),
            };
            let count = self.random.between(low, high);
            for _ in 0..count {
                let given = (job == DECODE_GIVEN).then(|| self.given(facts, first));
                self.one(facts, job, given.as_ref());
            }
        }
    }

    /// One case: none, one or some of its numbers away from what lets everything pass.
    fn one(&mut self, facts: &Facts, job: u64, given: Option<&Record>) {
        let random = &mut self.random;
        let bounds = Bounds::of(facts, job, given, random);
        let exact = random.chance(1, 2);
        let mut numbers =
            bounds.enough.map(|enough| enough[usize::from(!exact && random.chance(2, 3))]);
        for _ in 0..random.pick(&[0, 0, 1, 1, 1, 2, 3]) {
            let which = random.pick(knobs(job));
            numbers[which] = random.pick(&bounds.tries[which]);
        }
        if random.chance(1, 500) {
            numbers[random.pick(&[4, 5])] = MOST;
        }
        let colour = random.between(0, 1);
        self.waiting.push(Bounds::case(job, colour, numbers, facts, given));
    }

    /// Every boundary of one file, and every field of its record changed.
    fn sweep(&mut self, facts: &Facts) {
        for job in [INSPECT, DECODE_OWN, SETTLE, DECODE_GIVEN] {
            let given = facts.head.clone().filter(|_| job == DECODE_GIVEN);
            if job == DECODE_GIVEN && given.is_none() {
                continue;
            }
            let bounds = Bounds::of(facts, job, given.as_ref(), &mut self.random);
            for &which in knobs(job) {
                for &value in &bounds.tries[which] {
                    let mut numbers = bounds.enough.map(|enough| enough[0]);
                    numbers[which] = value;
                    let colour = self.random.between(0, 1);
                    self.waiting.push(Bounds::case(job, colour, numbers, facts, given.as_ref()));
                }
            }
        }
        if let Some(head) = &facts.head {
            for field in 0..NUMBERS {
                let changed = change_field(&mut self.random, head, field);
                self.one(facts, DECODE_GIVEN, Some(&changed));
            }
        }
    }

    /// A record for job 4.
    fn given(&mut self, facts: &Facts, first: Option<&Record>) -> Record {
        let random = &mut self.random;
        let own = facts.head.as_ref().or(first).cloned();
        let own = own.unwrap_or_else(|| random_of(random, &self.records));
        let mut record = match random.below(12) {
            0..=2 => own,
            3..=5 => {
                let field = random.below(NUMBERS);
                change_field(random, &own, field)
            }
            6 => Record::default(),
            7 => absurd(random),
            8 => first.cloned().unwrap_or(own),
            9 => random_of(random, &self.records),
            _ => misshapen(random, own),
        };
        record.colour = random.between(0, 1);
        record
    }
}

/// The numbers of a case that matter for a job.
fn knobs(job: u64) -> &'static [usize] {
    match job {
        INSPECT => &[0, 1, 2, 3],
        SETTLE => &[0, 1, 2, 3, 3, 4, 4],
        _ => &[3, 3, 4, 5],
    }
}

fn random_of(random: &mut Random, records: &[Record]) -> Record {
    records[random.below(records.len())].clone()
}

/// One field changed; the colour choice stays 0 or 1.
fn change_field(random: &mut Random, record: &Record, field: usize) -> Record {
    let mut numbers = record.numbers();
    let old = numbers[field];
    let any = random.next();
    numbers[field] = random.pick(&[
        old.wrapping_add(1),
        old.wrapping_add(1),
        old.wrapping_sub(1),
        old ^ 1,
        0,
        u64::MAX,
        old.wrapping_add(1 << 32),
        old.wrapping_add(256),
        any,
    ]);
    numbers[NUMBERS - 1] %= 2;
    Record::from_numbers(&numbers)
}

/// Numbers from nowhere, with lengths and work that sometimes let decode go on.
fn absurd(random: &mut Random) -> Record {
    let mut numbers: [u64; NUMBERS] = std::array::from_fn(|_| random.next() >> random.below(64));
    if random.chance(1, 2) {
        (numbers[42], numbers[43]) = (random.between(0, 900), random.between(0, 900));
    }
    if random.chance(1, 2) {
        numbers[44] = random.pick(&[0, 5000, u64::MAX, u64::MAX - 300]);
    }
    numbers[NUMBERS - 1] %= 2;
    Record::from_numbers(&numbers)
}

/// Other factors: one of them, both of a channel or of two channels exchanged, or those of
/// another shape; often with the lengths and the work that belong to them.
fn misshapen(random: &mut Random, mut record: Record) -> Record {
    let channels = record.channels.clamp(1, 4) as usize;
    let (a, b) = (random.below(4), random.below(channels));
    let factor = random.between(0, 5);
    match random.below(6) {
        0 => record.across[a] = factor,
        1 => record.down[a] = factor,
        2 => std::mem::swap(&mut record.across[b], &mut record.down[b]),
        3 => {
            record.across.swap(a, b);
            record.down.swap(a, b);
        }
        4 if channels < 4 => {
            let behind = channels + random.below(4 - channels);
            (record.across[behind], record.down[behind]) = (1, 1);
        }
        _ => {
            let factors = sampling::factors(random, channels);
            for (channel, both) in factors.into_iter().enumerate() {
                (record.across[channel], record.down[channel]) = both;
            }
        }
    }
    let sound = |factors: &[u64; 4]| factors[..channels].iter().all(|&factor| factor > 0);
    if sound(&record.across) && sound(&record.down) && random.chance(1, 2) {
        layout::measure(&mut record);
    }
    record
}
