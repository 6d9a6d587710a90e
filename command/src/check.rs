//! `check`: whether each file is accepted.

use crate::answer::{Answer, Status, Trouble};
use crate::progress::{Phase, Phases};
use crate::source::{Content, Source};
use crate::{run, words};
use tillsparrow::{Colour, Limits, Record};

pub fn run(sources: &[Source], jobs: usize) -> Status {
    run::each(sources, jobs, |_, source, phases| {
        Answer::from(accepted(source, phases).map(|(_, record)| line(source, &record).into_bytes()))
    })
}

fn line(source: &Source, record: &Record) -> String {
    let Record { width, height, channels, .. } = record;
    let many = if *channels == 1 { "" } else { "s" };
    format!("{}: accepted: {width} x {height}, {channels} channel{many}\n", source.shown())
}

/// The bytes of a file that the library accepts, and its record.
pub fn accepted(source: &Source, phases: &Phases) -> Result<(Content, Record), Trouble> {
    phases.enter(Phase::Reading);
    let bytes = source.read()?;
    phases.enter(Phase::Checking);
    match tillsparrow::inspect(&bytes, Colour::RedGreenBlue, Limits::NONE, u64::MAX) {
        Ok(seen) => Ok((bytes, seen.record)),
        Err(refused) => Err(words::refusal(&refused, &bytes)),
    }
}
