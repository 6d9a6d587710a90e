//! `settle`: the one settled form of each file.

use crate::answer::{Answer, Status, Trouble};
use crate::output::Output;
use crate::place::{Naming, Out, Places};
use crate::progress::{Phase, Phases};
use crate::source::Source;
use crate::{run, words};
use std::io::Write;

/// What is asked for.
pub struct Wish {
    pub sources: Vec<Source>,
    pub out: Out,
    pub jobs: usize,
    pub force: bool,
}

pub fn run(wish: Wish) -> Result<Status, String> {
    let naming = match wish.out {
        Out::Folder(_) => Naming::Own,
        _ => Naming::Ending("settled.jpg"),
    };
    let places = Places::new(wish.out, wish.force, &wish.sources, naming)?;
    Ok(run::each(&wish.sources, wish.jobs, |i, source, phases| {
        Answer::from(settle(&places, naming, i, source, phases).map(|()| Vec::new()))
    }))
}

fn settle(
    places: &Places,
    naming: Naming,
    i: usize,
    source: &Source,
    phases: &Phases,
) -> Result<(), Trouble> {
    source.look()?;
    let place = places.of(i, source, naming)?;
    places.is_free(&place)?;
    phases.enter(Phase::Reading);
    let bytes = source.read()?;
    phases.enter(Phase::Settling);
    let settled =
        tillsparrow::settled(&bytes).map_err(|refused| words::refusal(&refused, &bytes))?;
    places.is_no_input(&place)?;
    phases.enter(Phase::Writing);
    let unwritten = |error| Trouble::Failed(words::unwritten(&place.shown(), &error));
    let mut output = Output::open(&place, places.replace).map_err(unwritten)?;
    let written = output.write_all(&settled);
    output.finish(written).map_err(unwritten)
}
