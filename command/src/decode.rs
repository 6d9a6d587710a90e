//! `decode`: the picture of each file.

use crate::answer::{Answer, Status, Trouble};
use crate::form::Form;
use crate::memory::Memory;
use crate::output::Output;
use crate::place::{Naming, Out, Place, Places};
use crate::progress::{Phase, Phases};
use crate::source::Source;
use crate::{form, run, words};
use tillsparrow::{Colour, Limits};

/// What is asked for.
pub struct Wish {
    pub sources: Vec<Source>,
    pub out: Out,
    /// By -f or by the ending of a single output.
    pub form: Option<Form>,
    pub colour: Colour,
    pub jobs: usize,
    pub force: bool,
}

pub fn run(wish: Wish) -> Result<Status, String> {
    // Which ending is taken here does not matter: all outputs of a call have the same one. With pnm they
    // have one of two; a grey picture and one in colour then count as alike where they differ in that alone.
    let places = Places::new(wish.out, wish.force, &wish.sources, Naming::Ending("png"))?;
    let memory = Memory::of_this_computer();
    let decoder = Decoder { places, form: wish.form, colour: wish.colour, memory };
    Ok(run::each(&wish.sources, wish.jobs, |i, source, phases| {
        match decoder.decode(i, source, phases) {
            Ok(remark) => Answer { remark, ..Answer::default() },
            Err(trouble) => Answer::from(Err(trouble)),
        }
    }))
}

struct Decoder {
    places: Places,
    form: Option<Form>,
    colour: Colour,
    memory: Memory,
}

impl Decoder {
    /// What is to be said of the picture, where it is not written as one.
    fn decode(
        &self,
        i: usize,
        source: &Source,
        phases: &Phases,
    ) -> Result<Option<String>, Trouble> {
        source.look()?;
        let before = self.places.of(i, source, Naming::Ending("png"))?;
        let form =
            self.form.unwrap_or(if before == Place::Standard { Form::Pnm } else { Form::Png });
        if let Some(ending) = form.ending() {
            // What need not be done is not begun.
            self.places.is_free(&self.places.of(i, source, Naming::Ending(ending))?)?;
        }
        phases.enter(Phase::Reading);
        let bytes = source.read()?;
        phases.enter(Phase::Checking);
        let seen = tillsparrow::inspect(&bytes, self.colour, Limits::NONE, u64::MAX);
        let record = seen.map_err(|refused| words::refusal(&refused, &bytes))?.record;
        let form =
            form.for_channels(record.channels).map_err(|line| Trouble::Failed(line.to_string()))?;
        let place = self.places.of(i, source, Naming::Ending(form.name()))?;
        self.places.is_no_input(&place)?;
        self.places.is_free(&place)?;
        let unwritten = |error| Trouble::Failed(words::unwritten(&place.shown(), &error));
        let mut output = Output::open(&place, self.places.replace).map_err(unwritten)?;
        let share = self.memory.take(record.output.saturating_add(record.scratch));
        let _share = share.ok_or_else(words::no_memory)?;
        phases.enter(Phase::Decoding);
        let picture = tillsparrow::read_inspected(&bytes, &record)
            .map_err(|refused| words::refusal(&refused, &bytes))?;
        drop(bytes);
        phases.enter(Phase::Writing);
        let written = form.write(&picture, &mut output);
        output.finish(written).map_err(unwritten)?;
        Ok(form::is_beside(picture.channels).then(|| words::beside(picture.channels)))
    }
}
