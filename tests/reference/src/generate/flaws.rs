//! Finds careless symbols in files, for the checks on the generator.

use super::careless::{self, Place};
use super::plan::Segment;
use super::tables;
use crate::random::Random;

/// Where the table of a careless symbol stands.
pub const PLACES: [&str; 4] = ["used", "unused", "replaced in its segment", "replaced later"];

/// A symbol that makes its table careless.
pub struct Flaw {
    pub class: usize,
    pub place: &'static str,
    pub symbols: Vec<u8>,
    /// Its place among the symbols.
    pub at: usize,
    counts: Vec<u8>,
    /// Where the symbols start in the file.
    start: usize,
}

impl Flaw {
    /// The earlier place of the same symbol.
    pub fn twin(&self) -> Option<usize> {
        self.symbols[..self.at].iter().position(|&symbol| symbol == self.symbols[self.at])
    }

    pub fn kind(&self) -> &'static str {
        match (self.class, self.twin()) {
            (0, Some(_)) => "DC symbol twice",
            (0, None) => "DC above 11",
            (_, Some(_)) => "AC symbol twice",
            (_, None) => "AC never taken",
        }
    }

    /// The length of the code at this place among the symbols.
    pub fn length(&self, at: usize) -> usize {
        let mut before = 0;
        let reaches = |&count: &u8| {
            before += usize::from(count);
            before > at
        };
        1 + self.counts.iter().position(reaches).expect("every symbol has a code")
    }

    /// The file with a symbol in place of this one that the table may list, if any is left.
    pub fn mended(&self, file: &[u8]) -> Option<Vec<u8>> {
        let symbol = careless::spare(self.class as u8, &self.symbols, &mut Random::new(0))?;
        let mut file = file.to_vec();
        file[self.start + self.at] = symbol;
        Some(file)
    }
}

/// The segments up to the scan's, and where their bodies start. One that is cut counts as far
/// as it goes.
fn segments(file: &[u8]) -> (Vec<Segment>, Vec<usize>) {
    let (mut list, mut starts, mut at) = (Vec::new(), Vec::new(), 2);
    loop {
        while file.get(at + 1) == Some(&255) {
            at += 1;
        }
        let Some(&[255, code, high, low]) = file.get(at..at + 4) else {
            return (list, starts);
        };
        let end = at + 2 + 256 * usize::from(high) + usize::from(low);
        let Some(body) = file.get(at + 4..end.min(file.len())) else {
            return (list, starts);
        };
        list.push(Segment::new(code, body.to_vec()));
        starts.push(at + 4);
        if code == 218 {
            return (list, starts);
        }
        at = end;
    }
}

fn symbols(segments: &[Segment], place: &Place) -> Vec<u8> {
    segments[place.segment].body[place.at + 17..place.at + 17 + place.symbols].to_vec()
}

fn class_and_id(segments: &[Segment], place: &Place) -> u8 {
    segments[place.segment].body[place.at]
}

/// Class and symbols of every table of class 0 or 1.
pub fn tables(file: &[u8]) -> Vec<(usize, Vec<u8>)> {
    let (segments, _) = segments(file);
    let places = careless::places(&segments);
    let each = places.iter().map(|place| {
        let class = usize::from(class_and_id(&segments, place) / 16);
        (class, symbols(&segments, place))
    });
    each.filter(|&(class, _)| class < 2).collect()
}

/// Every careless symbol of the tables of class 0 and 1.
pub fn flaws(file: &[u8]) -> Vec<Flaw> {
    let (segments, starts) = segments(file);
    let places = careless::places(&segments);
    let mut list = Vec::new();
    for (number, place) in places.iter().enumerate() {
        let class = class_and_id(&segments, place) / 16;
        if class > 1 {
            continue;
        }
        let symbols = symbols(&segments, place);
        let usable = tables::usable(class);
        for at in 0..symbols.len() {
            if symbols[..at].contains(&symbols[at]) || !usable.contains(&symbols[at]) {
                list.push(Flaw {
                    class: class.into(),
                    place: stands(&segments, &places[number..]),
                    symbols: symbols.clone(),
                    at,
                    counts: segments[place.segment].body[place.at + 1..place.at + 17].to_vec(),
                    start: starts[place.segment] + place.at + 17,
                });
            }
        }
    }
    list
}

/// Which of `PLACES` the first of these tables has.
fn stands(segments: &[Segment], places: &[Place]) -> &'static str {
    let name = class_and_id(segments, &places[0]);
    let same = |place: &&Place| class_and_id(segments, place) == name;
    match places[1..].iter().find(same) {
        Some(later) if later.segment == places[0].segment => PLACES[2],
        Some(_) => PLACES[3],
        None if careless::named(segments, name / 16).contains(&(name % 16)) => PLACES[0],
        None => PLACES[1],
    }
}
