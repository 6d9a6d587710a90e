//! Careless tables: Huffman tables that the rules refuse for one of their symbols, and their
//! accepted neighbours.

use super::plan::Segment;
use super::tables;
use crate::huffman;
use crate::random::Random;

/// A table in a list of segments: its segment, where in the body its class and id stand, and
/// how many symbols it has.
#[derive(Clone, Copy)]
pub struct Place {
    pub segment: usize,
    pub at: usize,
    pub symbols: usize,
}

/// The tables of all Huffman segments, as far as they stand whole in them.
pub fn places(segments: &[Segment]) -> Vec<Place> {
    let mut list = Vec::new();
    for (segment, Segment { body, .. }) in
        segments.iter().enumerate().filter(|(_, segment)| segment.code == 196)
    {
        let mut at = 0;
        while body.len() >= at + 17 {
            let symbols = huffman::total(&body[at + 1..]);
            if body.len() < at + 17 + symbols {
                break;
            }
            if symbols > 0 {
                list.push(Place { segment, at, symbols });
            }
            at += 17 + symbols;
        }
    }
    list
}

/// The table ids of this class that the scan's segment names.
pub fn named(segments: &[Segment], class: u8) -> Vec<u8> {
    let scan = segments.iter().find(|segment| segment.code == 218);
    let bytes = scan.map_or(&[][..], |scan| &scan.body);
    let channels = bytes.len().saturating_sub(4) / 2;
    let ids = (0..channels).map(|channel| bytes[2 + 2 * channel]);
    ids.map(|ids| if class == 0 { ids / 16 } else { ids % 16 }).collect()
}

/// One symbol around a boundary, in a table that is used, unused or replaced; which one.
pub fn one(segments: &mut Vec<Segment>, random: &mut Random) -> Option<Place> {
    let place = prepare(segments, random)?;
    spoil(segments, place, random);
    Some(place)
}

/// The table to spoil: one that stands there, or a copy put in before it that is replaced
/// by it or has an id that the scan does not name. A valid file stays valid.
pub fn prepare(segments: &mut Vec<Segment>, random: &mut Random) -> Option<Place> {
    let places = places(segments);
    if places.is_empty() {
        return None;
    }
    let mut place = random.pick(&places);
    let kind = random.below(4);
    if kind < 2 {
        let body = &segments[place.segment].body;
        let mut copy = body[place.at..place.at + 17 + place.symbols].to_vec();
        if kind == 0 {
            copy[0] = unused(segments, copy[0], random);
        }
        put_before(segments, &mut place, copy, random);
    }
    if random.chance(1, 2) {
        grow(&mut segments[place.segment].body, &mut place, random);
    }
    Some(place)
}

/// The class of a table with an id that the scan does not name.
fn unused(segments: &[Segment], class_and_id: u8, random: &mut Random) -> u8 {
    let class = class_and_id / 16;
    let named = named(segments, class);
    let free: Vec<u8> = (0..4).filter(|id| !named.contains(id)).collect();
    if free.is_empty() {
        return class_and_id;
    }
    16 * class + random.pick(&free)
}

/// Puts a table in front of another, in its segment or in one of its own.
fn put_before(segments: &mut Vec<Segment>, place: &mut Place, table: Vec<u8>, random: &mut Random) {
    if random.chance(1, 2) {
        segments[place.segment].body.splice(place.at..place.at, table);
    } else {
        (place.segment, place.at) = (random.below(place.segment + 1), 0);
        segments.insert(place.segment, Segment::new(196, table));
    }
}

/// Gives a table one more symbol behind all others, whose codes stay as they are.
fn grow(body: &mut Vec<u8>, place: &mut Place, random: &mut Random) {
    let (counts, symbols) = (place.at + 1, place.at + 17);
    let end = symbols + place.symbols;
    let last = (0..16).rfind(|&length| body[counts + length] > 0).unwrap_or(0);
    let any = random.between(last as u64, 15) as usize;
    let length = random.pick(&[last, any, 15]);
    let mut more = body[counts..symbols].to_vec();
    more[length] = more[length].saturating_add(1);
    let fits = huffman::fits(&more) && huffman::total(&more) == place.symbols + 1;
    let Some(symbol) = spare(body[place.at] / 16, &body[symbols..end], random) else {
        return;
    };
    if fits {
        body[counts..symbols].copy_from_slice(&more);
        body.insert(end, symbol);
        place.symbols += 1;
    }
}

/// A usable symbol that is not yet listed, if there is one left.
pub fn spare(class: u8, listed: &[u8], random: &mut Random) -> Option<u8> {
    let mut left = tables::usable(class);
    left.retain(|symbol| !listed.contains(symbol));
    (!left.is_empty()).then(|| random.pick(&left))
}

/// Changes one symbol of a table: to another one of its own, or to one around a boundary.
pub fn spoil(segments: &mut [Segment], place: Place, random: &mut Random) {
    let body = &mut segments[place.segment].body;
    let class = body[place.at] / 16;
    let symbols = &mut body[place.at + 17..place.at + 17 + place.symbols];
    let last = symbols.len() - 1;
    if last > 0 && random.chance(1, 2) {
        let (one, other) = two_places(random, last);
        symbols[one] = symbols[other];
    } else {
        // The last one may be new, so that the scan does without it.
        let at = if random.chance(1, 2) { last } else { random.below(last + 1) };
        symbols[at] = if class == 0 { dc_edge(random) } else { ac_edge(random) };
    }
}

/// Two places up to `last`: neighbours, the first and the last, or any.
fn two_places(random: &mut Random, last: usize) -> (usize, usize) {
    let first = random.below(last);
    let (one, other) = match random.below(3) {
        0 => (first, first + 1),
        1 => (0, last),
        _ => (first, random.between(first as u64 + 1, last as u64) as usize),
    };
    if random.chance(1, 2) {
        (one, other)
    } else {
        (other, one)
    }
}

fn dc_edge(random: &mut Random) -> u8 {
    let above = random.between(12, 255) as u8;
    random.pick(&[11, 11, 12, 12, 15, 16, 255, above])
}

fn ac_edge(random: &mut Random) -> u8 {
    let no_size = 16 * random.between(1, 14) as u8;
    let large = (16 * random.between(0, 15) + random.between(11, 15)) as u8;
    let known = random.pick(&[11, 16, 224, 251]);
    let taken = random.pick(&[10, 240, 250]);
    random.pick(&[no_size, no_size, no_size, no_size, no_size, large, large, large, known, taken])
}
