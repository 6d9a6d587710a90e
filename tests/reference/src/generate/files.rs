//! Random files: valid, with one fault in the scan, with a scan that breaks at a chosen block,
//! with a damaged head, with damaged bytes; and now and then any of these with a careless table
//! besides.

use super::breaks::Break;
use super::careless;
use super::coder::{self, Coded};
use super::damage;
use super::draft::Draft;
use super::faults::{Fault, FAULTS};
use super::plan::{self, Plan, Segment};
use super::sampling::Factors;
use crate::cases::MOST;
use crate::fill;
use crate::random::Random;

/// Files made from one head; the first one's record may be tried on the others.
pub type Group = Vec<Vec<u8>>;

/// A random group whose files are short enough for a case.
pub fn group(random: &mut Random) -> Group {
    loop {
        let group = match random.between(1, 100) {
            1..=29 => valid_group(random),
            30..=32 => twins(random),
            33..=49 => vec![faulty(random)],
            50..=57 => broken(random),
            58..=91 => vec![damaged_head(random)],
            92..=98 => vec![damaged_bytes(random)],
            _ => vec![scrap(random)],
        };
        if group.iter().all(|file| file.len() as u64 <= MOST) {
            return group;
        }
    }
}

/// A valid file with its plan.
pub fn valid(random: &mut Random) -> (Plan, Vec<u8>) {
    let plan = plan::plan(random);
    let scan = coder::scan(&plan.shape, random, None).bytes;
    let file = Draft::new(&plan, scan).bytes();
    (plan, file)
}

/// A valid file of one shape, with few blocks.
pub fn of_shape(random: &mut Random, factors: &Factors) -> Vec<u8> {
    loop {
        let plan = plan::shaped(random, factors.clone());
        if plan.shape.mcus() <= 6 {
            let scan = coder::scan(&plan.shape, random, None).bytes;
            return Draft::new(&plan, scan).bytes();
        }
    }
}

fn valid_group(random: &mut Random) -> Group {
    let (plan, file) = valid(random);
    let mut group = vec![file];
    // Fill is in no record: that of the first is the other's too.
    if random.chance(1, 4) {
        group.extend(fill::without(&group[0]));
    }
    while random.chance(1, 3) && group.len() < 4 {
        group.push(sibling(random, &plan));
    }
    group
}

/// A valid file, and files that differ from it in one symbol of a table, mostly a careless
/// one: the record of the first would be theirs too.
pub fn twins(random: &mut Random) -> Group {
    let plan = plan::plan(random);
    let scan = coder::scan(&plan.shape, random, None).bytes;
    let mut draft = Draft::new(&plan, scan);
    let place = careless::prepare(&mut draft.segments, random).expect("a plan has tables");
    let mut group = vec![draft.bytes()];
    for _ in 0..random.between(1, 3) {
        let mut twin = draft.clone();
        careless::spoil(&mut twin.segments, place, random);
        group.push(twin.bytes());
    }
    group
}

/// Spoils a table of one file in forty, whatever else is wrong with it.
fn sometimes_careless(random: &mut Random, draft: &mut Draft) {
    if random.chance(1, 40) {
        careless::one(&mut draft.segments, random);
    }
}

/// Another file with the same head, or nearly the same.
fn sibling(random: &mut Random, plan: &Plan) -> Vec<u8> {
    let fault = random.chance(1, 4).then(|| random.pick(&FAULTS));
    let mut plan = plan.clone();
    let change = random.below(7);
    for segment in &mut plan.segments {
        change_unrecorded(random, segment, change);
    }
    if change == 4 {
        plan.segments.insert(0, Segment::new(254, vec![]));
    }
    let scan = coder::scan(&plan.shape, random, fault).bytes;
    Draft::new(&plan, scan).bytes()
}

/// What the record does not hold: 192 against 193, quantizer values, skipped bodies.
fn change_unrecorded(random: &mut Random, segment: &mut Segment, change: usize) {
    match (change, segment.code) {
        (1, 192 | 193) => segment.code ^= 1,
        (2, 219) => {
            let at = random.between(1, 64) as usize;
            segment.body[at] = random.between(1, 255) as u8;
        }
        (3, 224..=239 | 254) => segment.body.fill(random.byte()),
        (5, 221) => segment.body[1] ^= 1,
        _ => {}
    }
}

/// A file with one fault in its scan; a few heads are tried until it comes about.
fn faulty(random: &mut Random) -> Vec<u8> {
    // Those of a symbol more often: few others give their numbers inside a block.
    let symbols = [Fault::NoCode, Fault::NoCodeThenEnd, Fault::RunPast, Fault::SkipPast];
    let list = if random.chance(1, 3) { &symbols[..] } else { &FAULTS };
    let fault = random.pick(list);
    let (plan, coded) = faulty_with(random, fault);
    let mut draft = Draft::new(&plan, coded.bytes);
    sometimes_careless(random, &mut draft);
    draft.bytes()
}

/// The head and the scan, with the fault unless it did not come about.
pub fn faulty_with(random: &mut Random, fault: Fault) -> (Plan, Coded) {
    let mut tries = 8;
    loop {
        let plan = often_restarted(random);
        let coded = coder::scan(&plan.shape, random, Some(fault));
        tries -= 1;
        if coded.came || tries == 0 {
            return (plan, coded);
        }
    }
}

/// A head whose scan has restarts more often than others: a fault right behind one is told as
/// before it.
fn often_restarted(random: &mut Random) -> Plan {
    let plan = plan::plan(random);
    if plan.shape.restarts() > 0 || random.chance(1, 2) {
        return plan;
    }
    plan::plan(random)
}

/// Files with one head and one scan, which breaks at another block in each.
fn broken(random: &mut Random) -> Group {
    let plan = often_restarted(random);
    let coded = coder::scan(&plan.shape, random, None);
    let mut group = Vec::new();
    for _ in 0..random.between(1, 3) {
        let (_, chosen) = Break::of(&coded, &plan.shape, random);
        let scan = chosen.bytes(&coded);
        let mut draft = Draft::new(&plan, scan);
        sometimes_careless(random, &mut draft);
        group.push(draft.bytes());
    }
    group
}

/// A file on which nothing is wrong but, now and then, a careless table.
fn to_damage(random: &mut Random) -> Draft {
    let plan = plan::plan(random);
    let scan = coder::scan(&plan.shape, random, None).bytes;
    let mut draft = Draft::new(&plan, scan);
    sometimes_careless(random, &mut draft);
    draft
}

fn damaged_head(random: &mut Random) -> Vec<u8> {
    let mut draft = to_damage(random);
    damage::head(&mut draft, random);
    draft.bytes()
}

fn damaged_bytes(random: &mut Random) -> Vec<u8> {
    let draft = to_damage(random);
    let mut file = draft.bytes();
    let head = file.len() - draft.scan.len();
    damage::bytes(&mut file, head, random);
    file
}

/// A few bytes, mostly markers.
fn scrap(random: &mut Random) -> Vec<u8> {
    let mut file = if random.chance(3, 4) { vec![255, 216] } else { vec![] };
    for _ in 0..random.between(0, 6) {
        let any = random.byte();
        let byte = random
            .pick(&[255, 255, 216, 217, 218, 192, 196, 219, 221, 224, 254, 0, 0, 1, 2, 3, 4, any]);
        file.push(byte);
    }
    file
}
