//! That every shape comes up, that frames break each rule about channels and factors alone, and
//! that given records have wrong factors in every channel.

use super::coverage::{each_ten_times, note, Seen};
use super::draft::Draft;
use super::{damage, files, plan, sampling, Generator};
use crate::answer;
use crate::header;
use crate::random::Random;
use crate::record::Record;
use crate::shapes::{self, Rule};
use std::collections::BTreeSet;

#[test]
fn every_shape_comes_up() {
    let mut random = Random::new(51);
    let mut seen = BTreeSet::new();
    for _ in 0..120_000 {
        seen.insert(plan::plan(&mut random).shape.factors);
    }
    let all: BTreeSet<_> = (1..=4).flat_map(sampling::all).cloned().collect();
    assert_eq!(all.len(), 1965);
    assert!(seen == all, "{} of {}", seen.len(), all.len());
}

#[test]
fn valid_files_have_the_shape_of_their_plan() {
    let (mut random, mut seen) = (Random::new(52), Seen::new());
    for _ in 0..3000 {
        let (plan, file) = files::valid(&mut random);
        assert_eq!(shapes::of(&file), Some(plan.shape.factors.clone()));
        assert!(shapes::broken(&file).is_empty());
        note(&mut seen, &format!("{} channels", plan.shape.factors.len()));
        let factors = &plan.shape.factors;
        let most = |channel: usize| factors.iter().all(|other| other.0 <= factors[channel].0);
        if !most(0) {
            note(&mut seen, "the widest is not the first");
        }
        if factors
            .iter()
            .any(|one| factors.iter().any(|other| other.0 % one.0 * (one.0 % other.0) > 0))
        {
            note(&mut seen, "across does not divide");
        }
        if sampling::blocks(factors) == 10 {
            note(&mut seen, "ten blocks");
        }
        if plan.shape.restarts() > 0 {
            note(&mut seen, &format!("{} channels, restarts", plan.shape.factors.len()));
        }
    }
    let mut wanted: Vec<String> =
        ["the widest is not the first", "across does not divide", "ten blocks"]
            .map(String::from)
            .to_vec();
    wanted.extend((1..=4).map(|channels| format!("{channels} channels")));
    wanted.extend((1..=4).map(|channels| format!("{channels} channels, restarts")));
    each_ten_times(&wanted, &seen);
    (1..=4).for_each(|channels| assert!(seen[&format!("{channels} channels")] > 300, "{seen:?}"));
}

/// The file with a frame and a scan of as many channels as may be that break no rule: factors
/// 1 x 1, ids from 1.
fn mended(file: &[u8]) -> Option<Vec<u8>> {
    let (start, end) = shapes::frame(file)?;
    let count = usize::from(file[start + 9]).clamp(1, 4);
    let mut frame = file[start..start + 10].to_vec();
    for channel in 0..count {
        let quantizer =
            file.get(start + 12 + 3 * channel).filter(|_| start + 12 + 3 * channel < end);
        frame.extend([channel as u8 + 1, 0x11, quantizer.copied().unwrap_or(0)]);
    }
    frame[9] = count as u8;
    frame[2..4].copy_from_slice(&(8 + 3 * count as u16).to_be_bytes());
    Some([&file[..start], &frame, &file[end..]].concat())
}

/// The frame's components, as many as stand whole in it: id and sampling byte.
fn components(file: &[u8]) -> Vec<(u8, u8)> {
    let (start, end) = shapes::frame(file).expect("a frame was refused");
    let components = file[start + 10..end].chunks_exact(3);
    components.map(|component| (component[0], component[1])).collect()
}

/// What is wrong with a frame that breaks one rule alone.
fn look(file: &[u8], rule: Rule, seen: &mut Seen) {
    let components = components(file);
    let channels = components.len();
    match rule {
        Rule::None => note(seen, "no channel"),
        Rule::TooMany => note(seen, &format!("{channels} channels")),
        Rule::Factor => {
            for (channel, &(_, byte)) in components.iter().enumerate() {
                for (what, factor) in [("across", byte / 16), ("down", byte % 16)] {
                    let kind = match factor {
                        0 => "0",
                        1..=4 => continue,
                        5 => "5",
                        _ => "more",
                    };
                    note(seen, &format!("{what} {kind} in channel {channel} of {channels}"));
                }
            }
        }
        Rule::Blocks => {
            let factors: Vec<(u64, u64)> = components
                .iter()
                .map(|&(_, byte)| ((byte / 16).into(), (byte % 16).into()))
                .collect();
            let blocks = sampling::blocks(&factors);
            let blocks = if blocks > 12 { "more".into() } else { blocks.to_string() };
            note(seen, &format!("{blocks} blocks of {channels}"));
        }
        Rule::Ids => {
            let id = |channel: usize| components[channel].0;
            if channels > 2 && (1..channels).all(|channel| id(channel) == id(0)) {
                note(seen, &format!("all ids equal of {channels}"));
                return;
            }
            for b in 0..channels {
                for a in (0..b).filter(|&a| id(a) == id(b)) {
                    note(seen, &format!("ids {a} and {b} equal of {channels}"));
                }
            }
        }
    }
}

/// All that must come up at least ten times.
fn wanted() -> Vec<String> {
    let mut list: Vec<String> =
        ["no channel", "5 channels", "6 channels", "255 channels"].map(String::from).to_vec();
    for channels in 1..=4 {
        for channel in 0..channels {
            for what in ["across", "down"] {
                let kinds = ["0", "5", "more"];
                let text = |kind| format!("{what} {kind} in channel {channel} of {channels}");
                list.extend(kinds.map(text));
            }
            let pair = |a| format!("ids {a} and {channel} equal of {channels}");
            list.extend((0..channel).map(pair));
        }
        if channels > 1 {
            let blocks = ["11", "12", "more"];
            list.extend(blocks.map(|blocks| format!("{blocks} blocks of {channels}")));
        }
        if channels > 2 {
            list.push(format!("all ids equal of {channels}"));
        }
    }
    list
}

/// Heads alone, without a scan's data: the header is read no further.
#[test]
fn frames_break_each_rule_alone() {
    let (mut random, mut seen) = (Random::new(53), Seen::new());
    for _ in 0..120_000 {
        let mut draft = Draft::new(&plan::plan(&mut random), Vec::new());
        damage::head(&mut draft, &mut random);
        let file = draft.bytes();
        let [rule] = shapes::broken(&file)[..] else {
            continue;
        };
        assert_eq!(header::read(&file, 0), Err(5));
        // With a frame that is in order it is not the frame any more.
        let mended = mended(&file).expect("there is a frame");
        if shapes::broken(&mended).is_empty() && header::read(&mended, 0) != Err(5) {
            look(&file, rule, &mut seen);
        }
    }
    each_ten_times(&wanted(), &seen);
}

/// Of which channels a given record has other factors than the file's own, where all else but
/// the lengths and the work is the same.
fn other_factors(own: &Record, given: &Record) -> Vec<(usize, &'static str)> {
    let mut same = given.clone();
    (same.across, same.down) = (own.across, own.down);
    (same.blocks, same.scratch) = (own.blocks, own.scratch);
    (same.output, same.work) = (own.output, own.work);
    if same != *own {
        return Vec::new();
    }
    let mut list = Vec::new();
    for channel in 0..4 {
        if own.across[channel] != given.across[channel] {
            list.push((channel, "across"));
        }
        if own.down[channel] != given.down[channel] {
            list.push((channel, "down"));
        }
    }
    list
}

#[test]
fn given_records_have_wrong_factors() {
    let (mut generator, mut seen) = (Generator::new(Random::new(54)), Seen::new());
    for _ in 0..150_000 {
        let case = generator.next();
        let Some(given) = &case.record else {
            continue;
        };
        let Ok(own) = header::read(&case.file, given.colour) else {
            continue;
        };
        let others = other_factors(&own, given);
        if others.is_empty() {
            continue;
        }
        let line = answer::line(&case);
        let number = line.split(' ').nth(1).unwrap();
        assert!(["2", "7", "8"].contains(&number), "{line}");
        if number != "8" {
            continue;
        }
        let measured = own.blocks != given.blocks;
        for (channel, what) in &others {
            note(&mut seen, &format!("{what} of channel {channel} of {}", own.channels));
        }
        if measured {
            note(&mut seen, "with lengths of its own");
        } else if others.len() > 1 {
            note(&mut seen, "exchanged");
        }
    }
    let mut wanted = vec!["with lengths of its own".to_string(), "exchanged".to_string()];
    for channels in 1..=4 {
        for channel in 0..4 {
            wanted.push(format!("across of channel {channel} of {channels}"));
            wanted.push(format!("down of channel {channel} of {channels}"));
        }
    }
    each_ten_times(&wanted, &seen);
}
