//! That scans break for every reason and at every kind of block, and that chosen breaks are told
//! as they were chosen.

use super::breaks::{Break, ONES};
use super::coder::{self, Coded};
use super::coverage::{each_ten_times, either, note, Seen};
use super::draft::Draft;
use super::faults::Fault;
use super::{files, plan, Generator};
use crate::answer;
use crate::broken::{self, Place};
use crate::calls::{self, Answer, Limits, UNLIMITED};
use crate::header;
use crate::layout;
use crate::random::Random;
use crate::record::Record;

const NUMBERS: [u8; 4] = [3, 4, 10, 11];

fn inspect(file: &[u8]) -> Answer {
    calls::inspect(file, 0, &Limits::NONE, UNLIMITED).0
}

/// Behind the marker that stands before this block or at the end; where none does, the block's
/// first byte.
fn behind_marker(coded: &Coded, block: usize) -> usize {
    let start = coded.start(block);
    let rest = &coded.bytes[start..];
    let fill = rest.iter().take_while(|&&byte| byte == 255).count();
    match rest.get(fill) {
        Some(208..=215 | 217) if fill > 0 => start + fill + 1,
        _ => start,
    }
}

/// The numbers that a break may give, by where it is and what stands there.
fn expected(coded: &Coded, block: usize, chosen: &Break) -> &'static [u8] {
    let behind = behind_marker(coded, block);
    let stuffed = coded.bytes[..chosen.at].ends_with(&[255]) && chosen.at > behind;
    match (chosen.tail, chosen.cut) {
        // They may end the block, or make a value that is at fault.
        (tail, _) if tail == ONES => &[],
        ([], _) if chosen.at < behind => &[4],
        ([], _) => &[3],
        // What stands there may be the marker itself, and nothing behind it.
        (_, true) if chosen.at < behind => &[0, 3, 4],
        ([255], true) if !stuffed => &[3],
        // It may be fill or the marker, and behind it what was none is read as data. A single
        // 255 before a 0 of the data looks stuffed.
        (_, false) if chosen.at < behind => &[],
        ([255], false) if coded.bytes[chosen.at] == 0 && !stuffed => &[],
        _ => &[10],
    }
}

#[test]
fn breaks_are_told_as_chosen() {
    let (mut random, mut seen) = (Random::new(41), Seen::new());
    for _ in 0..20_000 {
        let plan = plan::plan(&mut random);
        let coded = coder::scan(&plan.shape, &mut random, None);
        let (block, chosen) = Break::of(&coded, &plan.shape, &mut random);
        let scan = chosen.bytes(&coded);
        let file = Draft::new(&plan, scan.clone()).bytes();
        let answer = inspect(&file);
        let expected = expected(&coded, block, &chosen);
        if answer.number == 0 || expected.is_empty() {
            continue;
        }
        assert!(expected.contains(&answer.number), "{} of {expected:?}", answer.number);
        let place = file.len() - scan.len() + coded.start(block);
        assert_eq!((answer.block, answer.place), (block as u64, place as u64));
        note(&mut seen, &format!("{}, {}", answer.number, what_is_taken(&coded, block)));
    }
    let mut wanted = vec!["3, nothing taken".to_string(), "10, nothing taken".to_string()];
    for number in [3, 4, 10] {
        for bits in ["no bit", "bits"] {
            wanted.push(format!("{number}, {bits} of another byte left"));
            wanted.push(format!("{number}, {bits} of a 255 left"));
        }
    }
    each_ten_times(&wanted, &seen);
}

/// The byte taken last when the block began, and whether bits of it were left.
fn what_is_taken(coded: &Coded, block: usize) -> &'static str {
    let stuffed = coded.bytes[..coded.start(block)].ends_with(&[255, 0]);
    match (coded.begins[block], stuffed) {
        ((0, 0), _) => "nothing taken",
        ((_, 0), true) => "no bit of a 255 left",
        ((_, 0), false) => "no bit of another byte left",
        (_, true) => "bits of a 255 left",
        (_, false) => "bits of another byte left",
    }
}

/// The bytes from a place on are fill and the restart that is due before this block.
fn restart_stands(file: &[u8], record: &Record, answer: &Answer) -> bool {
    let mcu = answer.block / layout::blocks_per_mcu(record);
    let rest = &file[answer.place as usize..];
    let marker = rest.iter().copied().find(|&byte| byte != 255);
    rest.starts_with(&[255]) && marker == layout::restart_before(record, mcu)
}

/// What is known of the block at which a scan broke, besides its number.
fn look(file: &[u8], record: &Record, answer: &Answer) -> Vec<&'static str> {
    let (block, at) = (answer.block, answer.place as usize);
    let per_mcu = layout::blocks_per_mcu(record);
    let mut list = match broken::place(file, block).unwrap() {
        Place::First => vec!["at block 0"],
        Place::End => vec!["at the end"],
        Place::Elsewhere => vec!["elsewhere"],
        Place::BehindRestart if !restart_stands(file, record, answer) => vec!["in a restart"],
        Place::BehindRestart if file[at..].starts_with(&[255, 255]) => {
            vec!["behind a restart", "behind fill and a restart"]
        }
        Place::BehindRestart => vec!["behind a restart"],
    };
    if per_mcu > 1 && block < record.blocks {
        let place = block % per_mcu;
        let last = if place + 1 == per_mcu { "last of an MCU" } else { "middle of an MCU" };
        list.push(if place == 0 { "first of an MCU" } else { last });
    }
    if file[record.first_coded as usize..at].ends_with(&[255, 0]) {
        list.push("behind a stuffed 0");
    }
    if file.len() == at {
        list.push("nothing is left");
    }
    if file.ends_with(&[255]) {
        list.push("255 is last");
    }
    list
}

#[test]
fn every_reason_comes_up_everywhere() {
    let (mut random, mut seen) = (Random::new(42), Seen::new());
    for _ in 0..20_000 {
        for file in files::group(&mut random) {
            let (answer, Ok(record)) = (inspect(&file), header::read(&file, 0)) else {
                continue;
            };
            if answer.number != 0 {
                for what in look(&file, &record, &answer) {
                    note(&mut seen, &format!("{} {what}", answer.number));
                }
            }
        }
    }
    let mut wanted: Vec<String> = vec!["4 at the end".into(), "4 in a restart".into()];
    for number in NUMBERS {
        let places = ["at block 0", "behind a restart", "behind fill and a restart", "elsewhere"];
        wanted.extend(places.map(|place| format!("{number} {place}")));
        let blocks = ["first of an MCU", "middle of an MCU", "last of an MCU"];
        wanted.extend(blocks.map(|block| format!("{number} {block}")));
        wanted.push(format!("{number} behind a stuffed 0"));
        wanted.push(format!("{number} 255 is last"));
    }
    wanted.extend(["3 nothing is left".into(), "4 nothing is left".into()]);
    each_ten_times(&wanted, &seen);
    // Padding, markers and fill have no reason of their own.
    let none = |what: &str| assert_eq!(seen.get(what), None, "{what}");
    for number in [3, 10, 11] {
        none(&format!("{number} at the end"));
        none(&format!("{number} in a restart"));
    }
}

/// Bits that are no code end before the sixteenth or behind it, at the end of the file, at a 255
/// there or at a bare one.
#[test]
fn codes_that_are_none_are_broken_off() {
    let (mut random, mut seen) = (Random::new(43), Seen::new());
    for _ in 0..3000 {
        let (plan, coded) = files::faulty_with(&mut random, Fault::NoCodeThenEnd);
        let file = Draft::new(&plan, coded.bytes).bytes();
        let number = inspect(&file).number;
        let shorter = inspect(&file[..file.len() - 1]).number;
        note(&mut seen, &format!("{number}, a byte less {shorter}"));
        let last = file.ends_with(&[255]);
        either(&mut seen, last, &format!("{number}, then 255"), &format!("{number}, no 255"));
    }
    let wanted = [
        "11, a byte less 3",
        "11, a byte less 11",
        "3, a byte less 3",
        "11, then 255",
        "11, no 255",
        "3, then 255",
        "3, no 255",
        "10, no 255",
    ];
    each_ten_times(&wanted.map(String::from), &seen);
}

#[test]
fn every_reason_comes_up_in_its_jobs() {
    let (mut generator, mut seen) = (Generator::new(Random::new(44)), Seen::new());
    for _ in 0..60_000 {
        let case = generator.next();
        let line = answer::line(&case);
        if let Some((number, place)) = broken::told(&case, &line) {
            note(&mut seen, &format!("job {} {number} {place:?}", case.job));
        }
    }
    let mut wanted = Vec::new();
    for job in [1, 3] {
        for number in NUMBERS {
            let places = [Place::First, Place::BehindRestart, Place::Elsewhere];
            wanted.extend(places.map(|place| format!("job {job} {number} {place:?}")));
        }
        wanted.push(format!("job {job} 4 End"));
    }
    each_ten_times(&wanted, &seen);
    assert_eq!(seen.len(), wanted.len(), "{seen:?}");
}
