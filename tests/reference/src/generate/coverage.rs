//! That the valid files really hold what they are meant to hold, and that careless tables
//! come up in every way.

use super::flaws::{self, Flaw};
use super::{files, Generator};
use crate::answer;
use crate::bits::{meaning, Bits};
use crate::calls::{self, Limits, UNLIMITED};
use crate::header;
use crate::huffman::{self, Codes};
use crate::layout;
use crate::random::Random;
use crate::record::{Record, MOST_CHANNELS};
use std::collections::BTreeMap;

pub type Seen = BTreeMap<String, u32>;

pub fn note(seen: &mut Seen, what: &str) {
    *seen.entry(what.to_string()).or_default() += 1;
}

/// The next symbol, noting its code's length.
fn symbol(bits: &mut Bits, codes: &Codes, seen: &mut Seen) -> u8 {
    let mut code = 0;
    for length in 1..=16 {
        code = 2 * code + bits.bit().unwrap();
        if let Some(symbol) = codes.symbol(length, code) {
            note(seen, &format!("code of {length} bits"));
            assert_eq!(codes.code(symbol), Some((length as u32, code)));
            return symbol;
        }
    }
    panic!("no code");
}

/// Notes one of two things.
pub fn either(seen: &mut Seen, first: bool, what: &str, other: &str) {
    note(seen, if first { what } else { other });
}

/// Walks one block of a valid file; returns the new predictor.
fn block(bits: &mut Bits, dc: &Codes, ac: &Codes, predictor: i32, seen: &mut Seen) -> i32 {
    let category = u32::from(symbol(bits, dc, seen));
    note(seen, &format!("category {category}"));
    let value = predictor + meaning(category, bits.field(category).unwrap());
    either(seen, value == -2048, "first value -2048", "other first value");
    either(seen, value == 2047, "first value 2047", "other first value");
    let (mut place, mut runs) = (1, 0);
    while place < 64 {
        let symbol = symbol(bits, ac, seen);
        if symbol == 0 {
            either(seen, runs > 0, "end code after 240", "end code");
            return value;
        }
        runs = if symbol == 240 { runs + 1 } else { 0 };
        place += usize::from(symbol / 16) + 1;
        if symbol != 240 {
            note(seen, &format!("size {}", symbol % 16));
            note(seen, &format!("run {}", symbol / 16));
            bits.field(u32::from(symbol % 16)).unwrap();
        }
    }
    either(seen, runs > 0, "240 to place 64", "value at place 63");
    let has_end = ac.code(0).is_some();
    either(seen, has_end, "no end code read", "block of a table without end code");
    value
}

fn walk(file: &[u8], record: &Record, seen: &mut Seen) {
    let mut bits = Bits::new(file, record.first_coded as usize);
    let table = |list: &[u64; 4], id: u64| Codes::at(file, list[id as usize]);
    let channels = 0..record.channels as usize;
    let dc: Vec<Codes> =
        channels.clone().map(|c| table(&record.dc_tables, record.dc_ids[c])).collect();
    let ac: Vec<Codes> = channels.map(|c| table(&record.ac_tables, record.ac_ids[c])).collect();
    let (per_mcu, mut predictors) = (layout::blocks_per_mcu(record), [0; MOST_CHANNELS]);
    for number in 0..record.blocks {
        if number % per_mcu == 0 {
            if let Some(code) = layout::restart_before(record, number / per_mcu) {
                note(seen, &format!("restart {code}"));
                bits.marker(code).unwrap();
                predictors = [0; MOST_CHANNELS];
            }
        }
        let c = layout::channel_of(record, number % per_mcu);
        predictors[c] = block(&mut bits, &dc[c], &ac[c], predictors[c], seen);
    }
}

/// What the bytes show without reading symbols.
fn look(file: &[u8], record: &Record, seen: &mut Seen) {
    let channels = 0..record.channels as usize;
    let factors = channels.map(|c| format!(" {}x{}", record.across[c], record.down[c]));
    note(seen, &format!("{} channels{}", record.channels, factors.collect::<String>()));
    let scan = &file[record.first_coded as usize..];
    if scan.windows(2).any(|pair| pair == [255, 0]) {
        note(seen, "255 in the data");
    }
    if scan.windows(4).any(|four| four[..3] == [255, 0, 255] && four[3] >= 208) {
        note(seen, "255 as the last byte before a marker");
    }
    let (answer, length) = calls::settle(file, &Limits::NONE, UNLIMITED, &mut []);
    let longer = (file.len() as u64).cmp(&length);
    note(seen, &format!("settle {} {longer:?}", answer.number));
    let used: Vec<u64> = (0..record.channels as usize).map(|c| record.quantizer_ids[c]).collect();
    if (0..4).any(|id| record.quantizers[id as usize] != 0 && !used.contains(&id)) {
        note(seen, "unused quantizer");
    }
    let total = |&place: &u64| huffman::total(&file[place as usize..]);
    if record.dc_tables.iter().any(|place| *place != 0 && total(place) == 12) {
        note(seen, "DC table of 12 symbols");
    }
    if record.ac_tables.iter().any(|place| *place != 0 && total(place) == 162) {
        note(seen, "AC table of 162 symbols");
    }
}

/// Everything that must come up at least ten times.
fn wanted() -> Vec<String> {
    let mut list: Vec<String> = [
        "first value -2048",
        "first value 2047",
        "end code",
        "end code after 240",
        "240 to place 64",
        "value at place 63",
        "no end code read",
        "block of a table without end code",
        "255 in the data",
        "255 as the last byte before a marker",
        "unused quantizer",
        "DC table of 12 symbols",
        "AC table of 162 symbols",
        "settle 7 Less",
        "settle 7 Equal",
        "settle 7 Greater",
        "settle 9 Greater",
        "1 channels 1x1",
    ]
    .map(String::from)
    .to_vec();
    list.extend((1..=16).map(|length| format!("code of {length} bits")));
    list.extend((0..=11).map(|category| format!("category {category}")));
    list.extend((1..=10).map(|size| format!("size {size}")));
    list.extend((0..=15).map(|run| format!("run {run}")));
    list.extend((208..=215).map(|code| format!("restart {code}")));
    let first = ["1x1", "1x2", "1x4", "2x1", "2x2", "4x1"];
    list.extend(first.map(|factors| format!("3 channels {factors} 1x1 1x1")));
    let finer = ["2x2 1x2 1x2", "2x2 2x1 2x1", "2x2 1x2 2x1", "1x1 2x2 1x1", "3x1 2x1 1x1"];
    list.extend(finer.map(|factors| format!("3 channels {factors}")));
    let two = ["1x1 1x1", "2x2 1x1", "1x1 2x2", "3x1 2x1", "3x3 1x1"];
    list.extend(two.map(|factors| format!("2 channels {factors}")));
    let four = ["1x1 1x1 1x1 1x1", "2x2 1x1 1x1 2x2", "1x1 2x1 1x1 3x2"];
    list.extend(four.map(|factors| format!("4 channels {factors}")));
    list
}

#[test]
fn valid_files_hold_everything() {
    let (mut random, mut seen) = (Random::new(21), Seen::new());
    for _ in 0..4000 {
        let (_, file) = files::valid(&mut random);
        let (answer, record) = calls::inspect(&file, 0, &Limits::NONE, UNLIMITED);
        assert_eq!(answer.number, 0);
        look(&file, &record, &mut seen);
        walk(&file, &record, &mut seen);
    }
    each_ten_times(&wanted(), &seen);
}

pub fn each_ten_times(wanted: &[String], seen: &Seen) {
    for what in wanted {
        let times = seen.get(what).copied().unwrap_or(0);
        assert!(times >= 10, "{what}: {times} times");
    }
}

/// The header's number, 0 where it gives a record.
fn header_number(file: &[u8]) -> u8 {
    header::read(file, 0).err().unwrap_or(0)
}

/// What one careless symbol is to the file that has it.
fn look_at_flaw(file: &[u8], flaw: &Flaw, seen: &mut Seen) {
    let number = header_number(file);
    let Some(mended) = flaw.mended(file) else {
        // The table lists all symbols of its class.
        if number == 4 {
            note(seen, &format!("one symbol again in a table of {}", flaw.symbols.len()));
        }
        return;
    };
    let otherwise = header_number(&mended);
    assert!(number == 4 || number == otherwise, "{number} where it would be {otherwise}");
    note(seen, &format!("{number} where it would be {otherwise}"));
    if otherwise != 0 {
        return;
    }
    assert_eq!(number, 4);
    let scan = calls::inspect(&mended, 0, &Limits::NONE, UNLIMITED).0.number;
    either(seen, scan == 0, "nothing else is wrong", "the scan is wrong too");
    note(seen, &format!("{}, {}", flaw.kind(), flaw.place));
    match flaw.twin() {
        Some(twin) => {
            let last = flaw.symbols.len() - 1;
            let (one, other) = (flaw.length(twin), flaw.length(flaw.at));
            either(seen, one == other, "twice, at one length", "twice, at two lengths");
            either(seen, twin + 1 == flaw.at, "twice, neighbours", "twice, apart");
            either(seen, (twin, flaw.at) == (0, last), "twice, at both ends", "twice, elsewhere");
        }
        None => {
            let symbol = flaw.symbols[flaw.at];
            note(seen, &format!("{} {symbol}", ["DC", "AC"][flaw.class]));
            note(seen, &format!("{} size {}", ["DC", "AC"][flaw.class], symbol % 16));
        }
    }
}

/// Everything about careless tables that must come up at least ten times.
fn wanted_of_flaws() -> Vec<String> {
    let mut list: Vec<String> = [
        "one symbol again in a table of 13",
        "one symbol again in a table of 163",
        "a table of 256",
        "a table of 257",
        "4 where it would be 0",
        "4 where it would be 3",
        "4 where it would be 4",
        "4 where it would be 5",
        "3 where it would be 3",
        "5 where it would be 5",
        "nothing else is wrong",
        "the scan is wrong too",
        "twice, at one length",
        "twice, at two lengths",
        "twice, neighbours",
        "twice, at both ends",
        "twice, elsewhere",
        "no flaw, DC 11",
        "no flaw, AC 10",
        "no flaw, AC 240",
        "no flaw, AC 250",
    ]
    .map(String::from)
    .to_vec();
    for kind in ["DC symbol twice", "AC symbol twice", "DC above 11", "AC never taken"] {
        list.extend(flaws::PLACES.map(|place| format!("{kind}, {place}")));
    }
    list.extend([12, 15, 16, 255].map(|symbol| format!("DC {symbol}")));
    list.extend((1..=14).map(|run| format!("AC {}", 16 * run)));
    list.extend((11..=15).map(|size| format!("AC size {size}")));
    list.extend([11, 251].map(|symbol| format!("AC {symbol}")));
    list
}

#[test]
fn careless_tables_come_up() {
    let (mut random, mut seen) = (Random::new(22), Seen::new());
    for _ in 0..40_000 {
        for file in files::group(&mut random) {
            let tables = flaws::tables(&file);
            let found = flaws::flaws(&file);
            if let [flaw] = &found[..] {
                look_at_flaw(&file, flaw, &mut seen);
            }
            let refused = header_number(&file);
            for (class, symbols) in tables {
                if found.is_empty() && refused == 0 {
                    let class = ["DC", "AC"][class];
                    symbols.iter().for_each(|s| note(&mut seen, &format!("no flaw, {class} {s}")));
                } else if refused == 4 && symbols.len() > 255 {
                    note(&mut seen, &format!("a table of {}", symbols.len()));
                }
            }
        }
    }
    each_ten_times(&wanted_of_flaws(), &seen);
}

/// The record from before the damage is not the file's: the table is refused when read.
#[test]
fn decode_meets_careless_tables() {
    let (mut generator, mut met) = (Generator::new(Random::new(23)), 0);
    for _ in 0..60_000 {
        let case = generator.next();
        let (Some(record), [flaw]) = (&case.record, &flaws::flaws(&case.file)[..]) else {
            continue;
        };
        let before =
            flaw.mended(&case.file).and_then(|file| header::read(&file, record.colour).ok());
        if before.as_ref() == Some(record) {
            let line = answer::line(&case);
            let number = line.split(' ').nth(1).unwrap();
            assert!(["2", "7", "8"].contains(&number), "{line}");
            met += u32::from(number == "8");
        }
    }
    assert!(met >= 50, "{met} times");
}
