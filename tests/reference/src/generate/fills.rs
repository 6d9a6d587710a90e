//! That fill comes up in every way, where it may stand and where not, and that it changes
//! nothing but the length of a file.

use super::coverage::{each_ten_times, either, note, Seen};
use super::{files, Generator};
use crate::answer;
use crate::calls::{self, Limits, UNLIMITED};
use crate::fill;
use crate::header;
use crate::random::Random;
use crate::record::Record;

/// The bytes behind the header.
fn scan(file: &[u8]) -> Option<&[u8]> {
    let record = header::read(file, 0).ok()?;
    Some(&file[record.first_coded as usize..])
}

/// Where two or more 255s stand in a row in these bytes, and how many.
fn rows(bytes: &[u8]) -> Vec<(usize, usize)> {
    let (mut list, mut at) = (Vec::new(), 0);
    while at < bytes.len() {
        let count = bytes[at..].iter().take_while(|&&byte| byte == 255).count();
        if count > 1 {
            list.push((at, count));
        }
        at += count.max(1);
    }
    list
}

fn inspect(file: &[u8]) -> (u8, Record) {
    let (answer, record) = calls::inspect(file, 0, &Limits::NONE, UNLIMITED);
    (answer.number, record)
}

fn strings(list: &[&str]) -> Vec<String> {
    list.iter().map(|what| what.to_string()).collect()
}

/// How much fill before which marker a valid scan has, and behind what.
fn look(scan: &[u8], seen: &mut Seen) {
    for (at, count) in rows(scan) {
        let amount = match count - 1 {
            1 => "1",
            2 => "2",
            3 => "3",
            4..=99 => "tens",
            100..=999 => "hundreds",
            _ => "thousands",
        };
        let marker = if scan[at + count] == 217 { "217" } else { "a restart" };
        note(seen, &format!("{amount} before {marker}"));
        let stuffed = scan[..at].ends_with(&[255, 0]);
        either(seen, stuffed, &format!("behind 255 0 before {marker}"), "behind another byte");
    }
}

#[test]
fn valid_files_hold_fill() {
    let (mut random, mut seen) = (Random::new(31), Seen::new());
    for _ in 0..4000 {
        let (_, file) = files::valid(&mut random);
        look(scan(&file).unwrap(), &mut seen);
        either(&mut seen, fill::stands_in(&file), "fill", "no fill");
    }
    let mut wanted = Vec::new();
    for marker in ["a restart", "217"] {
        let amounts = ["1", "2", "3", "tens", "hundreds", "behind 255 0"];
        wanted.extend(amounts.map(|amount| format!("{amount} before {marker}")));
    }
    each_ten_times(&wanted, &seen);
    // A good share with it, and a good share without.
    let (with, without) = (seen["fill"], seen["no fill"]);
    assert!(with > 1000 && without > 1000, "{with} with fill, {without} without");
}

#[test]
fn fill_changes_nothing_but_the_length() {
    let (mut random, mut filled, mut settled) = (Random::new(32), 0, 0);
    for _ in 0..3000 {
        let (_, file) = files::valid(&mut random);
        let Some(plain) = fill::without(&file) else {
            assert!(!fill::stands_in(&file) && rows(scan(&file).unwrap()).is_empty());
            continue;
        };
        filled += 1;
        assert!(fill::stands_in(&file) && !fill::stands_in(&plain));
        let (number, record) = inspect(&file);
        assert_eq!((number, &record), (0, &inspect(&plain).1));
        let samples = |file: &[u8]| {
            let mut output = vec![0; record.output as usize];
            let mut scratch = vec![0; record.scratch as usize];
            let answer = calls::decode(file, &record, &mut output, &mut scratch, UNLIMITED);
            assert_eq!(answer.number, 0);
            (output, scratch)
        };
        assert!(samples(&file) == samples(&plain));
        let settle = |file: &[u8]| {
            let mut buffer = vec![0; 2 * plain.len() + 100 * record.blocks as usize];
            let (answer, length) = calls::settle(file, &Limits::NONE, UNLIMITED, &mut buffer);
            (answer.number, buffer[..length as usize].to_vec())
        };
        let (number, once) = settle(&file);
        assert!(settle(&plain) == (number, once.clone()));
        if number == 0 {
            assert!(once != file && !fill::stands_in(&once) && settle(&once) == (0, once.clone()));
            settled += 1;
        }
    }
    assert!(filled > 700 && settled > 350, "{filled} with fill, {settled} of them settled");
}

/// What stands around the 255s in a row of a refused scan.
fn look_at_refused(scan: &[u8], seen: &mut Seen) {
    for (at, count) in rows(scan) {
        let next = match scan.get(at + count) {
            None => "the end of the file",
            Some(0) => "0",
            Some(1..=191) => "data",
            Some(208..=215) => "a restart",
            Some(217) => "217",
            Some(_) => "another code",
        };
        note(seen, &format!("fill, then {next}"));
        let before = match scan[..at] {
            [] => "nothing",
            [.., 255, 217] => "217",
            [.., 255, 208..=215] => "a restart",
            _ => "data",
        };
        note(seen, &format!("{before}, then fill"));
    }
}

#[test]
fn wrong_fill_comes_up() {
    let (mut random, mut seen) = (Random::new(33), Seen::new());
    for _ in 0..20_000 {
        for file in files::group(&mut random) {
            let refused = inspect(&file).0 != 0;
            if let Some(scan) = scan(&file).filter(|_| refused) {
                look_at_refused(scan, &mut seen);
            }
        }
    }
    let wanted = [
        "fill, then the end of the file",
        "fill, then 0",
        "fill, then data",
        "fill, then a restart",
        "fill, then 217",
        "fill, then another code",
        "nothing, then fill",
        "217, then fill",
        "a restart, then fill",
        "data, then fill",
    ];
    each_ten_times(&strings(&wanted), &seen);
}

/// Whether a restart stands behind fill.
fn before_restart(file: &[u8]) -> bool {
    let scan = scan(file).unwrap_or_default();
    rows(scan).iter().any(|(at, count)| matches!(scan.get(at + count), Some(208..=215)))
}

#[test]
fn fill_comes_up_in_every_job() {
    let (mut generator, mut seen) = (Generator::new(Random::new(34)), Seen::new());
    for _ in 0..20_000 {
        let case = generator.next();
        let line = answer::line(&case);
        let words: Vec<&str> = line.split(' ').collect();
        if !fill::stands_in(&case.file) {
            continue;
        }
        note(&mut seen, &format!("job {} number {}", words[0], words[1]));
        if before_restart(&case.file) {
            note(&mut seen, &format!("job {} number {}, restart", words[0], words[1]));
        }
    }
    let mut wanted = Vec::new();
    for (job, refused) in [(1, 4), (1, 10), (2, 8), (3, 4), (3, 10), (4, 8)] {
        for number in [0, refused] {
            wanted.push(format!("job {job} number {number}"));
            wanted.push(format!("job {job} number {number}, restart"));
        }
    }
    each_ten_times(&wanted, &seen);
}
