//! Checks on generated files: valid ones are accepted, settling is steady, every
//! refusal number comes up.

use super::coder::Coded;
use super::draft::Draft;
use super::faults::{Fault, FAULTS};
use super::plan::Plan;
use super::*;
use crate::answer;
use crate::calls::{self, Limits, UNLIMITED};
use crate::header;
use crate::scan;

fn inspect(file: &[u8]) -> (u8, Record) {
    let (answer, record) = calls::inspect(file, 1, &Limits::NONE, UNLIMITED);
    (answer.number, record)
}

fn levels(file: &[u8], record: &Record) -> Vec<scan::Levels> {
    let mut all = Vec::new();
    scan::read(file, record, &mut |_, _, levels| all.push(*levels)).unwrap();
    all
}

#[test]
fn valid_files_are_accepted() {
    let mut random = Random::new(11);
    for _ in 0..3000 {
        let (plan, file) = files::valid(&mut random);
        let (number, record) = inspect(&file);
        assert_eq!(number, 0);
        assert_eq!((record.width, record.height), (plan.shape.width, plan.shape.height));
        assert_eq!(record.interval, plan.shape.interval);
    }
}

#[test]
fn settling_keeps_the_levels_and_is_steady() {
    let (mut random, mut settled_count) = (Random::new(12), 0);
    for _ in 0..3000 {
        let (_, file) = files::valid(&mut random);
        let (_, record) = inspect(&file);
        let settle =
            |file: &[u8], buffer: &mut [u8]| calls::settle(file, &Limits::NONE, UNLIMITED, buffer);
        let mut buffer = vec![0; 2 * file.len() + 100 * record.blocks as usize];
        let (answer, length) = settle(&file, &mut buffer);
        if answer.number == 9 {
            continue;
        }
        assert_eq!(answer.number, 0);
        let once = buffer[..length as usize].to_vec();
        let (number, again) = inspect(&once);
        assert_eq!((number, &again), (0, &record));
        assert_eq!(levels(&once, &again), levels(&file, &record));
        let (answer, length) = settle(&once, &mut buffer);
        assert_eq!((answer.number, length), (0, once.len() as u64));
        assert_eq!(buffer[..length as usize], once);
        settled_count += 1;
    }
    assert!(settled_count > 1500);
}

/// The numbers that a fault gives.
fn numbers(fault: Fault) -> &'static [u8] {
    match fault {
        Fault::NoCode => &[11],
        Fault::NoCodeThenEnd => &[3, 10, 11],
        // Its field may be cut off.
        Fault::Beyond => &[3, 4, 10],
        Fault::Bare | Fault::Stuffing | Fault::FillInBlock | Fault::FillUnstuffed => &[10],
        Fault::RestartNotDue => &[10],
        // The end in place of a block, or of the restart before it.
        Fault::EarlyEnd => &[4, 10],
        _ => &[4],
    }
}

/// The number of a file with this head and scan; where it breaks, its place is the one that the
/// writer of the scan noted for that block.
fn number_of(plan: &Plan, coded: &Coded) -> u8 {
    let file = Draft::new(plan, coded.bytes.clone()).bytes();
    let (answer, _) = calls::inspect(&file, 0, &Limits::NONE, UNLIMITED);
    if answer.number != 0 {
        let head = file.len() - coded.bytes.len();
        let start = coded.start(answer.block as usize);
        assert_eq!(answer.place as usize, head + start, "block {}", answer.block);
    }
    answer.number
}

#[test]
fn faults_are_refused() {
    let mut random = Random::new(13);
    for fault in FAULTS {
        let (mut came, mut refused, mut seen) = (0, 0, Vec::new());
        for _ in 0..200 {
            let (plan, coded) = files::faulty_with(&mut random, fault);
            let number = number_of(&plan, &coded);
            let expected = number == 0 || coded.came && numbers(fault).contains(&number);
            assert!(expected, "{fault:?} gives {number}");
            came += u32::from(coded.came);
            refused += u32::from(number != 0);
            seen.push(number);
        }
        assert!(came >= 100, "{fault:?} came about {came} times");
        let steady = fault == Fault::Carried || refused == came;
        assert!(steady || refused * 10 > came * 8, "{fault:?}: {refused} of {came}");
        assert!(numbers(fault).iter().all(|number| seen.contains(number)), "{fault:?}: {seen:?}");
    }
}

#[test]
fn twins_have_the_record_of_the_first_or_are_refused() {
    let (mut random, mut refused) = (Random::new(16), 0);
    for _ in 0..1000 {
        let group = files::twins(&mut random);
        let (number, record) = inspect(&group[0]);
        assert_eq!(number, 0);
        for twin in &group[1..] {
            assert_eq!(twin.len(), group[0].len());
            match header::read(twin, 1) {
                Ok(own) => assert_eq!(own, record),
                Err(number) => {
                    assert_eq!(number, 4);
                    refused += 1;
                }
            }
        }
    }
    assert!(refused >= 1000, "{refused} refused");
}

#[test]
fn every_number_comes_up_in_its_jobs() {
    let mut generator = Generator::new(Random::new(14));
    let mut seen = [[0u32; 12]; 5];
    for _ in 0..60_000 {
        let line = answer::line(&generator.next());
        let mut words = line.split(' ').map(|word| word.parse::<u64>().unwrap());
        let (job, number) = (words.next().unwrap(), words.next().unwrap());
        seen[job as usize][number as usize] += 1;
    }
    let expected: [&[usize]; 5] = [
        &[],
        &[0, 1, 2, 3, 4, 5, 6, 10, 11],
        &[0, 2, 7, 8],
        &[0, 1, 2, 3, 4, 5, 6, 7, 9, 10, 11],
        &[0, 2, 7, 8],
    ];
    for job in 1..5 {
        for (number, &times) in seen[job].iter().enumerate() {
            let wanted = expected[job].contains(&number);
            let enough = if wanted { times >= 50 } else { times == 0 };
            assert!(enough, "job {job} number {number}: {times}");
        }
    }
}

#[test]
fn the_same_seed_gives_the_same_cases() {
    let run = |seed, part| {
        let mut bytes = Vec::new();
        write(500, seed, part, &mut bytes).unwrap();
        bytes
    };
    assert!(run(1, 0) == run(1, 0));
    assert!(run(1, 0) != run(1, 1));
    assert!(run(1, 0) != run(2, 0));
}

#[test]
fn cases_stay_within_their_bounds() {
    let mut generator = Generator::new(Random::new(15));
    for _ in 0..30_000 {
        let case = generator.next();
        let bytes = case.bytes();
        let back = Case::read(&mut &bytes[..]).unwrap();
        assert!(back == Ok(case));
    }
}
