//! Compares two runs of answers to the same cases.

use crate::broken::{self, Place};
use crate::cases::Case;
use crate::fill;
use crate::record::MOST_CHANNELS;
use crate::shapes::{self, Rule, RULES};
use std::fs::{self, File};
use std::io::{self, BufRead, BufReader, Lines};

/// So many differences are shown.
const SHOWN: u64 = 5;

type FileLines = Lines<BufReader<File>>;

/// Cases whose file has fill in its scan, and how many of them were accepted.
#[derive(Default)]
struct Filled {
    cases: u64,
    accepted: u64,
}

impl Filled {
    fn count(&mut self, case: &Case, line: &str) {
        if fill::stands_in(&case.file) {
            self.cases += 1;
            self.accepted += u64::from(line.split(' ').nth(1) == Some("0"));
        }
    }

    fn show(&self) {
        let refused = self.cases - self.accepted;
        println!(
            "fill in the scan: {} cases, {} accepted, {refused} refused",
            self.cases, self.accepted
        );
    }
}

/// Cases of inspect and settle whose scan broke, by number and by block.
#[derive(Default)]
struct Broken {
    cases: u64,
    numbers: [u64; 4],
    first: u64,
    behind_restart: u64,
    end: u64,
}

impl Broken {
    const NUMBERS: [u64; 4] = [3, 4, 10, 11];

    fn count(&mut self, case: &Case, line: &str) {
        let Some((number, place)) = broken::told(case, line) else {
            return;
        };
        self.cases += 1;
        for (known, count) in Broken::NUMBERS.iter().zip(&mut self.numbers) {
            *count += u64::from(*known == number);
        }
        match place {
            Place::First => self.first += 1,
            Place::BehindRestart => self.behind_restart += 1,
            Place::End => self.end += 1,
            Place::Elsewhere => {}
        }
    }

    fn show(&self) {
        print!("broken scans: {} cases", self.cases);
        for (number, count) in Broken::NUMBERS.iter().zip(self.numbers) {
            print!(", {count} refused {number}");
        }
        println!(
            ", {} at block 0, {} behind a restart, {} at the end",
            self.first, self.behind_restart, self.end
        );
    }
}

/// Cases whose header gives a record, by channels, and those whose frame is refused, by the
/// rules that it breaks.
#[derive(Default)]
struct Channels {
    cases: [u64; MOST_CHANNELS],
    refused: [u64; RULES.len()],
}

impl Channels {
    fn count(&mut self, case: &Case) {
        if let Some(shape) = shapes::of(&case.file) {
            self.cases[shape.len() - 1] += 1;
        }
        let broken = shapes::broken(&case.file);
        for (rule, count) in RULES.iter().zip(&mut self.refused) {
            *count += u64::from(broken.contains(rule));
        }
    }

    fn show(&self) {
        let [one, two, three, four] = self.cases;
        println!(
            "channels: one in {one} cases, two in {two} cases, three in {three} cases, \
             four in {four} cases"
        );
        let words = RULES.iter().zip(self.refused).map(|(rule, count)| {
            let why = match rule {
                Rule::None => "no channel",
                Rule::TooMany => "too many channels",
                Rule::Factor => "a factor outside 1 to 4",
                Rule::Blocks => "more than ten blocks",
                Rule::Ids => "equal ids",
            };
            format!("{count} for {why}")
        });
        println!("frames refused: {}", words.collect::<Vec<_>>().join(", "));
    }
}

/// True if every line agrees. Prints how many did, or the first differences.
pub fn run(a: &str, b: &str, cases: &str) -> io::Result<bool> {
    let mut a = BufReader::new(File::open(a)?).lines();
    let mut b = BufReader::new(File::open(b)?).lines();
    let mut input = BufReader::new(File::open(cases)?);
    let (mut index, mut different) = (0, 0);
    let (mut filled, mut broken) = (Filled::default(), Broken::default());
    let mut channels = Channels::default();
    while let Ok(case) = Case::read(&mut input)? {
        let (left, right) = (next(&mut a)?, next(&mut b)?);
        filled.count(&case, left.as_deref().unwrap_or(""));
        broken.count(&case, left.as_deref().unwrap_or(""));
        channels.count(&case);
        if left != right || left.is_none() {
            different += 1;
            show(index, left, right, &case, cases)?;
            if different == SHOWN {
                return Ok(false);
            }
        }
        index += 1;
    }
    let (left, right) = (next(&mut a)?, next(&mut b)?);
    if left.is_some() || right.is_some() {
        println!("lines after the last case: {left:?} {right:?}");
        different += 1;
    }
    if different == 0 {
        println!("{index} lines agreed");
        filled.show();
        broken.show();
        channels.show();
    }
    Ok(different == 0)
}

fn next(lines: &mut FileLines) -> io::Result<Option<String>> {
    lines.next().transpose()
}

/// Prints a difference and keeps the case and its file beside the cases.
fn show(
    index: u64,
    left: Option<String>,
    right: Option<String>,
    case: &Case,
    cases: &str,
) -> io::Result<()> {
    let file = format!("{cases}.{index}.jpg");
    let whole = format!("{cases}.{index}.case");
    fs::write(&file, &case.file)?;
    fs::write(&whole, case.bytes())?;
    let line = |line: Option<String>| line.unwrap_or("(no line)".to_string());
    println!("case {index} differs");
    println!("  first  {}", line(left));
    println!("  second {}", line(right));
    println!("  its file is in {file}, the whole case in {whole}");
    let limits = case.limits;
    println!(
        "  job {} colour {} limits {} {} {} budget {} rooms {} {} n {}",
        case.job,
        case.colour,
        limits.input,
        limits.side,
        limits.output,
        case.budget,
        case.room,
        case.scratch_room,
        case.file.len()
    );
    Ok(())
}
