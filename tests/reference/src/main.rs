//! An independent reader of baseline JPEG, written from the rules alone, and the tools to
//! compare another reader with it.

mod answer;
mod bits;
mod broken;
mod calls;
mod cases;
mod compare;
mod fill;
mod generate;
mod header;
mod huffman;
mod layout;
mod picture;
mod random;
mod record;
mod scan;
mod settle;
mod shapes;
mod transform;

#[cfg(test)]
mod bench;

use calls::{Limits, UNLIMITED};
use cases::Case;
use std::fs::File;
use std::io::{self, BufRead, BufReader, BufWriter, Read, Write};
use std::process::ExitCode;

const USAGE: &str = "usage:
  reference answer < cases > lines
  reference generate --cases N --seed S [--part P] > cases
  reference compare A.lines B.lines cases
  reference shapes A.lines cases
  reference header [--colour C] < file
  reference program < file > picture
  reference picture < file > picture
  reference samples [--colour C] < file > bytes
  reference distance A.ppm B.ppm";

fn main() -> ExitCode {
    let words: Vec<String> = std::env::args().skip(1).collect();
    let words: Vec<&str> = words.iter().map(String::as_str).collect();
    match run(&words) {
        Ok(true) => ExitCode::SUCCESS,
        Ok(false) => ExitCode::from(1),
        Err(error) => {
            eprintln!("reference: {error}");
            ExitCode::from(2)
        }
    }
}

/// False is exit status 1.
fn run(words: &[&str]) -> io::Result<bool> {
    let mut output = BufWriter::with_capacity(1 << 16, io::stdout().lock());
    match words {
        ["answer"] => {
            let mut input = BufReader::with_capacity(1 << 16, io::stdin().lock());
            let good = answer::all(&mut input, &mut output)?;
            output.flush()?;
            Ok(good)
        }
        ["generate", options @ ..] => {
            let [count, seed, part] = numbers(options, ["--cases", "--seed", "--part"])?;
            let count = count.ok_or_else(usage)?;
            let seed = seed.ok_or_else(usage)?;
            generate::write(count, seed, part.unwrap_or(0), &mut output)?;
            output.flush().map(|()| true)
        }
        ["compare", a, b, cases] => {
            drop(output);
            compare::run(a, b, cases)
        }
        ["shapes", lines, cases] => show_shapes(lines, cases, &mut output),
        ["header", options @ ..] => {
            let colour = colour(options)?;
            let line = answer::inspect_line(&input()?, colour, &Limits::NONE, UNLIMITED);
            writeln!(output, "{line}").map(|()| true)
        }
        ["program"] => show_picture(&picture::PROGRAM, &mut output),
        ["picture"] => show_picture(&Limits::NONE, &mut output),
        ["samples", options @ ..] => {
            let colour = colour(options)?;
            match picture::samples(&input()?, colour) {
                Ok(samples) => output.write_all(&samples).map(|()| true),
                Err(number) => writeln!(output, "refused {number}").map(|()| false),
            }
        }
        ["distance", a, b] => show_distance(a, b, &mut output),
        _ => Err(usage()),
    }
}

fn usage() -> io::Error {
    io::Error::other(USAGE)
}

/// All of standard input.
fn input() -> io::Result<Vec<u8>> {
    let mut bytes = Vec::new();
    io::stdin().lock().read_to_end(&mut bytes)?;
    Ok(bytes)
}

/// The values of the named options.
fn numbers<const N: usize>(words: &[&str], names: [&str; N]) -> io::Result<[Option<u64>; N]> {
    let mut values = [None; N];
    for pair in words.chunks(2) {
        let place = names.iter().position(|name| *name == pair[0]).ok_or_else(usage)?;
        let value = pair.get(1).and_then(|word| word.parse().ok()).ok_or_else(usage)?;
        values[place] = Some(value);
    }
    Ok(values)
}

/// The colour choice, 1 if it is not given.
fn colour(options: &[&str]) -> io::Result<u64> {
    let [colour] = numbers(options, ["--colour"])?;
    colour.map_or(Ok(1), |colour| if colour > 1 { Err(usage()) } else { Ok(colour) })
}

fn show_picture(limits: &Limits, output: &mut dyn Write) -> io::Result<bool> {
    output.write_all(&picture::written(&input()?, limits)).map(|()| true)
}

/// The shapes of the cases that these lines accept.
fn show_shapes(lines: &str, cases: &str, output: &mut dyn Write) -> io::Result<bool> {
    let mut lines = BufReader::new(File::open(lines)?).lines();
    let mut input = BufReader::new(File::open(cases)?);
    let mut accepted = shapes::Accepted::default();
    while let (Ok(case), Some(line)) = (Case::read(&mut input)?, lines.next().transpose()?) {
        accepted.count(&case, &line);
    }
    for line in accepted.lines() {
        writeln!(output, "{line}")?;
    }
    Ok(true)
}

fn show_distance(a: &str, b: &str, output: &mut dyn Write) -> io::Result<bool> {
    match picture::distance(&std::fs::read(a)?, &std::fs::read(b)?) {
        Some(distance) => writeln!(output, "{distance}").map(|()| true),
        None => writeln!(output, "not of one kind and size").map(|()| false),
    }
}
