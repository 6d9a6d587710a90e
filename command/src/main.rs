//! The command `tillsparrow`: JPEG files in, pictures, settled files and words about them out.
//!
//! It stands over the crate `tillsparrow`, whose calls are proved; what is here is not. It decides
//! nothing about a file: what is accepted, refused and drawn comes from the calls.
//!
//! The exit status is 0 where all went well, 1 where a file was refused, and 2 where anything else
//! went wrong.

mod answer;
mod arguments;
mod check;
mod decode;
mod errors;
mod filter;
mod form;
mod inspect;
mod memory;
mod note;
mod output;
mod place;
mod progress;
mod run;
mod settle;
mod shown;
mod signals;
mod source;
mod temporary;
mod words;

use answer::Status;
use arguments::Asked;
use std::io::Write;
use std::process::ExitCode;
use std::{env, io, panic};

fn main() -> ExitCode {
    panic::set_hook(Box::new(|fault| {
        say(&shown::escaped(&format!("a fault of this program: {fault}: please report it")))
    }));
    signals::install();
    let words: Vec<_> = env::args_os().collect();
    let status = match &words[..] {
        [] | [_] => filter::run(filter::Program::Picture),
        [_, word] if word == "--settle" => filter::run(filter::Program::Settled),
        _ => match arguments::parse(words) {
            Ok(asked) => act(asked).unwrap_or_else(|line| fail(&line)),
            Err(ending) => ending.end(),
        },
    };
    status.into()
}

/// A line comes back where nothing could be begun.
fn act(asked: Asked) -> Result<Status, String> {
    match asked {
        Asked::Decode(wish) => decode::run(wish),
        Asked::Settle(wish) => settle::run(wish),
        Asked::Inspect { sources, json } => Ok(inspect::run(&sources, json)),
        Asked::Note { sources, raw } => Ok(note::run(&sources, raw)),
        Asked::Check { sources, jobs } => Ok(check::run(&sources, jobs)),
        Asked::Completion(shell) => Ok(print(shell.text())),
    }
}

/// One line on standard error. Where that cannot be written there is nobody to tell.
fn say(line: &str) {
    let _ = writeln!(io::stderr(), "tillsparrow: {line}");
}

fn fail(line: &str) -> Status {
    say(line);
    Status::Failed
}

/// A text on standard output.
fn print(text: &str) -> Status {
    match output::to_standard(text.as_bytes()) {
        Ok(()) => Status::Done,
        Err(error) => fail(&words::unwritten("standard output", &error)),
    }
}
