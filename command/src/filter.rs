//! Without an argument, or with `--settle` alone: the proved program that an installation puts
//! beside the command, from standard input to standard output.
//!
//! What it writes is held back and written when it has ended, so that nothing comes of a program
//! that fails. A refusal is its line `refused N` on standard output.

use crate::answer::Status;
use crate::{fail, output, shown, words};
use std::path::PathBuf;
use std::process::{Command, Stdio};
use std::{env, io};

#[derive(Clone, Copy)]
pub enum Program {
    Picture,
    Settled,
}

impl Program {
    fn name(self) -> &'static str {
        match self {
            Program::Picture => "tillsparrow",
            Program::Settled => "tillsparrow_settle",
        }
    }

    /// What the program's first bytes say.
    fn status(self, written: &[u8]) -> Status {
        let is_whole = match self {
            Program::Picture => written.starts_with(b"P5") || written.starts_with(b"P6"),
            Program::Settled => written.starts_with(&[255, 216]),
        };
        match written.starts_with(b"refused") {
            true => Status::Refused,
            false if is_whole => Status::Done,
            false => Status::Failed,
        }
    }
}

/// The programs stand in PREFIX/libexec/tillsparrow where the command is PREFIX/bin/tillsparrow.
fn place(program: Program) -> io::Result<PathBuf> {
    let own = env::current_exe()?;
    let prefix = own.parent().and_then(|bin| bin.parent()).unwrap_or(&own);
    Ok(prefix.join("libexec/tillsparrow").join(program.name()))
}

pub fn run(program: Program) -> Status {
    match written(program) {
        Ok(bytes) => match output::to_standard(&bytes) {
            Ok(()) => program.status(&bytes),
            Err(error) => fail(&words::unwritten("standard output", &error)),
        },
        Err(line) => fail(&line),
    }
}

fn written(program: Program) -> Result<Vec<u8>, String> {
    let place =
        place(program).map_err(|error| format!("the command's own place is not known: {error}"))?;
    if !place.is_file() {
        return Err(format!(
            "takes a command, such as: tillsparrow decode FILE (tillsparrow --help shows all); as a filter it needs {}, \
             which ./library --install PREFIX installs",
            shown::name(&place)
        ));
    }
    let run = Command::new(&place).stdin(Stdio::inherit()).stderr(Stdio::inherit()).output();
    match run {
        Ok(done) if done.status.success() => Ok(done.stdout),
        Ok(_) => Err("the program did not end as it should".to_string()),
        Err(error) => Err(format!("{} cannot be run: {error}", shown::name(&place))),
    }
}

#[cfg(test)]
mod tests {
    use super::*;

    #[test]
    fn the_first_bytes_tell_the_status() {
        let picture = |bytes: &[u8]| Program::Picture.status(bytes);
        assert_eq!([picture(b"P5\n"), picture(b"P6\n")], [Status::Done; 2]);
        assert_eq!(picture(b"refused 4\n"), Status::Refused);
        assert_eq!([picture(b""), picture(&[255, 216])], [Status::Failed; 2]);
        assert_eq!(Program::Settled.status(&[255, 216, 255]), Status::Done);
        assert_eq!(Program::Settled.status(b"P6"), Status::Failed);
    }
}
