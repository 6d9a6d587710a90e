//! What is written: to standard output, into a device or a pipe, or to a file that comes whole.

use crate::place::Place;
use crate::temporary::Temporary;
use crate::{errors, signals};
use std::fs::File;
use std::io::{self, BufWriter, Error, ErrorKind, Result, Write};
use std::os::unix::io::AsFd;
use std::path::Path;

pub struct Output {
    sink: BufWriter<File>,
    /// None for a stream.
    temporary: Option<Temporary>,
    /// The first error. It is kept, since the PNG writer ends in destructors that tell of none.
    failed: Option<Error>,
}

impl Output {
    /// Where the place is a file, it is replaced if it is there and `replace` says so.
    pub fn open(place: &Place, replace: bool) -> Result<Output> {
        let (temporary, file) = match place {
            Place::Standard => (None, standard()?),
            Place::File(path) => open_file(path, replace)?,
        };
        Ok(Output { sink: BufWriter::with_capacity(1 << 18, file), temporary, failed: None })
    }

    /// The file is whole, where `written` says so: it gets its name.
    pub fn finish(mut self, written: Result<()>) -> Result<()> {
        if let Some(error) = self.failed.take() {
            return Err(error);
        }
        written?;
        let file = self.sink.into_inner().map_err(io::IntoInnerError::into_error)?;
        match self.temporary {
            Some(temporary) => temporary.finish(file),
            None => Ok(()),
        }
    }

    /// Keeps the first error; behind it nothing is written any more.
    fn keep<T>(&mut self, act: impl FnOnce(&mut BufWriter<File>) -> Result<T>) -> Result<T> {
        if let Some(error) = &self.failed {
            return Err(error.kind().into());
        }
        act(&mut self.sink).map_err(|error| {
            let kind = error.kind();
            if kind != ErrorKind::Interrupted {
                self.failed = Some(error);
            }
            kind.into()
        })
    }
}

impl Write for Output {
    fn write(&mut self, bytes: &[u8]) -> Result<usize> {
        self.keep(|sink| sink.write(bytes))
    }

    fn flush(&mut self) -> Result<()> {
        self.keep(|sink| sink.flush())
    }
}

/// Standard output, without the line buffer of the standard library.
fn standard() -> Result<File> {
    if signals::was_closed(signals::OUTPUT) {
        return Err(errors::told("it is closed: open it, or take -o FILE"));
    }
    Ok(File::from(io::stdout().as_fd().try_clone_to_owned()?))
}

/// Words for standard output.
pub fn to_standard(bytes: &[u8]) -> Result<()> {
    standard()?.write_all(bytes)
}

/// What is there and is no regular file is written in place: a device or a pipe is not replaced.
fn open_file(path: &Path, replace: bool) -> Result<(Option<Temporary>, File)> {
    match path.metadata() {
        Ok(about) if about.is_dir() => Err(errors::is_a_folder()),
        Ok(about) if !about.is_file() => Ok((None, File::options().write(true).open(path)?)),
        _ => Temporary::new(path, replace).map(|(temporary, file)| (Some(temporary), file)),
    }
}

#[cfg(test)]
mod tests {
    use super::*;

    #[test]
    fn the_first_error_is_the_one_that_is_told() {
        let place = Place::File("/dev/full".into());
        let mut output = Output::open(&place, true).unwrap();
        let written = output.write_all(&vec![0; 1 << 20]);
        assert!(written.is_err() && output.write(b"more").is_err());
        assert_eq!(output.finish(Ok(())).unwrap_err().raw_os_error(), Some(errors::DISK_FULL));
    }

    #[test]
    fn an_error_of_the_last_bytes_is_told() {
        let mut output = Output::open(&Place::File("/dev/full".into()), true).unwrap();
        output.write_all(b"few").unwrap();
        assert_eq!(output.finish(Ok(())).unwrap_err().raw_os_error(), Some(errors::DISK_FULL));
    }
}
