//! What comes of one file, and what the exit status is of all.

use std::process::ExitCode;

/// Why a file did not get what was asked for: the words of its line, behind its name.
#[derive(Debug, PartialEq)]
pub enum Trouble {
    /// The library refuses the file.
    Refused(String),
    /// Anything else.
    Failed(String),
}

/// What is printed for one file.
#[derive(Default)]
pub struct Answer {
    /// For standard output, as it is.
    pub text: Vec<u8>,
    /// A line for standard error about a file with which all went well.
    pub remark: Option<String>,
    /// For standard error.
    pub trouble: Option<Trouble>,
}

impl From<Result<Vec<u8>, Trouble>> for Answer {
    fn from(result: Result<Vec<u8>, Trouble>) -> Answer {
        match result {
            Ok(text) => Answer { text, ..Answer::default() },
            Err(trouble) => Answer { trouble: Some(trouble), ..Answer::default() },
        }
    }
}

/// The exit status; of two the later one here counts.
#[derive(Clone, Copy, Debug, PartialEq, Eq, PartialOrd, Ord)]
pub enum Status {
    Done = 0,
    Refused = 1,
    Failed = 2,
}

impl From<Status> for ExitCode {
    fn from(status: Status) -> ExitCode {
        ExitCode::from(status as u8)
    }
}

impl From<&Trouble> for Status {
    fn from(trouble: &Trouble) -> Status {
        match trouble {
            Trouble::Refused(_) => Status::Refused,
            Trouble::Failed(_) => Status::Failed,
        }
    }
}

#[cfg(test)]
mod tests {
    use super::*;

    #[test]
    fn a_failure_counts_more_than_a_refusal() {
        assert_eq!(Status::Refused.max(Status::Done), Status::Refused);
        assert_eq!(Status::Refused.max(Status::Failed), Status::Failed);
        assert_eq!(
            [Status::Done, Status::Refused, Status::Failed].map(|status| status as u8),
            [0, 1, 2]
        );
    }
}
