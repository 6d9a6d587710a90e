//! Does one thing with each file, several at a time, and tells what came of them in the order in
//! which they were given.

use crate::answer::{Answer, Status, Trouble};
use crate::progress::{Phases, Progress};
use crate::source::Source;
use crate::{output, say, words};
use std::collections::HashMap;
use std::panic::{self, AssertUnwindSafe};
use std::sync::atomic::{AtomicBool, AtomicUsize, Ordering};
use std::sync::mpsc::{self, Receiver, RecvTimeoutError, Sender};
use std::thread;
use std::time::Duration;

/// As many files are worked on at once where nothing else is asked for: each has its picture in
/// memory, so it is a few also where there are many processors.
pub fn processors() -> usize {
    thread::available_parallelism().map_or(1, |count| count.get().min(8))
}

/// What the workers share.
struct Work<'a, F> {
    sources: &'a [Source],
    act: F,
    next: AtomicUsize,
    /// Nothing more is begun.
    stop: AtomicBool,
    phases: Phases,
}

/// Has `act` done for each source by `jobs` workers, and prints the answers.
pub fn each<F>(sources: &[Source], jobs: usize, act: F) -> Status
where
    F: Fn(usize, &Source, &Phases) -> Answer + Sync,
{
    let work = Work {
        sources,
        act,
        next: AtomicUsize::new(0),
        stop: AtomicBool::new(false),
        phases: Phases::default(),
    };
    thread::scope(|scope| {
        let (send, receive) = mpsc::channel();
        let begin =
            |send: Sender<_>| thread::Builder::new().spawn_scoped(scope, || work.toil(send));
        let begun =
            (0..jobs.min(sources.len())).take_while(|_| begin(send.clone()).is_ok()).count();
        match begun {
            // No thread is to be had: then without.
            0 => work.toil(send),
            _ => drop(send),
        }
        work.gather(receive)
    })
}

impl<F> Work<'_, F>
where
    F: Fn(usize, &Source, &Phases) -> Answer + Sync,
{
    /// One worker: takes file after file.
    fn toil(&self, send: Sender<(usize, Answer)>) {
        while !self.stop.load(Ordering::Relaxed) {
            let i = self.next.fetch_add(1, Ordering::Relaxed);
            let source = match self.sources.get(i) {
                Some(source) => source,
                None => return,
            };
            let done =
                panic::catch_unwind(AssertUnwindSafe(|| (self.act)(i, source, &self.phases)));
            let fault = || {
                Trouble::Failed(
                    "a fault of this program: please report it with the file".to_string(),
                )
            };
            let answer = done.unwrap_or_else(|_| Answer::from(Err(fault())));
            if send.send((i, answer)).is_err() {
                return;
            }
        }
    }

    /// Prints the answers in order, until all workers have ended.
    fn gather(&self, receive: Receiver<(usize, Answer)>) -> Status {
        let mut progress = Progress::new(self.sources.len(), || self.sources[0].shown());
        let mut early = HashMap::new();
        let mut status = Status::Done;
        let (mut done, mut printed) = (0, 0);
        loop {
            match receive.recv_timeout(Duration::from_millis(100)) {
                Ok((i, answer)) => {
                    done += 1;
                    early.insert(i, answer);
                }
                Err(RecvTimeoutError::Timeout) => {}
                Err(RecvTimeoutError::Disconnected) => break,
            }
            while let Some(answer) = early.remove(&printed) {
                status = status.max(progress.aside(|| self.print(printed, answer)));
                printed += 1;
            }
            progress.tell(done, &self.phases);
        }
        progress.end();
        status
    }

    fn print(&self, i: usize, answer: Answer) -> Status {
        let mut status = Status::Done;
        // When the answers can no longer be written, which is said once, no more are wanted.
        if !answer.text.is_empty() && !self.stop.load(Ordering::Relaxed) {
            if let Err(error) = output::to_standard(&answer.text) {
                say(&words::unwritten("standard output", &error));
                self.stop.store(true, Ordering::Relaxed);
                status = Status::Failed;
            }
        }
        let about = |line: &str| say(&format!("{}: {line}", self.sources[i].shown()));
        if let Some(line) = answer.remark {
            about(&line);
        }
        if let Some(trouble) = answer.trouble {
            let (Trouble::Refused(line) | Trouble::Failed(line)) = &trouble;
            about(line);
            status = status.max(Status::from(&trouble));
        }
        status
    }
}
