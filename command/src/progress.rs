//! How far the work is, for people at a terminal: nothing within the first second, and nothing at
//! all where standard error is no terminal.

use crate::signals::{self, LINE_IS_DRAWN};
use indicatif::{HumanDuration, ProgressBar, ProgressDrawTarget, ProgressState, ProgressStyle};
use std::fmt;
use std::sync::atomic::{AtomicUsize, Ordering};
use std::time::{Duration, Instant};

/// What is done with a file.
#[derive(Clone, Copy)]
pub enum Phase {
    Reading,
    Checking,
    Decoding,
    Settling,
    Writing,
}

/// What is being done, told by the worker that does it. It is shown where there is one file.
#[derive(Default)]
pub struct Phases(AtomicUsize);

impl Phases {
    pub fn enter(&self, phase: Phase) {
        self.0.store(phase as usize, Ordering::Relaxed);
    }

    fn name(&self) -> &'static str {
        ["reading", "checking", "decoding", "settling", "writing"][self.0.load(Ordering::Relaxed)]
    }
}

pub struct Progress {
    /// None where standard error is no terminal.
    bar: Option<ProgressBar>,
    began: Instant,
    is_shown: bool,
    /// The name of the file, where there is one.
    single: Option<String>,
}

/// Work that takes less is not shown.
const PATIENCE: Duration = Duration::from_secs(1);

impl Progress {
    pub fn new(files: usize, first: impl FnOnce() -> String) -> Progress {
        let single = (files == 1).then(|| shortened(&first()));
        let bar = signals::is_terminal(signals::ERRORS).then(|| hidden_bar(files as u64));
        Progress { bar, began: Instant::now(), is_shown: false, single }
    }

    /// Draws how far it is, where it is time to.
    pub fn tell(&mut self, done: usize, phases: &Phases) {
        let bar = match &self.bar {
            Some(bar) => bar,
            None => return,
        };
        if !self.is_shown && self.began.elapsed() >= PATIENCE {
            bar.set_draw_target(ProgressDrawTarget::stderr());
            LINE_IS_DRAWN.store(true, Ordering::Relaxed);
            self.is_shown = true;
        }
        match &self.single {
            Some(name) => {
                bar.set_prefix(phases.name());
                bar.set_message(name.clone());
            }
            None => bar.set_position(done as u64),
        }
        bar.tick();
    }

    /// Does something that writes lines, with the bar out of the way.
    pub fn aside<T>(&self, act: impl FnOnce() -> T) -> T {
        match &self.bar {
            Some(bar) if self.is_shown => bar.suspend(act),
            _ => act(),
        }
    }

    pub fn end(self) {
        if let Some(bar) = self.bar {
            bar.finish_and_clear();
            LINE_IS_DRAWN.store(false, Ordering::Relaxed);
        }
    }
}

/// The end of a name that is too long for a row of a terminal.
fn shortened(name: &str) -> String {
    const MOST: usize = 32;
    match name.chars().count().checked_sub(MOST) {
        None | Some(0) => name.to_string(),
        Some(more) => format!("..{}", name.chars().skip(more + 2).collect::<String>()),
    }
}

/// It counts from the beginning, so that what is left of the time is known when it is shown.
fn hidden_bar(files: u64) -> ProgressBar {
    let (bar, template) = match files {
        1 => (ProgressBar::new_spinner(), "{spinner} {prefix}, {elapsed}: {wide_msg}"),
        _ => (ProgressBar::new(files), "{pos} of {len} files [{wide_bar}] {elapsed}{left}"),
    };
    bar.set_draw_target(ProgressDrawTarget::hidden());
    let style =
        ProgressStyle::with_template(template).unwrap_or_else(|_| ProgressStyle::default_spinner());
    let style = style.with_key("left", write_time_left);
    bar.with_style(style.progress_chars("=> ").tick_chars("-\\|/ "))
}

/// Nothing is known of the time that is left before a file is done.
fn write_time_left(state: &ProgressState, line: &mut dyn fmt::Write) {
    if state.pos() > 0 {
        write!(line, ", about {:#} left", HumanDuration(state.eta()))
            .expect("a line takes every text");
    }
}

#[cfg(test)]
mod tests {
    use super::*;
    use indicatif::TermLike;
    use std::io;
    use std::sync::{Arc, Mutex};

    /// A terminal that keeps what was drawn last.
    #[derive(Clone, Debug, Default)]
    struct Screen(Arc<Mutex<String>>);

    impl TermLike for Screen {
        fn width(&self) -> u16 {
            80
        }
        fn move_cursor_up(&self, _: usize) -> io::Result<()> {
            Ok(())
        }
        fn move_cursor_down(&self, _: usize) -> io::Result<()> {
            Ok(())
        }
        fn move_cursor_right(&self, _: usize) -> io::Result<()> {
            Ok(())
        }
        fn move_cursor_left(&self, _: usize) -> io::Result<()> {
            Ok(())
        }
        fn write_line(&self, text: &str) -> io::Result<()> {
            self.write_str(text)
        }
        fn write_str(&self, text: &str) -> io::Result<()> {
            self.0.lock().unwrap().push_str(text);
            Ok(())
        }
        fn clear_line(&self) -> io::Result<()> {
            self.0.lock().unwrap().clear();
            Ok(())
        }
        fn flush(&self) -> io::Result<()> {
            Ok(())
        }
    }

    #[test]
    fn the_time_left_is_told_when_a_file_is_done() {
        let screen = Screen::default();
        let drawn = |done, bar: &ProgressBar| {
            bar.set_position(done);
            bar.tick();
            screen.0.lock().unwrap().clone()
        };
        let bar = hidden_bar(3);
        bar.set_draw_target(ProgressDrawTarget::term_like(Box::new(screen.clone())));
        let before = drawn(0, &bar);
        assert!(before.contains("0 of 3 files") && !before.contains("left"), "{before}");
        std::thread::sleep(Duration::from_millis(600));
        let behind = drawn(1, &bar);
        assert!(behind.contains("1 of 3 files"), "{behind}");
        assert!(behind.contains(", about ") && behind.contains("s left"), "{behind}");
        assert!(!behind.contains(" 0s left"), "{behind}");
    }

    #[test]
    fn a_long_name_is_shown_by_its_end() {
        assert_eq!(shortened("tray.jpg"), "tray.jpg");
        let long = "a folder with a long name/and another/f\u{fc}r tray 36.jpg";
        assert_eq!(shortened(long), "..me/and another/f\u{fc}r tray 36.jpg");
        assert_eq!(shortened(&"\u{fc}".repeat(32)).chars().count(), 32);
        assert_eq!(shortened(&"\u{fc}".repeat(33)).chars().count(), 32);
    }
}
