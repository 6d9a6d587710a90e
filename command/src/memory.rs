//! Memory for the pictures of several files at a time: as many as fit, and one in any case.
//!
//! Linux hands out more memory than there is, and ends a program that uses it. So what a picture
//! takes is known beforehand and asked for here: a large one waits for the others to be done, and
//! one that this computer cannot hold is told of in a line.

use std::sync::{Condvar, Mutex, MutexGuard, PoisonError};

pub struct Memory {
    /// What the pictures of several files may take together.
    shared: u64,
    /// What the computer has.
    whole: u64,
    taken: Mutex<u64>,
    given_back: Condvar,
}

/// Memory that one picture has; dropping it gives it back.
pub struct Share<'a> {
    memory: &'a Memory,
    bytes: u64,
}

impl Memory {
    /// Half of what is free now is shared. Where the system does not tell, nothing is held back.
    pub fn of_this_computer() -> Memory {
        Memory::of(&std::fs::read_to_string("/proc/meminfo").unwrap_or_default())
    }

    fn of(told: &str) -> Memory {
        let bytes = |name: &str| {
            let line = told.lines().find_map(|line| line.strip_prefix(name)?.strip_prefix(':'))?;
            line.trim().strip_suffix(" kB")?.parse::<u64>().ok()?.checked_mul(1024)
        };
        let shared = bytes("MemAvailable").map_or(u64::MAX, |free| free / 2);
        let whole = bytes("MemTotal")
            .map_or(u64::MAX, |total| total.saturating_add(bytes("SwapTotal").unwrap_or(0)));
        Memory { shared, whole, taken: Mutex::new(0), given_back: Condvar::new() }
    }

    /// A panic of another worker leaves the number as it should be.
    fn taken(&self) -> MutexGuard<'_, u64> {
        self.taken.lock().unwrap_or_else(PoisonError::into_inner)
    }

    /// Waits until there is room beside the others. None where there never is.
    pub fn take(&self, bytes: u64) -> Option<Share<'_>> {
        if bytes > self.whole {
            return None;
        }
        let is_too_much = |taken: &mut u64| *taken > 0 && taken.saturating_add(bytes) > self.shared;
        let free = self.given_back.wait_while(self.taken(), is_too_much);
        *free.unwrap_or_else(PoisonError::into_inner) += bytes;
        Some(Share { memory: self, bytes })
    }
}

impl Drop for Share<'_> {
    fn drop(&mut self) {
        *self.memory.taken() -= self.bytes;
        self.memory.given_back.notify_all();
    }
}

#[cfg(test)]
mod tests {
    use super::*;
    use std::sync::atomic::{AtomicU64, Ordering};

    #[test]
    fn what_the_system_tells_is_read() {
        let memory =
            Memory::of("MemTotal:  8 kB\nMemFree: 1 kB\nMemAvailable:   6 kB\nSwapTotal: 2 kB\n");
        assert_eq!((memory.shared, memory.whole), (3 * 1024, 10 * 1024));
        assert!(memory.take(10 * 1024).is_some() && memory.take(10 * 1024 + 1).is_none());
        let untold = Memory::of("");
        assert_eq!((untold.shared, untold.whole), (u64::MAX, u64::MAX));
        assert!(Memory::of_this_computer().whole > 1 << 20);
    }

    /// Pictures that do not fit beside each other are never held at once, and all of them come to their turn.
    #[test]
    fn large_pictures_wait_for_each_other() {
        let memory = Memory::of("MemTotal: 100 kB\nMemAvailable: 20 kB\n");
        let (held, most, done) = (AtomicU64::new(0), AtomicU64::new(0), AtomicU64::new(0));
        std::thread::scope(|scope| {
            for i in 0..24 {
                let (memory, held, most, done) = (&memory, &held, &most, &done);
                scope.spawn(move || {
                    let bytes = [3, 6, 50][i % 3] * 1024;
                    let share = memory.take(bytes).unwrap();
                    most.fetch_max(
                        held.fetch_add(bytes, Ordering::SeqCst) + bytes,
                        Ordering::SeqCst,
                    );
                    std::thread::yield_now();
                    held.fetch_sub(bytes, Ordering::SeqCst);
                    drop(share);
                    done.fetch_add(1, Ordering::SeqCst);
                });
            }
        });
        assert_eq!(done.into_inner(), 24);
        assert!(most.into_inner() <= 50 * 1024);
    }
}
