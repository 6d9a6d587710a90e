//! What the system says to the program while it runs, for Linux: a signal that ends it takes its
//! temporary files with it, and a standard stream that was closed is known as closed.
//!
//! The declarations are those of the C library, which the standard library is linked with.

use std::ffi::CString;
use std::os::raw::{c_char, c_int};
use std::os::unix::ffi::OsStrExt;
use std::path::Path;
use std::ptr;
use std::sync::atomic::{AtomicBool, AtomicPtr, Ordering};

extern "C" {
    fn signal(number: c_int, action: usize) -> usize;
    fn raise(number: c_int) -> c_int;
    fn unlink(path: *const c_char) -> c_int;
    fn write(stream: c_int, bytes: *const u8, length: usize) -> isize;
    fn _exit(status: c_int) -> !;
    fn fcntl(stream: c_int, command: c_int, ...) -> c_int;
    fn isatty(stream: c_int) -> c_int;
}

const HANG_UP: c_int = 1;
const INTERRUPT: c_int = 2;
const QUIT: c_int = 3;
const BUS: c_int = 7;
const TERMINATE: c_int = 15;
const CPU_LIMIT: c_int = 24;
const SIZE_LIMIT: c_int = 25;
const DEFAULT: usize = 0;
const IGNORED: usize = 1;

// ---- temporary files

/// As many workers may have a temporary file at once.
pub const MOST_FILES: usize = 256;

/// The names of the temporary files that are there, each a C string, or null. A string is never
/// freed, since a handler on another thread may be reading it: a name of some hundred bytes stays
/// for each file that is written.
static FILES: [AtomicPtr<c_char>; MOST_FILES] = [NONE; MOST_FILES];

// Each of them is a new one: that is what it is for.
#[allow(clippy::declare_interior_mutable_const)]
const NONE: AtomicPtr<c_char> = AtomicPtr::new(ptr::null_mut());

/// A temporary file that is removed where a signal ends the program. Dropping it forgets the file.
pub struct Kept(&'static AtomicPtr<c_char>);

/// Notes a file before it is made. None where too many are there.
pub fn keep(path: &Path) -> Option<Kept> {
    let name = CString::new(path.as_os_str().as_bytes()).ok()?.into_raw();
    let free = |slot: &&AtomicPtr<c_char>| {
        slot.compare_exchange(ptr::null_mut(), name, Ordering::AcqRel, Ordering::Relaxed).is_ok()
    };
    FILES.iter().find(free).map(Kept)
}

impl Drop for Kept {
    fn drop(&mut self) {
        self.0.store(ptr::null_mut(), Ordering::Release);
    }
}

// ---- signals

/// Whether something stands on the terminal's last line that must go before the program ends.
pub static LINE_IS_DRAWN: AtomicBool = AtomicBool::new(false);

/// SAFETY, of both handlers: they load atomics and call unlink, write, signal, raise and _exit,
/// which are all async-signal-safe; they allocate nothing, lock nothing and free nothing, and the
/// names they read are whole C strings that are never freed.
fn clear_away() {
    for file in &FILES {
        let name = file.load(Ordering::Acquire);
        if !name.is_null() {
            // SAFETY: as above.
            unsafe { unlink(name) };
        }
    }
    if LINE_IS_DRAWN.load(Ordering::Relaxed) {
        tell(b"\r\x1b[2K");
    }
}

fn tell(text: &[u8]) {
    // SAFETY: as above; the pointer and the length are those of a slice.
    unsafe { write(2, text.as_ptr(), text.len()) };
}

/// The signal then does what it does without a handler, so that a shell sees what ended the program:
/// it is blocked in here, and comes again when this returns.
extern "C" fn end(number: c_int) {
    clear_away();
    // SAFETY: as above.
    unsafe {
        signal(number, DEFAULT);
        raise(number);
    }
}

/// A file that is mapped was cut while it was read.
extern "C" fn end_cut(_: c_int) {
    clear_away();
    tell(b"tillsparrow: a file was cut short while it was read: run it again when nothing writes to it\n");
    // SAFETY: as above.
    unsafe { _exit(2) }
}

/// Has the signals that end a program clear away first. One that is ignored, as nohup has it and a
/// shell for what runs in the background, stays ignored.
pub fn install() {
    for number in [HANG_UP, INTERRUPT, QUIT, TERMINATE, CPU_LIMIT] {
        // SAFETY: a handler is a function of one number that returns nothing.
        unsafe {
            if signal(number, end as *const () as usize) == IGNORED {
                signal(number, IGNORED);
            }
        }
    }
    // SAFETY: as above. A file above the limit on sizes is then an error of the write that goes above it.
    unsafe {
        signal(BUS, end_cut as *const () as usize);
        signal(SIZE_LIMIT, IGNORED);
    }
}

// ---- standard streams

pub const INPUT: usize = 0;
pub const OUTPUT: usize = 1;
pub const ERRORS: usize = 2;

pub fn is_terminal(stream: usize) -> bool {
    // SAFETY: asking changes nothing, whatever the number is.
    unsafe { isatty(stream as c_int) == 1 }
}

static CLOSED: [AtomicBool; 2] = [AtomicBool::new(false), AtomicBool::new(false)];

/// Whether a stream was closed when the program began. What is written then would go to the null
/// device, which the standard library opens in its place, and nobody would hear that it is lost.
pub fn was_closed(stream: usize) -> bool {
    CLOSED[stream].load(Ordering::Relaxed)
}

/// Runs before the standard library has opened anything: the loader calls what stands in .init_array.
#[used]
#[link_section = ".init_array"]
static LOOK: extern "C" fn() = look;

extern "C" fn look() {
    const GET_FLAGS: c_int = 1;
    for (stream, closed) in CLOSED.iter().enumerate() {
        // SAFETY: asking for the flags of a stream changes nothing, and fails where it is closed.
        let flags = unsafe { fcntl(stream as c_int, GET_FLAGS) };
        closed.store(flags == -1, Ordering::Relaxed);
    }
}

#[cfg(test)]
mod tests {
    use super::*;
    use std::ffi::CStr;

    /// How often a name stands among those that a signal clears away.
    fn count(path: &str) -> usize {
        let names =
            FILES.iter().map(|file| file.load(Ordering::Acquire)).filter(|name| !name.is_null());
        // SAFETY: the names are whole C strings that are never freed.
        names.filter(|&name| unsafe { CStr::from_ptr(name) }.to_bytes() == path.as_bytes()).count()
    }

    #[test]
    fn a_name_is_kept_until_it_is_dropped() {
        let path = "/absent/.tillsparrow-kept";
        let kept: Vec<_> = (0..3).map(|_| keep(Path::new(path)).unwrap()).collect();
        assert_eq!(count(path), 3);
        drop(kept);
        assert_eq!(count(path), 0);
    }

    #[test]
    fn the_streams_of_a_test_are_open() {
        assert!(!was_closed(INPUT) && !was_closed(OUTPUT));
    }
}
