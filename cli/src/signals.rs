//! Signals that end the program: a new file that is not complete is taken away first.

use crate::report::Failure;
use std::ffi::{CString, c_char, c_int, c_void};
use std::os::unix::ffi::OsStrExt;
use std::path::Path;
use std::ptr::null_mut;
use std::sync::OnceLock;
use std::sync::atomic::{AtomicPtr, Ordering};

// libc's, with the numbers of x86-64 Linux.
unsafe extern "C" {
    fn signal(number: c_int, handler: usize) -> usize;
    fn raise(number: c_int) -> c_int;
    fn unlink(path: *const c_char) -> c_int;
    fn write(fd: c_int, bytes: *const c_void, len: usize) -> isize;
    fn _exit(status: c_int) -> !;
}

const SIG_DFL: usize = 0;
const SIG_IGN: usize = 1;
const SIGHUP: c_int = 1;
const SIGINT: c_int = 2;
const SIGQUIT: c_int = 3;
const SIGABRT: c_int = 6;
const SIGBUS: c_int = 7;
const SIGPIPE: c_int = 13;
const SIGTERM: c_int = 15;
const SIGXFSZ: c_int = 25;

/// The names of new files that are not complete: a file and its summary, at most.
static PARTS: [AtomicPtr<c_char>; 2] = [const { AtomicPtr::new(null_mut()) }; 2];

/// What is said where a mapped file gets shorter.
static SHORTER: OnceLock<String> = OnceLock::new();

/// The place of a file's name among them.
pub fn remember(path: &Path) -> Option<usize> {
    let name = CString::new(path.as_os_str().as_bytes()).ok()?.into_raw();
    PARTS.iter().position(|part| {
        part.compare_exchange(null_mut(), name, Ordering::SeqCst, Ordering::SeqCst)
            .is_ok()
    })
}

/// The name stays in memory: a signal may be reading it.
pub fn forget(slot: usize) {
    PARTS[slot].store(null_mut(), Ordering::SeqCst);
}

fn remove_parts() {
    for part in &PARTS {
        let name = part.load(Ordering::SeqCst);
        if !name.is_null() {
            // SAFETY: it is a string that ends in 0, and is never freed; a signal may call it.
            unsafe { unlink(name) };
        }
    }
}

/// New files are taken away, and the signal does what it does.
extern "C" fn end(number: c_int) {
    remove_parts();
    // SAFETY: a signal may call both; the signal comes again when this returns, and ends the program.
    unsafe {
        signal(number, SIG_DFL);
        raise(number);
    }
}

/// A page of a map that is in its file no more.
extern "C" fn end_shorter(_: c_int) {
    remove_parts();
    let text = SHORTER.get().map_or("", |text| text);
    // SAFETY: a signal may call both.
    unsafe {
        write(2, text.as_ptr().cast(), text.len());
        _exit(2)
    }
}

/// From now on signals leave no new file behind, and a mapped file that gets shorter is said.
pub fn watch(command: &str, json: bool) {
    let shorter = Failure::new(
        "a mapped file",
        "its bytes to the end",
        "a file that got shorter meanwhile",
        "again, when nobody writes to it",
    );
    let _ = SHORTER.set(shorter.text(command, json)); // it is set once
    for number in [SIGHUP, SIGINT, SIGQUIT, SIGABRT, SIGPIPE, SIGTERM, SIGXFSZ] {
        // SAFETY: the handler calls only what a signal may.
        let before = unsafe { signal(number, end as *const () as usize) };
        // What was to be ignored, as nohup wants, stays so; that of SIGPIPE is Rust's own.
        if before == SIG_IGN && number != SIGPIPE {
            // SAFETY: as it was before.
            unsafe { signal(number, SIG_IGN) };
        }
    }
    // SAFETY: the handler calls only what a signal may.
    unsafe { signal(SIGBUS, end_shorter as *const () as usize) };
}
