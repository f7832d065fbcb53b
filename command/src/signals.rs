//! The system's signals that ask a command to end, which Rust's library has no words for. This is the only unsafe code of the command.

#![allow(unsafe_code)]

use std::ffi::c_int;
use std::sync::atomic::{AtomicI32, Ordering};

extern "C" {
    fn signal(number: c_int, action: usize) -> usize;
    fn raise(number: c_int) -> c_int;
}

/// SIG_DFL and SIG_IGN.
const DEFAULT: usize = 0;
const IGNORED: usize = 1;

/// SIGHUP, SIGINT and SIGTERM.
const ENDING: [c_int; 3] = [1, 2, 15];

/// The last one that came; 0 before.
static CAUGHT: AtomicI32 = AtomicI32::new(0);

extern "C" fn keep(number: c_int) {
    CAUGHT.store(number, Ordering::SeqCst);
}

/// From now on they are kept in mind. One that was ignored when the command was started stays ignored, as by `nohup`.
pub fn catch() {
    let handler = keep as extern "C" fn(c_int);
    for number in ENDING {
        // SAFETY: the handler has C's calling convention and only stores a number, as a handler may at any moment.
        unsafe {
            if signal(number, handler as usize) == IGNORED {
                signal(number, IGNORED);
            }
        }
    }
}

/// The one that came.
pub fn caught() -> Option<c_int> {
    Some(CAUGHT.load(Ordering::SeqCst)).filter(|number| *number != 0)
}

/// From now on it ends the command at once.
pub fn let_through(number: c_int) {
    // SAFETY: the default action needs no memory of ours.
    unsafe {
        signal(number, DEFAULT);
    }
}

/// Ends the command by a signal that is let through.
pub fn end_by(number: c_int) {
    // SAFETY: as above.
    unsafe {
        raise(number);
    }
}
