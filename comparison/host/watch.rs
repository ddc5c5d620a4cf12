//! Names the program at hand when something traps or hangs in it.

use std::os::raw::{c_int, c_uint, c_void};
use std::ptr::null_mut;
use std::sync::atomic::{AtomicPtr, AtomicUsize, Ordering};

extern "C" {
    fn signal(number: c_int, handler: extern "C" fn(c_int)) -> usize;
    fn alarm(seconds: c_uint) -> c_uint;
    fn write(file: c_int, bytes: *const c_void, count: usize) -> isize;
    fn _exit(status: c_int) -> !;
}

/// Linux's numbers of SIGILL, SIGABRT, SIGBUS, SIGFPE, SIGSEGV and SIGALRM.
const SIGNALS: [c_int; 6] = [4, 6, 7, 8, 11, 14];

/// No program that is compared takes nearly so many seconds.
const LONGEST: c_uint = 120;

static TEXT: AtomicPtr<u8> = AtomicPtr::new(null_mut());
static LENGTH: AtomicUsize = AtomicUsize::new(0);

pub fn start() {
    for number in SIGNALS {
        unsafe {
            signal(number, stopped);
        }
    }
}

/// Does the work, which is all about this text.
pub fn over<T>(text: &[u8], work: impl FnOnce() -> T) -> T {
    TEXT.store(text.as_ptr() as *mut u8, Ordering::SeqCst);
    LENGTH.store(text.len(), Ordering::SeqCst);
    unsafe {
        alarm(LONGEST);
    }
    let done = work();
    unsafe {
        alarm(0);
    }
    LENGTH.store(0, Ordering::SeqCst);
    done
}

extern "C" fn stopped(_: c_int) {
    say(b"failed, stopped by a trap or after two minutes:\n");
    let text = TEXT.load(Ordering::SeqCst);
    unsafe {
        write(1, text as *const c_void, LENGTH.load(Ordering::SeqCst));
    }
    say(b"\n");
    unsafe { _exit(1) }
}

fn say(message: &[u8]) {
    unsafe {
        write(1, message.as_ptr() as *const c_void, message.len());
    }
}
