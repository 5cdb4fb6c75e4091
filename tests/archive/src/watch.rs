//! A call that touches a guard page, traps or does not end gives no answer to compare: then the seed is told from here.

use std::ffi::{c_int, c_uint, c_void};
use std::sync::atomic::{AtomicBool, AtomicU64, Ordering::Relaxed};

extern "C" {
    fn signal(number: c_int, handler: extern "C" fn(c_int)) -> *mut c_void;
    fn alarm(seconds: c_uint) -> c_uint;
    fn write(file: c_int, bytes: *const c_void, count: usize) -> isize;
    fn _exit(status: c_int) -> !;
}

/// Illegal instruction, trap, abort, bus, arithmetic, no access, alarm: numbers of Linux.
const SIGNALS: [c_int; 7] = [4, 5, 6, 7, 8, 11, 14];
/// Seconds that a seed may take; the largest fill takes about one.
const PATIENCE: c_uint = 120;

static BEGUN: AtomicBool = AtomicBool::new(false);
static SEED: AtomicU64 = AtomicU64::new(0);
static CALL: AtomicU64 = AtomicU64::new(0);

/// From now on a signal ends the program with status 1 and the seed's number.
pub fn begin() {
    BEGUN.store(true, Relaxed);
    for number in SIGNALS {
        // SAFETY: the handler only reads two numbers, writes and exits.
        unsafe { signal(number, tell) };
    }
}

/// A seed begins.
pub fn seed(seed: u64) {
    SEED.store(seed, Relaxed);
    if BEGUN.load(Relaxed) {
        // SAFETY: asks for a signal.
        unsafe { alarm(PATIENCE) };
    }
}

/// A call begins.
pub fn call(index: u64) {
    CALL.store(index, Relaxed);
}

extern "C" fn tell(number: c_int) {
    say(b"seed ");
    say_number(SEED.load(Relaxed));
    say(b", call ");
    say_number(CALL.load(Relaxed));
    say(b": no answer, ended by signal ");
    say_number(number as u64);
    say(b" (11: memory that is not lent or not to be written; 14: no end)\n");
    // SAFETY: the end.
    unsafe { _exit(1) }
}

/// Nothing may be allocated in a handler, so no formatting.
fn say(text: &[u8]) {
    // SAFETY: the bytes are there.
    unsafe { write(2, text.as_ptr().cast(), text.len()) };
}

fn say_number(number: u64) {
    let mut digits = [0; 20];
    let mut at = digits.len();
    let mut rest = number;
    loop {
        at -= 1;
        digits[at] = b'0' + (rest % 10) as u8;
        rest /= 10;
        if rest == 0 {
            return say(&digits[at..]);
        }
    }
}
