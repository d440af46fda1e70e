//! An access to an inaccessible page ends the process; this says which seed it
//! was.

use std::sync::atomic::{AtomicU64, Ordering};

const SIGSEGV: i32 = 11;
const STANDARD_ERROR: i32 = 2;

extern "C" {
    fn signal(number: i32, handler: extern "C" fn(i32)) -> usize;
    fn write(file: i32, bytes: *const u8, count: usize) -> isize;
    fn _exit(status: i32) -> !;
}

static SEED: AtomicU64 = AtomicU64::new(0);

/// From now on, a fault writes the seed and exits with 1.
pub fn watch() {
    // SAFETY: the handler only reads an atomic number, writes from its own
    // stack, and exits, all of which a signal handler may do.
    unsafe { signal(SIGSEGV, report) };
}

/// The seed that runs now.
pub fn seed(seed: u64) {
    SEED.store(seed, Ordering::Relaxed);
}

const MESSAGE: [u8; 39] = *b"an access outside the buffers, at seed ";
/// The longest number of 64 bits, and a line end.
const NUMBER: usize = 21;

extern "C" fn report(_: i32) {
    let mut text = [b'\n'; MESSAGE.len() + NUMBER];
    text[..MESSAGE.len()].copy_from_slice(&MESSAGE);
    let mut seed = SEED.load(Ordering::Relaxed);
    let last = MESSAGE.len() + seed.checked_ilog10().unwrap_or(0) as usize;
    for at in (MESSAGE.len()..=last).rev() {
        text[at] = b'0' + (seed % 10) as u8;
        seed /= 10;
    }
    // SAFETY: the bytes are on this stack, and the process ends here.
    unsafe {
        write(STANDARD_ERROR, text.as_ptr(), last + 2);
        _exit(1)
    }
}
