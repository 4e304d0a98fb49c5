//! Which of the standard streams were closed when the process began. Rust's runtime opens /dev/null
//! in the place of those before `main`, and a write to it would succeed. So this looks earlier.

use std::sync::atomic::{AtomicU8, Ordering};

/// Bit n is set if stream n was closed.
static CLOSED: AtomicU8 = AtomicU8::new(0);

/// Whether a stream was closed.
pub(super) fn is_closed(number: usize) -> bool {
    CLOSED.load(Ordering::Relaxed) >> number & 1 == 1
}

unsafe extern "C" {
    fn fcntl(descriptor: i32, command: i32, ...) -> i32;
}

/// Reads the flags of a descriptor.
const F_GETFD: i32 = 1;

extern "C" fn note_closed() {
    for number in 0..3 {
        // SAFETY: F_GETFD takes no further argument, and any number may be asked for.
        if unsafe { fcntl(number, F_GETFD) } == -1 {
            CLOSED.fetch_or(1 << number, Ordering::Relaxed);
        }
    }
}

/// The C library calls what is in this section before Rust's runtime begins.
// SAFETY: `note_closed` calls nothing that needs Rust's runtime.
#[used]
#[unsafe(link_section = ".init_array")]
static BEFORE: extern "C" fn() = note_closed;
