//! Bytes that come in pieces.

use crate::library::{cbor_diag_scanner_feed, cbor_diag_scanner_init, ScannerRoom};
use crate::Extent;
use std::fmt;

/// Reports how bytes begin that come in pieces, as [`extent`](crate::extent) does for all bytes at once. The time of
/// [`feed`](Scanner::feed) grows with the new bytes alone: at most eight of the bytes before are read again. A scanner
/// takes two kilobytes, and allocates nothing.
///
/// ```rust
/// use semphluk::{Extent, Scanner};
///
/// let mut scanner = Scanner::new();
/// assert_eq!(scanner.feed(b"\x82\x19\x03"), Extent::Cut);
/// assert_eq!(scanner.feed(b"\xe8\x02\xff"), Extent::Item(5));
/// assert_eq!(scanner.feed(b"\x00"), Extent::Item(5));
/// ```
#[derive(Clone)]
pub struct Scanner {
    room: ScannerRoom,
}

impl Scanner {
    /// Returns a scanner that was fed no bytes.
    pub fn new() -> Scanner {
        let mut room = ScannerRoom([0; 256]);
        // SAFETY: the pointer is that of memory that a scanner fits.
        unsafe { cbor_diag_scanner_init(&mut room) };
        Scanner { room }
    }

    /// Feeds the next bytes, and reports how all bytes that were fed begin. Once there is an item or an error, it
    /// stays, whatever is fed.
    pub fn feed(&mut self, bytes: &[u8]) -> Extent {
        let mut end = 0;
        // SAFETY: a scanner is in the memory at the first pointer. The others are those of the slice, with its length,
        // and of the variable.
        let answer = unsafe {
            cbor_diag_scanner_feed(&mut self.room, bytes.as_ptr(), bytes.len(), &mut end)
        };
        Extent::of(answer, end)
    }
}

impl Default for Scanner {
    fn default() -> Scanner {
        Scanner::new()
    }
}

impl fmt::Debug for Scanner {
    fn fmt(&self, f: &mut fmt::Formatter<'_>) -> fmt::Result {
        f.debug_struct("Scanner").finish_non_exhaustive()
    }
}
