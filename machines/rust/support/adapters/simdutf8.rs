//! `simdutf8`, with a call that only tests.

pub use ::simdutf8::{basic, compat};

/// Whether bytes are UTF-8.
pub fn is_utf8(bytes: &[u8]) -> bool {
    basic::from_utf8(bytes).is_ok()
}
