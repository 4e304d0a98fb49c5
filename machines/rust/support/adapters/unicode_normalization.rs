//! `unicode_normalization`, with an allocator.

use crate::rattle::alloc::{AllocError, Global};

/// Whether a text is in normalization form C.
pub fn is_nfc(_alloc: Global, text: &str) -> Result<bool, AllocError> {
    Ok(::unicode_normalization::is_nfc(text))
}
