//! The diagnostic notation of the crate `cbor-diag`, which this project ports.
//!
//! Notation shows the line feeds and control characters of a text string as they are, so it is not safe to print to a
//! terminal unless the item is trusted. [`hex`](crate::hex), [`edn`](crate::edn) and [`json`](crate::json) escape them.
//!
//! ```
//! use semphluk::diag;
//!
//! let item = diag::from_diag(r#"[1, {"a": h'00ff'}]"#)?;
//! assert_eq!(item, b"\x82\x01\xa1\x61a\x42\x00\xff");
//! assert_eq!(diag::to_diag(&item)?, r#"[1,{"a":h'00ff'}]"#);
//! # Ok::<(), semphluk::Error>(())
//! ```

use crate::error::Result;
use crate::form::{Form, convert, converted};

/// An item in diagnostic notation, with no line feeds but those in its texts.
pub fn to_diag(bytes: &[u8]) -> Result<String> {
    converted(Form::Bytes, Form::Diag, bytes)
}

/// An item in diagnostic notation over several lines.
pub fn to_pretty(bytes: &[u8]) -> Result<String> {
    converted(Form::Bytes, Form::Pretty, bytes)
}

/// The bytes of an item from diagnostic notation.
pub fn from_diag(text: &str) -> Result<Vec<u8>> {
    convert(Form::Diag, Form::Bytes, text.as_bytes())
}
