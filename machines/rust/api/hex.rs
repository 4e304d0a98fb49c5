//! Hex with comments: the dump of an item, a line for each head.
//!
//! ```
//! use semphluk::hex;
//!
//! let dump = hex::to_hex(b"\x82\x01\x41\xff")?;
//! assert_eq!(dump.lines().next(), Some("82       # array(2)"));
//! assert_eq!(hex::from_hex(&dump)?, b"\x82\x01\x41\xff");
//! # Ok::<(), semphluk::Error>(())
//! ```

use crate::error::Result;
use crate::form::{Form, convert};
use crate::written::text;

/// The dump of an item: its bytes in hex, a line for each head, with comments.
pub fn to_hex(bytes: &[u8]) -> Result<String> {
    convert(Form::Bytes, Form::Hex, bytes).map(text)
}

/// The bytes of an item from hex, with or without comments.
pub fn from_hex(text: &str) -> Result<Vec<u8>> {
    convert(Form::Hex, Form::Bytes, text.as_bytes())
}
