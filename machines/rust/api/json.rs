//! Items as JSON (RFC 8949, section 6.1), and why an item has none. [`edn::from_edn`](crate::edn::from_edn) reads JSON.
//!
//! ```
//! use semphluk::{ErrorKind, json};
//!
//! assert_eq!(json::to_json(b"\xa2\x01\xf9\x7e\x00\x20\x41\x00")?, r#"{"1": null, "-1": "AA"}"#);
//! let twice = b"\xa2\x01\x00\x61\x31\x00";
//! assert_eq!(json::to_json(twice).unwrap_err().kind(), ErrorKind::SameKeys);
//! assert_eq!(json::fault(twice, false), Some(json::Fault::SameKeys { first: 1, second: 3 }));
//! # Ok::<(), semphluk::Error>(())
//! ```

use crate::cbor_diag_c::conversion::cbor_diag_output_fault;
use crate::error::{ErrorKind, Result};
use crate::form::{Form, converted};
use crate::rattle::alloc::Global;
use std::fmt;

/// An item as JSON on one line. Tags are left out. NaN, the infinities and undefined become null, byte strings
/// base64url, and a key that is no text a string of its EDN.
///
/// If two keys of a map become the same, the error is [`ErrorKind::SameKeys`].
pub fn to_json(bytes: &[u8]) -> Result<String> {
    converted(Form::Bytes, Form::Json, bytes)
}

/// The same, but what JSON does not keep is the error [`ErrorKind::NotKept`].
pub fn to_json_strict(bytes: &[u8]) -> Result<String> {
    converted(Form::Bytes, Form::JsonStrict, bytes)
}

/// What JSON does not keep.
#[derive(Clone, Copy, PartialEq, Eq, Hash, Debug)]
#[non_exhaustive]
pub enum Loss {
    /// A tag.
    Tag,
    /// NaN or an infinity.
    NotFinite,
    /// A simple value other than false, true and null.
    Simple,
    /// A byte string.
    Bytes,
    /// A key that is not a text string.
    Key,
}

/// The kinds of loss, by their numbers in the library for C, from 1 on.
const LOSSES: [Loss; 5] = [Loss::Tag, Loss::NotFinite, Loss::Simple, Loss::Bytes, Loss::Key];

impl fmt::Display for Loss {
    fn fmt(&self, f: &mut fmt::Formatter<'_>) -> fmt::Result {
        f.pad(match self {
            Loss::Tag => "a tag",
            Loss::NotFinite => "NaN or an infinity",
            Loss::Simple => "a simple value other than false, true and null",
            Loss::Bytes => "a byte string",
            Loss::Key => "a key that is no text",
        })
    }
}

/// Why an item has no JSON. An offset is how many bytes of the item come before.
#[derive(Clone, Copy, PartialEq, Eq, Hash, Debug)]
#[non_exhaustive]
pub enum Fault {
    /// Two keys of a map become the same.
    SameKeys {
        /// The offset of the first of the two.
        first: usize,
        /// The offset of the second.
        second: usize,
    },
    /// JSON does not keep this.
    NotKept {
        /// The first offset of it.
        offset: usize,
        /// What it is.
        loss: Loss,
    },
}

/// Finds why the bytes of an item have no JSON, or, if `strict` is set, none that keeps all of it. Returns `None` if
/// they have one, if they are no item, and out of memory.
pub fn fault(bytes: &[u8], strict: bool) -> Option<Fault> {
    let to = if strict { Form::JsonStrict } else { Form::Json };
    let (mut place, mut detail) = (0, 0);
    let from = Form::Bytes.number();
    let answer = cbor_diag_output_fault(Global, from, to.number(), bytes, &mut place, &mut detail);
    if answer >= 0 {
        return None;
    }
    match ErrorKind::of(answer) {
        ErrorKind::SameKeys => Some(Fault::SameKeys { first: detail, second: place }),
        ErrorKind::NotKept => {
            let loss = *LOSSES.get(detail.wrapping_sub(1))?;
            Some(Fault::NotKept { offset: place, loss })
        }
        _ => None,
    }
}
