//! Items as JSON, and why an item has none.

use crate::{library, notation, Error, Form, Result};
use std::fmt;

/// An item as JSON on one line, without a line feed at the end (RFC 8949, section 6.1). Tags are left out. NaN, the
/// infinities and undefined become null, byte strings base64url, and a key that is no text a string of its EDN.
///
/// The errors are those of [`convert`](crate::convert), and [`Error::SameKeys`] if two keys of a map become the same.
///
/// ```rust
/// use semphluk::bytes_to_json;
///
/// let json = bytes_to_json(b"\xa2\x01\x1b\xff\xff\xff\xff\xff\xff\xff\xff\x20\xf9\x7e\x00").unwrap();
/// assert_eq!(json, r#"{"1": 18446744073709551615, "-1": null}"#);
/// ```
pub fn bytes_to_json(bytes: &[u8]) -> Result<String> {
    notation(Form::Bytes, Form::Json, bytes)
}

/// The same, but what JSON does not keep is the error [`Error::NotKept`].
pub fn bytes_to_json_strict(bytes: &[u8]) -> Result<String> {
    notation(Form::Bytes, Form::JsonStrict, bytes)
}

/// An item in hex as JSON, as [`bytes_to_json`] writes it.
pub fn hex_to_json(hex: &str) -> Result<String> {
    notation(Form::Hex, Form::Json, hex.as_bytes())
}

/// An item in hex as JSON, as [`bytes_to_json_strict`] writes it.
pub fn hex_to_json_strict(hex: &str) -> Result<String> {
    notation(Form::Hex, Form::JsonStrict, hex.as_bytes())
}

/// What JSON does not keep.
#[derive(Clone, Copy, PartialEq, Eq, Hash, Debug)]
#[non_exhaustive]
pub enum LossKind {
    /// A tag.
    Tag,
    /// NaN or an infinity.
    NotFinite,
    /// A simple value other than false, true and null.
    Simple,
    /// A byte string.
    Bytes,
    /// A key that is not a text string.
    Key,
}

impl LossKind {
    /// The kind with this number.
    fn of(number: usize) -> LossKind {
        match number {
            1 => LossKind::Tag,
            2 => LossKind::NotFinite,
            3 => LossKind::Simple,
            4 => LossKind::Bytes,
            5 => LossKind::Key,
            _ => unreachable!("the library told {number}"),
        }
    }
}

impl fmt::Display for LossKind {
    fn fmt(&self, f: &mut fmt::Formatter<'_>) -> fmt::Result {
        f.pad(match self {
            LossKind::Tag => "a tag",
            LossKind::NotFinite => "NaN or an infinity",
            LossKind::Simple => "a simple value other than false, true and null",
            LossKind::Bytes => "a byte string",
            LossKind::Key => "a key that is no text",
        })
    }
}

/// Why an item has no JSON. A place is how many bytes of the item come before it.
#[derive(Clone, Copy, PartialEq, Eq, Hash, Debug)]
pub enum JsonFault {
    /// Two keys of a map become the same.
    SameKeys {
        /// The place of the first of the two.
        first: usize,
        /// The place of the second.
        second: usize,
    },
    /// JSON does not keep this: only for [`Form::JsonStrict`].
    NotKept {
        /// The first place of it.
        place: usize,
        /// What it is.
        kind: LossKind,
    },
}

/// Finds why an item has no JSON, after [`convert`](crate::convert) of the two forms has failed with
/// [`Error::SameKeys`] or [`Error::NotKept`].
///
/// The bytes of the item are those of a conversion to [`Form::Bytes`].
///
/// Returns `None` if the conversion has an output or another error, and out of memory.
///
/// ```rust
/// use semphluk::{json_fault, Form, JsonFault};
///
/// let found = json_fault(Form::Bytes, Form::Json, b"\xa2\x01\x00\x61\x31\x00");
/// assert_eq!(found, Some(JsonFault::SameKeys { first: 1, second: 3 }));
/// ```
pub fn json_fault(from: Form, to: Form, input: &[u8]) -> Option<JsonFault> {
    let (mut place, mut detail) = (0, 0);
    // SAFETY: the pointers are those of the slice, with its length, and of the variables.
    let answer = unsafe {
        library::cbor_diag_output_fault(
            from.number(),
            to.number(),
            input.as_ptr(),
            input.len(),
            &mut place,
            &mut detail,
        )
    };
    if answer >= 0 {
        return None;
    }
    match Error::of(answer) {
        Error::SameKeys => Some(JsonFault::SameKeys {
            first: detail,
            second: place,
        }),
        Error::NotKept => Some(JsonFault::NotKept {
            place,
            kind: LossKind::of(detail),
        }),
        _ => None,
    }
}
