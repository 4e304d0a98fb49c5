//! EDN, the notation that people write and read (RFC 8949, section 8; RFC 8610, appendix G). JSON is read as EDN, too.
//!
//! ```
//! use semphluk::edn;
//!
//! let item = edn::from_edn(r#"{"at": 1(0), "c": 21.5}  # a comment"#)?;
//! assert_eq!(item, b"\xa2\x62at\xc1\x00\x61c\xf9\x4d\x60");
//! assert_eq!(edn::to_edn(&item)?, r#"{"at": 1(0), "c": 21.5}"#);
//! assert_eq!(edn::to_pretty(&item)?, r#"{"at": 1(0 /1970-01-01T00:00:00Z/), "c": 21.5}"#);
//! # Ok::<(), semphluk::Error>(())
//! ```

use crate::error::{Error, Result};
use crate::form::{Form, convert, converted};
use crate::rattle::alloc::Global;

/// An item in EDN on one line. It is read back as the same bytes, unless the item has a simple value below 32 in two
/// bytes.
pub fn to_edn(bytes: &[u8]) -> Result<String> {
    match crate::cbor_edn_writer::bytes_to_edn(Global, bytes) {
        Ok(text) => Ok(text.as_str().to_owned()),
        Err(error) => Err(Error::of(-i64::from(error.number()), Form::Bytes, bytes)),
    }
}

/// An item in EDN over several lines, with notes as comments.
pub fn to_pretty(bytes: &[u8]) -> Result<String> {
    converted(Form::Bytes, Form::EdnPretty, bytes)
}

/// The bytes of one item in EDN or JSON.
pub fn from_edn(text: &str) -> Result<Vec<u8>> {
    convert(Form::Edn, Form::Bytes, text.as_bytes())
}
