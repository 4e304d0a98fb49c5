//! Items that are checked by CDDL.

use crate::parts::{written, written_or};
use crate::{library, Result};
use std::cell::RefCell;
use std::fmt;

/// Rules in CDDL (RFC 8610), to check any number of items. docs/CDDL.md says what is read.
///
/// ```rust
/// use semphluk::{edn_to_bytes, Schema};
///
/// let schema = Schema::new("reading = { at: uint, ? c: float }", None).unwrap();
/// let item = edn_to_bytes(r#"{"at": 1, "c": 21.5}"#).unwrap();
/// assert_eq!(schema.check(&item).unwrap(), None);
/// let item = edn_to_bytes(r#"{"at": 1, "c": "hot"}"#).unwrap();
/// let misfit = schema.check(&item).unwrap().unwrap();
/// assert_eq!(misfit.path, "c");
/// assert_eq!(
///     misfit.to_string(),
///     r#"byte 7: expected float for c (line 1), found "hot"; at c"#,
/// );
/// ```
#[derive(Clone, PartialEq, Eq, Hash, Debug)]
pub struct Schema {
    bytes: Vec<u8>,
}

/// Why an item does not fit a [`Schema`]. Its `Display` is the message with the place.
#[derive(Clone, PartialEq, Eq, Hash, Debug)]
#[non_exhaustive]
pub struct Misfit {
    /// How many bytes come before what does not fit.
    pub place: usize,
    /// How many bytes come before the outermost item that it is in.
    pub item: usize,
    /// The path to it in that item, as [`part`](crate::part()) takes it; empty for that item itself.
    pub path: String,
    /// What the schema expects there.
    pub expected: String,
    /// What is there.
    pub found: String,
    /// The innermost rule or entry that has a name.
    pub rule: Option<String>,
    /// The line of that in the CDDL, which counts from 1.
    pub line: Option<usize>,
    /// What is expected and what is found, the path, and how many other alternatives came less far, in one line.
    pub message: String,
}

impl fmt::Display for Misfit {
    fn fmt(&self, f: &mut fmt::Formatter<'_>) -> fmt::Result {
        write!(f, "byte {}: {}", self.place, self.message)
    }
}

/// Why a text of CDDL gives no [`Schema`]. Its `Display` says why, with the line and the column.
#[derive(Clone, PartialEq, Eq, Hash, Debug)]
#[non_exhaustive]
pub struct CddlError {
    /// The line, which counts from 1; `None` for an error that has no place: no rule is there, or memory ran out.
    pub line: Option<usize>,
    /// The column, in characters, which counts from 1.
    pub column: Option<usize>,
    message: String,
}

impl fmt::Display for CddlError {
    fn fmt(&self, f: &mut fmt::Formatter<'_>) -> fmt::Result {
        f.pad(&self.message)
    }
}

impl std::error::Error for CddlError {}

/// A number that is 0 where there is none.
fn some(number: usize) -> Option<usize> {
    Some(number).filter(|number| *number > 0)
}

/// What is wrong with a text of CDDL.
fn error_of(cddl: &str, rule: &str) -> CddlError {
    let place = RefCell::new((0, 0));
    // SAFETY: the pointers are those of the slices, of the variables and of the room, and do not overlap.
    let message = written(|room, length| unsafe {
        let (line, column) = &mut *place.borrow_mut();
        library::cbor_diag_schema_fault(
            cddl.as_ptr(),
            cddl.len(),
            rule.as_ptr(),
            rule.len(),
            line,
            column,
            room,
            length,
        )
    });
    let (line, column) = place.into_inner();
    let message = match message {
        Ok(message) => String::from_utf8(message).expect("the message is UTF-8"),
        Err(error) => error.to_string(),
    };
    CddlError {
        line: some(line),
        column: some(column),
        message,
    }
}

impl Schema {
    /// Loads a text of CDDL. An item has to fit the rule `rule`, or the first one.
    pub fn new(cddl: &str, rule: Option<&str>) -> std::result::Result<Schema, CddlError> {
        let rule = rule.unwrap_or("");
        // SAFETY: the pointers are those of the slices and of the room, with their lengths, and do not overlap.
        let bytes = written_or(|room, length| unsafe {
            library::cbor_diag_schema_load(
                cddl.as_ptr(),
                cddl.len(),
                rule.as_ptr(),
                rule.len(),
                room,
                length,
            )
        });
        match bytes {
            Ok(bytes) => Ok(Schema { bytes }),
            Err(_) => Err(error_of(cddl, rule)),
        }
    }

    /// Calls the library on some bytes.
    fn call(&self, bytes: &[u8], misfit: &mut library::Misfit, message: &mut [u8]) -> Result<usize> {
        // SAFETY: the pointers are those of the slices, with their lengths, and of the struct, and do not overlap.
        let answer = unsafe {
            library::cbor_diag_schema_misfit(
                self.bytes.as_ptr(),
                self.bytes.len(),
                bytes.as_ptr(),
                bytes.len(),
                misfit,
                message.as_mut_ptr(),
                message.len(),
            )
        };
        usize::try_from(answer).map_err(|_| crate::Error::of(answer))
    }

    /// Returns why the first of the items that does not fit does not; `None` if all fit. The bytes are a sequence of
    /// items, none or more.
    ///
    /// The error is that for which the bytes after the items that fit are no item,
    /// [`Error::TooMuchWork`](crate::Error::TooMuchWork) or [`Error::Memory`](crate::Error::Memory).
    pub fn check(&self, bytes: &[u8]) -> Result<Option<Misfit>> {
        let mut told = library::Misfit::default();
        let length = self.call(bytes, &mut told, &mut [])?;
        if length == 0 {
            return Ok(None);
        }
        let mut message = vec![0; length];
        self.call(bytes, &mut told, &mut message)?;
        let message = String::from_utf8(message).expect("the message is UTF-8");
        let rule = &message[told.rule..told.rule_end];
        Ok(Some(Misfit {
            place: told.place,
            item: told.item,
            path: message[told.path..told.path_end].to_owned(),
            expected: message[told.expected..told.expected_end].to_owned(),
            found: message[told.found..told.found_end].to_owned(),
            rule: (!rule.is_empty()).then(|| rule.to_owned()),
            line: some(told.line),
            message,
        }))
    }
}
