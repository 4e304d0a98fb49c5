//! Items that are checked by rules in CDDL (RFC 8610).
//!
//! ```
//! use semphluk::{cddl::Schema, edn};
//!
//! let schema = Schema::new("record = {\n  at: time,\n  event: \"open\" / \"close\",\n}\n", None)?;
//! let item = edn::from_edn(r#"{"at": 1(0), "event": "opened"}"#)?;
//! let misfit = schema.check(&item)?.unwrap();
//! assert_eq!((misfit.offset, misfit.path.as_str(), misfit.line), (12, "event", Some(3)));
//! assert_eq!((misfit.expected.as_str(), misfit.found.as_str()), ("\"open\" / \"close\"", "\"opened\""));
//! # Ok::<(), Box<dyn std::error::Error>>(())
//! ```

use crate::cbor_diag_c::misfits::{MisfitParts, cbor_diag_schema_misfit};
use crate::cbor_diag_c::schemas::{cbor_diag_schema_fault, cbor_diag_schema_load};
use crate::error::{Error, ErrorKind, Result};
use crate::form::Form;
use crate::rattle::alloc::Global;
use crate::written::{answer_of, text, text_of};
use std::cell::Cell;
use std::fmt;

/// Rules in CDDL, to check any number of items, in any number of threads.
#[derive(Clone, PartialEq, Eq, Hash, Debug)]
pub struct Schema {
    bytes: Vec<u8>,
}

/// Why an item does not fit a [`Schema`]. Its `Display` is the message with the offset.
#[derive(Clone, PartialEq, Eq, Hash, Debug)]
#[non_exhaustive]
pub struct Misfit {
    /// How many bytes come before what does not fit.
    pub offset: usize,
    /// How many bytes come before the outermost item that it is in.
    pub item: usize,
    /// The path to it in that item, as [`path`](crate::path) takes it; empty for that item itself.
    pub path: String,
    /// What the schema expects there.
    pub expected: String,
    /// What is there.
    pub found: String,
    /// The innermost rule or entry that has a name.
    pub rule: Option<String>,
    /// The line of that in the CDDL, which counts from 1.
    pub line: Option<usize>,
    /// What is expected and what is found, the path, and how many other alternatives came less far, in one line.
    pub message: String,
}

impl fmt::Display for Misfit {
    fn fmt(&self, f: &mut fmt::Formatter<'_>) -> fmt::Result {
        write!(f, "byte {}: {}", self.offset, self.message)
    }
}

/// Why a text of CDDL gives no [`Schema`]. Its `Display` says why, with the line and the column.
///
/// ```
/// use semphluk::cddl::Schema;
///
/// let error = Schema::new("a = [ uit ]", None).unwrap_err();
/// assert_eq!((error.line, error.column), (Some(1), Some(7)));
/// assert_eq!(error.to_string(), "1:7: no rule uit is there; uint is one");
/// ```
#[derive(Clone, PartialEq, Eq, Hash, Debug)]
#[non_exhaustive]
pub struct CddlError {
    /// The line, which counts from 1; `None` for an error that has no place: no rule is there, or memory ran out.
    pub line: Option<usize>,
    /// The column, in characters, which counts from 1.
    pub column: Option<usize>,
    message: String,
}

impl fmt::Display for CddlError {
    fn fmt(&self, f: &mut fmt::Formatter<'_>) -> fmt::Result {
        f.pad(&self.message)
    }
}

impl std::error::Error for CddlError {}

/// A number that is 0 where there is none.
fn some(number: usize) -> Option<usize> {
    Some(number).filter(|number| *number > 0)
}

/// What is wrong with a text of CDDL.
fn error_of(cddl: &str, rule: &str) -> CddlError {
    let place = Cell::new((0, 0));
    let message = text_of(|room| {
        let (mut line, mut column) = (0, 0);
        let (text, rule) = (cddl.as_bytes(), rule.as_bytes());
        let answer = cbor_diag_schema_fault(Global, text, rule, &mut line, &mut column, room);
        place.set((line, column));
        answer
    });
    let (line, column) = place.get();
    let message = message.unwrap_or_else(|kind| kind.to_string());
    CddlError { line: some(line), column: some(column), message }
}

impl Schema {
    /// Loads a text of CDDL. An item has to fit the rule `rule`, or the first one.
    pub fn new(cddl: &str, rule: Option<&str>) -> std::result::Result<Schema, CddlError> {
        let rule = rule.unwrap_or("");
        match answer_of(4096, |room| cbor_diag_schema_load(Global, cddl.as_bytes(), rule.as_bytes(), room)) {
            Ok(bytes) => Ok(Schema { bytes }),
            Err(_) => Err(error_of(cddl, rule)),
        }
    }

    /// Returns why the first of the items that does not fit does not; `None` if all fit. The bytes are a sequence of
    /// items, none or more.
    ///
    /// The error is that for which the bytes after the items that fit are no item, [`ErrorKind::TooMuchWork`] or
    /// [`ErrorKind::Memory`].
    pub fn check(&self, bytes: &[u8]) -> Result<Option<Misfit>> {
        let mut parts = MisfitParts {
            place: 0,
            item: 0,
            line: 0,
            expected: 0,
            expected_end: 0,
            rule: 0,
            rule_end: 0,
            found: 0,
            found_end: 0,
            path: 0,
            path_end: 0,
        };
        let mut message = vec![0; 512];
        loop {
            let answer = cbor_diag_schema_misfit(Global, &self.bytes, bytes, &mut parts, &mut message);
            let length = usize::try_from(answer).map_err(|_| self.error_of(answer, bytes))?;
            let fits = length <= message.len();
            message.resize(length, 0);
            if length == 0 {
                return Ok(None);
            }
            if fits {
                return Ok(Some(misfit_of(&parts, text(message))));
            }
        }
    }

    /// The error for the negative answer of a check.
    fn error_of(&self, answer: i64, bytes: &[u8]) -> Error {
        Error::of_kind(ErrorKind::of(answer), Form::Bytes, bytes)
    }
}

/// What is said of a misfit.
fn misfit_of(parts: &MisfitParts, message: String) -> Misfit {
    let rule = &message[parts.rule..parts.rule_end];
    Misfit {
        offset: parts.place,
        item: parts.item,
        path: message[parts.path..parts.path_end].to_owned(),
        expected: message[parts.expected..parts.expected_end].to_owned(),
        found: message[parts.found..parts.found_end].to_owned(),
        rule: (!rule.is_empty()).then(|| rule.to_owned()),
        line: some(parts.line),
        message,
    }
}
