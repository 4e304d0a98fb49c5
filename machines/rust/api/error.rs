//! Why a call failed.

use crate::cbor_diag_c::{error, faults, messages};
use crate::form::Form;
use crate::rattle::alloc::Global;
use crate::written::text_of;
use std::fmt;

/// What is wrong with an input, or with what was asked for.
#[derive(Clone, Copy, PartialEq, Eq, Hash, Debug)]
#[non_exhaustive]
pub enum ErrorKind {
    /// Out of memory. It says nothing about the input.
    Memory,
    /// The input ends before the item does.
    Truncated,
    /// A head that cannot be in its place.
    Head,
    /// A text string is not UTF-8, or the hex, notation or EDN of the input is not.
    Utf8,
    /// An item is deeper than level 128; the outermost item is at level 1.
    TooDeep,
    /// Bytes follow the item.
    Remaining,
    /// Without comments, spaces and line ends, the hex has an odd number of digits.
    OddHex,
    /// A character of the hex is no digit.
    BadHex,
    /// The text is not diagnostic notation, or not one item in EDN.
    Notation,
    /// A number is too large for the width written after it.
    PastWidth,
    /// No encoding of the items keeps the rules, or the bytes are not items.
    NotEncodable,
    /// Two keys of a map become the same in JSON.
    SameKeys,
    /// JSON does not keep all of the item: only for [`Form::JsonStrict`].
    NotKept,
    /// The path leads to no part of the item.
    NoPart,
    /// No type of the tables of names has this name.
    NoType,
    /// Neither hex, EDN, base 64 nor bytes of items.
    NotRecognized,
    /// The file of names has an error.
    WrongNames,
    /// Matching an item takes more than 10 million steps, or nests too deeply.
    TooMuchWork,
}

/// Each kind with its number in the library for C.
const KINDS: [(u32, ErrorKind); 18] = [
    (1, ErrorKind::Memory),
    (2, ErrorKind::Truncated),
    (3, ErrorKind::Head),
    (4, ErrorKind::Utf8),
    (5, ErrorKind::TooDeep),
    (6, ErrorKind::Remaining),
    (7, ErrorKind::OddHex),
    (8, ErrorKind::BadHex),
    (9, ErrorKind::Notation),
    (10, ErrorKind::PastWidth),
    (13, ErrorKind::NotEncodable),
    (14, ErrorKind::SameKeys),
    (15, ErrorKind::NotKept),
    (16, ErrorKind::NoPart),
    (17, ErrorKind::NoType),
    (18, ErrorKind::NotRecognized),
    (19, ErrorKind::WrongNames),
    (22, ErrorKind::TooMuchWork),
];

impl ErrorKind {
    /// The kind for minus its number. The other numbers are errors of arguments that this crate never passes.
    pub(crate) fn of(answer: i64) -> ErrorKind {
        match KINDS.iter().find(|(number, _)| -i64::from(*number) == answer) {
            Some((_, kind)) => *kind,
            None => unreachable!("a call answered {answer}"),
        }
    }

    /// Its number in the library for C.
    fn number(self) -> u32 {
        match KINDS.iter().find(|(_, kind)| *kind == self) {
            Some((number, _)) => *number,
            None => unreachable!("{self:?} has no number"),
        }
    }
}

impl fmt::Display for ErrorKind {
    fn fmt(&self, f: &mut fmt::Formatter<'_>) -> fmt::Result {
        let mut text = [0; 64];
        let length = error::cbor_diag_error_text(self.number(), &mut text);
        let written = usize::try_from(length).ok().and_then(|length| text.get(..length));
        f.pad(std::str::from_utf8(written.unwrap_or_default()).unwrap_or_default())
    }
}

/// Why a call failed. Its `Display` says what is wrong, and where in the item.
///
/// ```
/// use semphluk::{ErrorKind, edn, hex};
///
/// let error = edn::to_edn(b"\xa1\x61k\x82\x01").unwrap_err();
/// assert_eq!((error.kind(), error.offset(), error.path()), (ErrorKind::Truncated, Some(5), Some("k/1")));
/// assert_eq!(error.to_string(), "truncated: the array at k (byte 3) has 2 items, 1 is there");
///
/// let error = edn::from_edn(r#"{"a" 1}"#).unwrap_err();
/// assert_eq!((error.kind(), error.offset()), (ErrorKind::Notation, Some(5)));
/// assert_eq!(error.to_string(), "a colon has to follow the key");
///
/// let error = hex::from_hex("82 01 # one\n1f # what?").unwrap_err();
/// assert_eq!((error.kind(), error.offset()), (ErrorKind::Head, Some(12)));
/// ```
#[derive(Clone, PartialEq, Eq, Hash, Debug)]
pub struct Error {
    kind: ErrorKind,
    offset: Option<usize>,
    path: Option<String>,
    message: Option<String>,
}

/// The result of a call.
pub type Result<T> = std::result::Result<T, Error>;

impl Error {
    /// What is wrong.
    pub fn kind(&self) -> ErrorKind {
        self.kind
    }

    /// How many bytes of the input come before the error.
    ///
    /// In bytes that is the malformed byte; the last byte of a text that is not UTF-8; the end of truncated bytes; or
    /// the first byte after the item. In hex it is the first digit of that byte, or the digit that is wrong. In
    /// notation and EDN it is the first byte with which the text cannot go on, or the end of a text that is only
    /// truncated. `None` if the error has no place, as out of memory.
    pub fn offset(&self) -> Option<usize> {
        self.offset
    }

    /// The path to the truncated or malformed item, in bytes and in hex: steps joined by `/`, as [`path`](crate::path)
    /// takes them. `/` is the outermost item.
    pub fn path(&self) -> Option<&str> {
        self.path.as_deref()
    }

    /// The error for the negative answer of a call on this input.
    pub(crate) fn of(answer: i64, from: Form, input: &[u8]) -> Error {
        Error::of_kind(ErrorKind::of(answer), from, input)
    }

    /// The error of this kind that this input has.
    pub(crate) fn of_kind(kind: ErrorKind, from: Form, input: &[u8]) -> Error {
        let mut error = Error::from(kind);
        let mut place = 0;
        let found = faults::cbor_diag_fault(Global, from.number(), input, &mut place);
        if found == -i64::from(kind.number()) && place != faults::NO_PLACE {
            error.offset = Some(place);
            error.path = text_of(|room| messages::cbor_diag_fault_path(Global, from.number(), input, room)).ok();
            error.message = text_of(|room| messages::cbor_diag_fault_message(Global, from.number(), input, room)).ok();
        }
        error.path = error.path.filter(|path| !path.is_empty());
        error.message = error.message.filter(|message| !message.is_empty());
        error
    }
}

impl From<ErrorKind> for Error {
    fn from(kind: ErrorKind) -> Error {
        Error { kind, offset: None, path: None, message: None }
    }
}

impl fmt::Display for Error {
    fn fmt(&self, f: &mut fmt::Formatter<'_>) -> fmt::Result {
        match &self.message {
            Some(message) => f.pad(message),
            None => self.kind.fmt(f),
        }
    }
}

impl std::error::Error for Error {}
