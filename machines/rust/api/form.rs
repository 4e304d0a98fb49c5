//! `convert`: an item from one form to another.

use crate::cbor_diag_c::conversion::cbor_diag_convert;
use crate::error::{Error, Result};
use crate::rattle::alloc::Global;
use crate::written::{answer_of, line};

/// The form of an input or of an output.
#[derive(Clone, Copy, PartialEq, Eq, Hash, Debug)]
#[non_exhaustive]
pub enum Form {
    /// The bytes of an item.
    Bytes,
    /// Hex with comments from `#` to the end of the line. As an output it is a dump.
    Hex,
    /// Diagnostic notation. As an output it has only line feeds of its texts, and one at its end.
    Diag,
    /// Diagnostic notation. As an output it may have several lines, and ends with a line feed.
    Pretty,
    /// One item in EDN. An input may be JSON. As an output it is one line, and ends with a line feed.
    Edn,
    /// One item in EDN. As an output it may have several lines and comments, and ends with a line feed.
    EdnPretty,
    /// JSON on one line, with a line feed at its end. An input is read as EDN.
    Json,
    /// The same, but what JSON does not keep is an error.
    JsonStrict,
    /// The lines of a page of HTML, without names. An input is read as EDN.
    Html,
}

impl Form {
    /// Its number in the library for C.
    pub(crate) fn number(self) -> u32 {
        self as u32
    }
}

/// How long most outputs are.
fn likely_length(to: Form, input: &[u8]) -> usize {
    let factor = match to {
        Form::Hex => 8,
        Form::Html => 80,
        _ => 3,
    };
    input.len().saturating_mul(factor).saturating_add(64)
}

/// Converts an item from one form to another. An output in notation, EDN or JSON ends with a line feed.
///
/// ```
/// use semphluk::{Form, convert};
///
/// assert_eq!(convert(Form::Hex, Form::Pretty, b"a1 01 82 02 03  # a map")?, b"{1: [2, 3]}\n");
/// # Ok::<(), semphluk::Error>(())
/// ```
pub fn convert(from: Form, to: Form, input: &[u8]) -> Result<Vec<u8>> {
    answer_of(likely_length(to, input), |room| {
        cbor_diag_convert(Global, from.number(), to.number(), input, room)
    })
    .map_err(|answer| Error::of(answer, from, input))
}

/// The same, as text without the line feed at its end.
pub(crate) fn converted(from: Form, to: Form, input: &[u8]) -> Result<String> {
    convert(from, to, input).map(line)
}
