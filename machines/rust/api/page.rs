//! The lines of a page of HTML: each line of EDN beside its own bytes.

use crate::cbor_diag_c::page::cbor_diag_page;
use crate::error::Result;
use crate::rattle::alloc::Global;
use crate::written::{answer_of, text};

/// How [`lines`] shows items.
#[derive(Clone, Copy, PartialEq, Eq, Hash, Debug)]
pub struct Style<'a> {
    /// The type of the outermost items where no tag says it, such as `COSE_Key`.
    pub kind: Option<&'a str>,
    /// A file of names in TOML; empty for none.
    pub names: &'a str,
    /// Whether there are names and notes.
    pub notes: bool,
    /// Whether a byte string that is an array, a map or a tagged item is shown as that.
    pub embedded: bool,
}

impl Default for Style<'_> {
    fn default() -> Self {
        Style { kind: None, names: "", notes: true, embedded: false }
    }
}

/// Returns the lines of a page of HTML that shows items, one after the other, each line beside its own bytes, as
/// `cborcat -t html` does. Of a truncated or malformed item they show the part that is there, and what is wrong. They
/// are elements of HTML, to be put into a page; no tag in them comes from the bytes.
///
/// The error is [`ErrorKind::NoType`](crate::ErrorKind::NoType) if there is no such type;
/// [`ErrorKind::WrongNames`](crate::ErrorKind::WrongNames) if the names have an error, which
/// [`names::fault`](crate::names::fault) says; or out of memory.
///
/// ```
/// use semphluk::page::{Style, lines};
///
/// let style = Style { kind: Some("COSE_Key"), ..Style::default() };
/// assert!(lines(b"\xa1\x01\x04", style)?.contains("/Symmetric/"));
/// # Ok::<(), semphluk::Error>(())
/// ```
pub fn lines(bytes: &[u8], style: Style<'_>) -> Result<String> {
    let kind = style.kind.unwrap_or("").as_bytes();
    let flags = u32::from(!style.notes) + 2 * u32::from(style.embedded);
    let likely = bytes.len().saturating_mul(80).saturating_add(256);
    answer_of(likely, |room| cbor_diag_page(Global, bytes, kind, style.names.as_bytes(), flags, room))
        .map(text)
        .map_err(|answer| crate::error::ErrorKind::of(answer).into())
}
