//! The lines of a page of HTML, and files of names for it.

use crate::parts::written;
use crate::{library, Result};

/// How [`page()`] shows items.
#[derive(Clone, Copy, PartialEq, Eq, Hash, Debug)]
pub struct PageStyle<'a> {
    /// The type of the outermost items where no tag says it, such as `COSE_Key`.
    pub kind: Option<&'a str>,
    /// A file of names in TOML, as docs/NAMES.md describes it; empty for none.
    pub names: &'a str,
    /// Whether there are names and notes.
    pub notes: bool,
    /// Whether a byte string that is an array, a map or a tagged item is shown as that.
    pub embedded: bool,
}

impl Default for PageStyle<'_> {
    fn default() -> Self {
        PageStyle {
            kind: None,
            names: "",
            notes: true,
            embedded: false,
        }
    }
}

impl PageStyle<'_> {
    /// The flags of the library.
    fn flags(&self) -> u32 {
        u32::from(!self.notes) + 2 * u32::from(self.embedded)
    }
}

/// Returns the lines of a page of HTML that shows items, one after the other, each line beside its own bytes, as
/// `cborcat -t html` does: with the names of COSE, CWT, EAT, SenML and CTAP2, those of the style, and notes. Of a
/// truncated or malformed item they show the part that is there, and what is wrong. They are elements of HTML, to be
/// put into a page; no tag in them comes from the bytes.
///
/// The error is [`Error::NoType`](crate::Error::NoType) if there is no such type;
/// [`Error::WrongNames`](crate::Error::WrongNames) if the names have an error, which [`names_fault`] says; or
/// [`Error::Memory`](crate::Error::Memory).
///
/// ```rust
/// use semphluk::{page, PageStyle};
///
/// let style = PageStyle {
///     kind: Some("COSE_Key"),
///     ..PageStyle::default()
/// };
/// assert!(page(b"\xa1\x01\x04", style).unwrap().contains("/Symmetric/"));
/// ```
pub fn page(bytes: &[u8], style: PageStyle<'_>) -> Result<String> {
    let kind = style.kind.unwrap_or("");
    let (names, flags) = (style.names, style.flags());
    // SAFETY: the pointers are those of the slices and of the room, with their lengths, and do not overlap.
    let lines = written(|room, length| unsafe {
        library::cbor_diag_page(
            bytes.as_ptr(),
            bytes.len(),
            kind.as_ptr(),
            kind.len(),
            names.as_ptr(),
            names.len(),
            flags,
            room,
            length,
        )
    })?;
    Ok(String::from_utf8(lines).expect("the lines are UTF-8"))
}

/// Returns what is wrong with a file of names in TOML, with its line; `None` if nothing is.
///
/// The error is [`Error::Memory`](crate::Error::Memory).
///
/// ```rust
/// use semphluk::names_fault;
///
/// let fault = names_fault("[Reading]\ntag = -1").unwrap();
/// assert_eq!(fault.as_deref(), Some("line 2: a tag is an integer from 0 on"));
/// ```
pub fn names_fault(names: &str) -> Result<Option<String>> {
    // SAFETY: the pointers are those of the slice and of the room, with their lengths, and do not overlap.
    let message = written(|room, length| unsafe {
        library::cbor_diag_names_fault(names.as_ptr(), names.len(), room, length)
    })?;
    let message = String::from_utf8(message).expect("the message is UTF-8");
    Ok(Some(message).filter(|message| !message.is_empty()))
}
