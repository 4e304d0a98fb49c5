//! The names of parts of items.

use crate::parts::written;
use crate::{library, Error, Result};

/// Returns the name of the part of an item that a path leads to, in COSE, CWT, EAT, SenML or CTAP2; `None` if it has no
/// name.
///
/// A path has steps joined by `/`, as `cborcat -p` reads them. The empty path leads to the item itself. The result for
/// a path with a `*` is `None`. `kind` is the type of the outermost item where no tag says it, such as `COSE_Key`.
///
/// The error is that of bytes that are not an item; [`Error::NoPart`] if the path leads to no part of the item;
/// [`Error::NoType`] if there is no such type; or [`Error::Memory`].
///
/// ```rust
/// use semphluk::name_at;
///
/// // 18([<<{1: -7}>>, {}, h'', h''])
/// let sign1 = b"\xd2\x84\x43\xa1\x01\x26\xa0\x40\x40";
/// assert_eq!(name_at(sign1, "0/@/1", None).unwrap().as_deref(), Some("alg"));
/// ```
pub fn name_at(bytes: &[u8], path: &str, kind: Option<&str>) -> Result<Option<String>> {
    let kind = kind.unwrap_or("");
    let mut name = vec![0; 64];
    loop {
        // SAFETY: the pointers are those of the slices and of the vector, with their lengths, and do not overlap.
        let answer = unsafe {
            library::cbor_diag_name_at(
                bytes.as_ptr(),
                bytes.len(),
                path.as_ptr(),
                path.len(),
                kind.as_ptr(),
                kind.len(),
                name.as_mut_ptr(),
                name.len(),
            )
        };
        let length = usize::try_from(answer).map_err(|_| Error::of(answer))?;
        let fits = length <= name.len();
        name.resize(length, 0);
        if fits {
            let name = String::from_utf8(name).expect("the name is ASCII");
            return Ok(Some(name).filter(|name| !name.is_empty()));
        }
    }
}

/// An item in EDN over several lines as `cborcat` shows it: with the names of COSE, CWT, EAT, SenML and CTAP2, and with
/// notes, as comments; without a line feed at the end. `kind` is the type of the item where no tag says it.
///
/// The error is that for which the bytes are no item; [`Error::NoType`] if there is no such type; or [`Error::Memory`].
///
/// ```rust
/// use semphluk::named;
///
/// let text = named(b"\xa1\x01\x04", Some("COSE_Key")).unwrap();
/// assert_eq!(text, "/COSE_Key/ {/kty/ 1: 4 /Symmetric/}");
/// ```
pub fn named(bytes: &[u8], kind: Option<&str>) -> Result<String> {
    let kind = kind.unwrap_or("");
    // SAFETY: the pointers are those of the slices and of the room, with their lengths, and do not overlap.
    let text = written(|room, length| unsafe {
        let (given, kind_len) = (bytes.as_ptr(), kind.len());
        library::cbor_diag_named(given, bytes.len(), kind.as_ptr(), kind_len, room, length)
    })?;
    let mut text = String::from_utf8(text).expect("the text is UTF-8");
    text.pop();
    Ok(text)
}
