//! The names of parts of COSE, CWT, EAT, SenML and CTAP2.
//!
//! ```
//! use semphluk::{edn, names};
//!
//! let sign1 = edn::from_edn("18([<<{1: -7}>>, {}, h'', h''])")?;
//! assert_eq!(names::name_at(&sign1, "0/@/1", None)?.as_deref(), Some("alg"));
//! let key = edn::from_edn("{1: 4}")?;
//! assert_eq!(names::named(&key, Some("COSE_Key"))?, "/COSE_Key/ {/kty/ 1: 4 /Symmetric/}");
//! # Ok::<(), semphluk::Error>(())
//! ```

use crate::cbor_diag_c::{names as names_of, page, shown};
use crate::error::{Error, Result};
use crate::form::Form;
use crate::rattle::alloc::Global;
use crate::written::{line, bytes_of, text_of};

/// Returns the name of the part of an item that a path leads to; `None` if it has no name. `kind` is the type of the
/// outermost item where no tag says it, such as `COSE_Key`.
///
/// The error is that of bytes that are not an item; [`ErrorKind::NoPart`](crate::ErrorKind::NoPart) if the path leads
/// to no part; [`ErrorKind::NoType`](crate::ErrorKind::NoType) if there is no such type; or out of memory.
pub fn name_at(bytes: &[u8], path: &str, kind: Option<&str>) -> Result<Option<String>> {
    let kind = kind.unwrap_or("").as_bytes();
    let name = text_of(|room| names_of::cbor_diag_name_at(Global, bytes, path.as_bytes(), kind, room))
        .map_err(|kind| Error::of_kind(kind, Form::Bytes, bytes))?;
    Ok(Some(name).filter(|name| !name.is_empty()))
}

/// An item in EDN over several lines as `cborcat` shows it: with names and notes, as comments. `kind` is the type of
/// the item where no tag says it.
///
/// The error is that for which the bytes are no item; [`ErrorKind::NoType`](crate::ErrorKind::NoType) if there is no
/// such type; or out of memory.
pub fn named(bytes: &[u8], kind: Option<&str>) -> Result<String> {
    let kind = kind.unwrap_or("").as_bytes();
    bytes_of(|room| shown::cbor_diag_named(Global, bytes, kind, room))
        .map(line)
        .map_err(|kind| Error::of_kind(kind, Form::Bytes, bytes))
}

/// Returns what is wrong with a file of names in TOML, with its line; `None` if nothing is. The only error is out of
/// memory.
///
/// ```
/// use semphluk::names;
///
/// let fault = names::fault("[Reading]\ntag = -1")?;
/// assert_eq!(fault.as_deref(), Some("line 2: a tag is an integer from 0 on"));
/// # Ok::<(), semphluk::Error>(())
/// ```
pub fn fault(names: &str) -> Result<Option<String>> {
    let message = text_of(|room| page::cbor_diag_names_fault(Global, names.as_bytes(), room))?;
    Ok(Some(message).filter(|message| !message.is_empty()))
}
