//! `recognize`: the form that an input has, and the bytes that it stands for.

use crate::cbor_diag_c::recognized::cbor_diag_recognize;
use crate::error::{ErrorKind, Result};
use crate::rattle::alloc::Global;
use crate::written::answer_of;
use std::cell::Cell;

/// The form that [`recognize`] finds.
#[derive(Clone, Copy, PartialEq, Eq, Hash, Debug)]
#[non_exhaustive]
pub enum Input {
    /// The bytes of items, one after the other.
    Bytes,
    /// These bytes in hex, as people paste it.
    Hex,
    /// Items in EDN, none or more.
    Edn,
    /// The bytes in base 64, in either alphabet.
    Base64,
}

/// Returns the form that an input has, and the bytes that it stands for, as `cborcat` finds them. Unless it is hex,
/// these are items, none or more, one after the other. No text is taken for bytes.
///
/// The error is [`ErrorKind::NotRecognized`] or [`ErrorKind::Memory`].
///
/// ```
/// use semphluk::{Input, recognize};
///
/// assert_eq!(recognize(b"0x82 01 02")?, (Input::Hex, b"\x82\x01\x02".to_vec()));
/// # Ok::<(), semphluk::Error>(())
/// ```
pub fn recognize(input: &[u8]) -> Result<(Input, Vec<u8>)> {
    let form = Cell::new(0);
    let bytes = answer_of(input.len(), |room| {
        let mut found = 0;
        let answer = cbor_diag_recognize(Global, input, &mut found, room);
        form.set(found);
        answer
    })
    .map_err(ErrorKind::of)?;
    let form = match form.get() {
        0 => Input::Bytes,
        1 => Input::Hex,
        2 => Input::Edn,
        3 => Input::Base64,
        other => unreachable!("no form has the number {other}"),
    };
    Ok((form, bytes))
}
