//! Makes calls of `cbor_inputs`, and checks that each gives the right result, or the error for no
//! memory. Some give the result although an allocation failed: std's `collect`, which gathers the
//! digits of base 64, asks once more for less.

use crate::tally::{Tally, is_answered};
use cbor_diag::Error;
use cbor_inputs::{Input, Refusal, printed_bytes, recognize};
use std::alloc::Global;
use std::io::{self, Print};
use std::process::Abort;

/// The item in each form.
const TEXTS: [(Input, &[u8]); 4] = [
    (Input::Hex, b"82 01 02"),
    (Input::Diag, b"[1, 2]"),
    (Input::Base64, b"ggEC"),
    (Input::Bytes, b"\x82\x01\x02"),
];

/// The bytes of a text, if it is recognized as this form.
fn recognized(alloc: Global, form: Input, text: &[u8]) -> Result<Vec<u8>, Error> {
    match recognize(alloc, text) {
        Ok(found) if found.form == form => Ok(found.bytes),
        Err(Refusal::Memory) => Err(Error::Memory),
        _ => Err(Error::Notation),
    }
}

/// The bytes of an array in code.
fn printed(alloc: Global, text: &[u8]) -> Result<Vec<u8>, Error> {
    match printed_bytes(alloc, text) {
        Ok(Some((_, bytes))) => Ok(bytes),
        Ok(None) => Err(Error::Notation),
        Err(_) => Err(Error::Memory),
    }
}

/// Makes each call twice.
pub fn run(rt: &(impl Abort + Print), alloc: Global, tally: &mut Tally) -> io::Result<()> {
    for (form, text) in TEXTS {
        for _ in 0..2 {
            let found = recognized(alloc, form, text);
            tally.call(rt, "recognize", is_answered(rt, found, b"\x82\x01\x02"))?;
        }
    }
    for _ in 0..2 {
        let found = printed(alloc, b"vec![130, 1, 2]");
        tally.call(rt, "printed_bytes", is_answered(rt, found, b"\x82\x01\x02"))?;
    }
    Ok(())
}
