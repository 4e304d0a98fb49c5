//! Runs the test rows about the forms of inputs, and returns each result as text. The calls:
//!
//! - `recognize` gives the form of an input and the bytes that it stands for; or, after `no`, the
//!   form that reads it furthest, and the place and the words of its error. `also` gives a later
//!   form that reads the input too, or `none`.
//! - `is_text` says whether bytes are all text, and `text_fault` gives the place of a byte that no
//!   text has, or `none`.
//! - `printed` gives what a text of bytes is that a program printed or has, and the bytes, or `none`;
//!   `printed_place` the place of the byte of a number in it.
//! - `looks_like` gives what else a text may be, or `none`.

use crate::row::Row;
use crate::texts::hex_text;
use cbor_inputs::{HexFault, Refusal, is_text, looks_like, recognize, text_fault};
use cbor_inputs::{place_of_printed, printed_bytes};
use std::alloc::{AllocError, Global};

/// What the call of a row gives; none if it is no call of this subject.
pub fn answer(alloc: Global, row: &Row) -> Result<Option<String>, AllocError> {
    let found = match row.call {
        "recognize" => recognized(alloc, &row.input),
        "also" => also(alloc, &row.input),
        "printed" => printed(alloc, &row.input),
        "printed_place" => {
            let byte = row.argument.parse().unwrap_or(0);
            format!(in alloc; "{}", place_of_printed(&row.input, byte))
        }
        "is_text" => format!(in alloc; "{}", is_text(&row.input)),
        "text_fault" => match text_fault(&row.input) {
            Some(place) => format!(in alloc; "{place}"),
            None => String::from_str(alloc, "none"),
        },
        "looks_like" => match looks_like(&row.input) {
            Some(pasted) => format!(in alloc; "{pasted:?}"),
            None => String::from_str(alloc, "none"),
        },
        _ => return Ok(None),
    };
    Ok(Some(found?))
}

/// The form of an input, and the bytes that it stands for.
fn recognized(alloc: Global, text: &[u8]) -> Result<String, AllocError> {
    match recognize(alloc, text) {
        Ok(found) => {
            let bytes = hex_text(alloc, &found.bytes)?;
            format!(in alloc; "{:?} h'{bytes}'", found.form)
        }
        Err(refusal) => refusal_text(alloc, refusal),
    }
}

/// What a text is that a program printed or has, and its bytes.
fn printed(alloc: Global, text: &[u8]) -> Result<String, AllocError> {
    match printed_bytes(alloc, text)? {
        Some((printed, bytes)) => {
            let bytes = hex_text(alloc, &bytes)?;
            format!(in alloc; "{printed:?} h'{bytes}'")
        }
        None => String::from_str(alloc, "none"),
    }
}

/// A later form that reads the input.
fn also(alloc: Global, text: &[u8]) -> Result<String, AllocError> {
    match recognize(alloc, text) {
        Ok(found) => match found.also(alloc, text)? {
            Some(form) => format!(in alloc; "{form:?}"),
            None => String::from_str(alloc, "none"),
        },
        Err(refusal) => refusal_text(alloc, refusal),
    }
}

/// Why an input has no form.
fn refusal_text(alloc: Global, refusal: Refusal) -> Result<String, AllocError> {
    match refusal {
        Refusal::Memory => Err(AllocError),
        Refusal::Hex(HexFault::Odd(at)) => format!(in alloc; "no Hex: {at} Odd"),
        Refusal::Hex(HexFault::Digit(at)) => format!(in alloc; "no Hex: {at} Digit"),
        Refusal::Diag { expected, at } => format!(in alloc; "no Diag: {at} {expected}"),
        refusal => format!(in alloc; "no {refusal:?}"),
    }
}
