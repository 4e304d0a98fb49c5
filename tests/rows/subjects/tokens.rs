//! Runs the test rows about tokens and digits, and returns each result as text.
//!
//! A row calls a function of `cbor_tokens` by its name: a decoder of digits, whose result is in
//! hex, `push_hex`, or a reader of one token of notation.
//!
//! Words may follow a name: the place from which a token is read, as in `number_at 1`; the quote
//! that ends it, as in `quoted_at 0 '`; and `comments`, if `digits_at 0 comments` allows them. The
//! result is what was found and the place after it, for a number also its encoding indicator.

use crate::row::Row;
use crate::texts::hex_text;
use cbor_tokens::{
    base32_decode, base32hex_decode, base64_any_decode, blank_end, decode_hex, digits_at,
    number_at, push_hex, quoted_at,
};
use std::alloc::{AllocError, Global};

/// What the call of a row gives; none if it is no call of this subject.
pub fn answer(alloc: Global, row: &Row) -> Result<Option<String>, AllocError> {
    let digits = row.input.as_slice();
    let found = match row.call {
        "decode_hex" => decoded(alloc, decode_hex(alloc, digits)),
        "base32_decode" => decoded(alloc, base32_decode(alloc, digits)),
        "base32hex_decode" => decoded(alloc, base32hex_decode(alloc, digits)),
        "base64_any_decode" => decoded(alloc, base64_any_decode(alloc, digits)),
        "push_hex" => pushed_hex(alloc, &row.bytes),
        "blank_end" | "number_at" | "quoted_at" | "digits_at" => token(alloc, row),
        _ => return Ok(None),
    };
    Ok(Some(found?))
}

/// Bytes in hex, or `none`.
fn decoded(
    alloc: Global,
    found: Result<Option<Vec<u8>>, AllocError>,
) -> Result<String, AllocError> {
    match found? {
        Some(bytes) => hex_text(alloc, &bytes),
        None => String::from_str(alloc, "none"),
    }
}

/// What is appended to `h'`.
fn pushed_hex(alloc: Global, bytes: &[u8]) -> Result<String, AllocError> {
    let mut text = String::from_str(alloc, "h'")?;
    push_hex(&mut text, bytes)?;
    Ok(text)
}

/// What a call that reads a token gives.
fn token(alloc: Global, row: &Row) -> Result<String, AllocError> {
    let text = row.input.as_slice();
    let (place, word) = row.argument.split_once(" ").unwrap_or((row.argument, ""));
    let at = place.parse::<usize>().unwrap_or(0).min(text.len());
    match (row.call, word) {
        ("blank_end", _) => format!(in alloc; "{}", blank_end(text, at)),
        ("number_at", _) => number(alloc, number_at(text, at)),
        ("quoted_at", "\"") => content(alloc, quoted_at(alloc, text, at, b'"')),
        ("quoted_at", _) => content(alloc, quoted_at(alloc, text, at, b'\'')),
        _ => content(alloc, digits_at(alloc, text, at, word == "comments")),
    }
}

/// A number, its encoding indicator and the place after it, or `none`.
fn number(alloc: Global, found: Option<(u128, Option<u8>, usize)>) -> Result<String, AllocError> {
    match found {
        Some((value, Some(indicator), end)) => {
            format!(in alloc; "{value}_{indicator} up to {end}")
        }
        Some((value, None, end)) => format!(in alloc; "{value} up to {end}"),
        None => String::from_str(alloc, "none"),
    }
}

/// What was found and the place after it, or `none`.
fn content(
    alloc: Global,
    found: Result<Option<(Vec<u8>, usize)>, AllocError>,
) -> Result<String, AllocError> {
    let Some((content, end)) = found? else {
        return String::from_str(alloc, "none");
    };
    match std::str::from_utf8(&content) {
        Ok(text) => format!(in alloc; "{text} up to {end}"),
        Err(_) => String::from_str(alloc, "not UTF-8"),
    }
}
