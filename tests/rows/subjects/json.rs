//! Runs the test rows about JSON, and returns each result as text. The calls:
//!
//! - `bytes_to_json STYLE` gives the JSON of an item. STYLE is none, `embedded` or `strict`. If
//!   there is no JSON, it gives what is wrong and its place, or the places of two keys that become
//!   the same.
//! - `push_bytes_to_json_partial STYLE` gives how many bytes the item at the front takes, and its
//!   JSON, or `truncated`.
//! - `bytes_to_json_named STYLE PLACE=NAME..` gives the JSON with these names for the keys at these
//!   places.

use crate::row::Row;
use cbor_json::{
    Clash, JsonError, JsonStyle, Loss, NamedJson, bytes_to_json, bytes_to_json_named,
    push_bytes_to_json_partial,
};
use cbor_notes::Note;
use std::alloc::{AllocError, Global};

/// What the call of a row gives; none if it is no call of this subject.
pub fn answer(alloc: Global, row: &Row) -> Result<Option<String>, AllocError> {
    if row.call == "bytes_to_json_named" {
        return Ok(Some(named(alloc, row)?));
    }
    let Some(style) = style_of(row.argument) else {
        return Ok(None);
    };
    let found = match row.call {
        "bytes_to_json" => match bytes_to_json(alloc, &row.bytes, style) {
            Ok(text) => Ok(text),
            Err(error) => error_text(alloc, error),
        },
        "push_bytes_to_json_partial" => front(alloc, &row.bytes, style),
        _ => return Ok(None),
    };
    Ok(Some(found?))
}

/// The style of these words.
fn style_of(words: &str) -> Option<JsonStyle> {
    match words {
        "" => Some(JsonStyle::PLAIN),
        "embedded" => Some(JsonStyle::EMBEDDED),
        "strict" => Some(JsonStyle::STRICT),
        _ => None,
    }
}

/// How JSON with these names is written.
fn named_json<'a>(style: JsonStyle, names: &'a [Note<'a>]) -> NamedJson<'a> {
    NamedJson {
        style,
        names,
        marks: None,
    }
}

/// The JSON with the names that the row has.
fn named(alloc: Global, row: &Row) -> Result<String, AllocError> {
    let mut style = JsonStyle::PLAIN;
    let mut names = Vec::new(alloc);
    for word in row.argument.split(' ') {
        match word.split_once("=") {
            Some((place, name)) => names.push(Note {
                start: place.parse::<usize>().unwrap_or(usize::MAX),
                before: name,
                after: "",
                encoded: false,
            })?,
            None => style = style_of(word).unwrap_or(style),
        }
    }
    match bytes_to_json_named(alloc, &row.bytes, named_json(style, &names)) {
        Ok(text) => Ok(text),
        Err(error) => error_text(alloc, error),
    }
}

/// How many bytes the item at the front takes, and its JSON.
fn front(alloc: Global, bytes: &[u8], style: JsonStyle) -> Result<String, AllocError> {
    let mut out = String::new(alloc);
    match push_bytes_to_json_partial(alloc, bytes, style, &mut out) {
        Ok(Some(used)) => format!(in alloc; "{used} {out}"),
        Ok(None) => String::from_str(alloc, "truncated"),
        Err(error) => error_text(alloc, error),
    }
}

/// What is wrong, after its places.
fn error_text(alloc: Global, error: JsonError) -> Result<String, AllocError> {
    match error {
        JsonError::Cbor(error) => format!(in alloc; "{error:?}"),
        JsonError::NotKept(Loss { place, kind }) => { format!(in alloc; "{place} {}", kind.text()) }
        JsonError::SameKeys(Clash { first, second }) => {
            format!(in alloc; "{first} {second} {error}")
        }
    }
}
