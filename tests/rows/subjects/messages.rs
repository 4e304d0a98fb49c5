//! Runs the test rows about messages, and returns each result as text. The calls:
//!
//! - `first_violation SET`, `not_encoded SET`, `not_json`, `not_json strict` and `lost_words PATH`
//!   give the message on items that begin at byte 10 of an input.
//! - `excerpt_of_bytes PLACE` and `excerpt_of_text PLACE MARK` give the lines of an input that a
//!   message shows, with a mark below the place.
//! - `position_of PLACE` gives the line and the column of a place.

use crate::row::Row;
use crate::subjects::numbers::number_of;
use crate::texts::refused_text;
use cbor_diag::Error;
use cbor_inspect::{Picture, steps_of};
use cbor_json::{JsonStyle, bytes_to_json};
use cbor_messages::{
    Excerpt, Message, first_violation, lost_words, not_encoded, not_json, position_of,
};
use cbor_places::{ByteNumbers, Piece};
use cbor_reencode::reencoded;
use cbor_rules::RuleSet;
use std::alloc::{AllocError, Global};

/// What the call of a row gives; none if it is no call of this subject.
pub fn answer(alloc: Global, row: &Row) -> Result<Option<String>, AllocError> {
    let found = match row.call {
        "first_violation" => violation_said(alloc, row),
        "not_encoded" => encoding_said(alloc, row),
        "not_json" => json_said(alloc, row),
        "lost_words" => lost_said(alloc, row),
        "excerpt_of_bytes" => bytes_marked(alloc, row),
        "excerpt_of_text" => text_marked(alloc, row),
        "position_of" => position_said(alloc, row),
        _ => return Ok(None),
    };
    Ok(Some(found?))
}

/// The items of a row, which begin at byte 10.
fn items<'a>(row: &'a Row) -> Piece<'a> {
    Piece {
        begins: 10,
        bytes: &row.bytes,
    }
}

/// The place of a message, and its text.
fn said(alloc: Global, message: Result<Message, Error>) -> Result<String, AllocError> {
    match message {
        Ok(message) => {
            let text = message.words(alloc, &ByteNumbers)?;
            format!(in alloc; "{} {text}", message.place)
        }
        Err(error) => refused_text(alloc, error),
    }
}

/// What is said of the first violation of a set of rules, or `kept`.
fn violation_said(alloc: Global, row: &Row) -> Result<String, AllocError> {
    let Some(set) = RuleSet::named(row.argument) else {
        return String::from_str(alloc, "no set has this name");
    };
    match first_violation(alloc, set, items(row)) {
        Ok(Some(message)) => said(alloc, Ok(message)),
        Ok(None) => String::from_str(alloc, "kept"),
        Err(error) => refused_text(alloc, error),
    }
}

/// What is said of items that cannot be encoded by a set of rules, or `encoded`.
fn encoding_said(alloc: Global, row: &Row) -> Result<String, AllocError> {
    let Some(set) = RuleSet::named(row.argument) else {
        return String::from_str(alloc, "no set has this name");
    };
    match reencoded(alloc, &row.bytes, set.rules) {
        Ok(_) => String::from_str(alloc, "encoded"),
        Err(error) => said(alloc, not_encoded(alloc, set, items(row), error)),
    }
}

/// What is said of an item that JSON does not keep, or `kept`.
fn json_said(alloc: Global, row: &Row) -> Result<String, AllocError> {
    let style = JsonStyle {
        embedded: false,
        strict: row.argument == "strict",
    };
    match bytes_to_json(alloc, &row.bytes, style) {
        Ok(_) => String::from_str(alloc, "kept"),
        Err(error) => said(alloc, not_json(alloc, items(row), error)),
    }
}

/// What is said of a path that leads nowhere.
fn lost_said(alloc: Global, row: &Row) -> Result<String, AllocError> {
    let steps = match steps_of(alloc, row.argument) {
        Ok(steps) => steps,
        Err(error) => return refused_text(alloc, error),
    };
    let path = (row.argument, steps.as_slice());
    match lost_words(alloc, path, &row.bytes, Picture::plain()) {
        Ok(words) => Ok(words),
        Err(error) => refused_text(alloc, error),
    }
}

/// A line of bytes with a mark, or `none`.
fn bytes_marked(alloc: Global, row: &Row) -> Result<String, AllocError> {
    match Excerpt::of_bytes(&row.bytes, number_of(row.argument)) {
        Some(excerpt) => format!(in alloc; "{excerpt}"),
        None => String::from_str(alloc, "none"),
    }
}

/// A line of a text with a mark.
fn text_marked(alloc: Global, row: &Row) -> Result<String, AllocError> {
    let (place, mark) = row.argument.split_once(" ").unwrap_or((row.argument, ""));
    let excerpt = Excerpt::of_text(&row.input, number_of(place), mark);
    format!(in alloc; "{excerpt}")
}

/// The line of a place, the character in it, and the byte at which the line begins.
fn position_said(alloc: Global, row: &Row) -> Result<String, AllocError> {
    let found = position_of(&row.input, number_of(row.argument));
    format!(in alloc;
        "line {} column {} begins {}",
        found.line, found.column, found.begins
    )
}
