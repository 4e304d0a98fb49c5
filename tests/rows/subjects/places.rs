//! Runs the test rows about places in an item that begins at byte 10 of an input, and returns each
//! result as text. The calls:
//!
//! - `words` and `cut_words` describe the end of the bytes, `fault_words` an error, and `words
//!   PLACE` a place in a whole item.
//! - `lines_at BYTE` and `leaves`, also with `embedded`, and `leaves places` list items from byte
//!   10 on.
//! - `partial_edn` and `partial_edn COLUMNS` give the EDN of a truncated or malformed item.

use crate::row::Row;
use crate::subjects::numbers::number_of;
use crate::texts::{lines_text, refused_text};
use cbor_diag::{Error, Extent, extent};
use cbor_edn::{EdnStyle, NotedStyle};
use cbor_inside::Inside;
use cbor_places::{Around, ByteNumbers, Leaves, Piece, item_with, lines_at, partial_edn};
use std::alloc::{AllocError, Global};

/// What is said of the items of `partial_edn`.
const SAID: &str = "malformed: no item can have this head";

/// What the call of a row gives; none if it is no call of this subject.
pub fn answer(alloc: Global, row: &Row) -> Result<Option<String>, AllocError> {
    let found = match row.call {
        "words" => words(alloc, row),
        "cut_words" => cut_words(alloc, row),
        "fault_words" => fault_words(alloc, row),
        "lines_at" => shown(alloc, lines_of_byte(alloc, row)),
        "leaves" => shown(alloc, leaves(alloc, row)),
        "partial_edn" => shown(alloc, partial(alloc, row)),
        _ => return Ok(None),
    };
    Ok(Some(found?))
}

/// The item of a row.
fn piece<'a>(row: &'a Row) -> Piece<'a> {
    Piece {
        begins: 10,
        bytes: &row.bytes,
    }
}

/// Lines, or none, or an error.
fn shown(alloc: Global, lines: Result<String, Error>) -> Result<String, AllocError> {
    match lines {
        Ok(lines) if lines.is_empty() => Ok(lines),
        Ok(lines) => lines_text(alloc, &lines),
        Err(error) => refused_text(alloc, error),
    }
}

/// What is around the end of the bytes, or around a place in a whole item.
fn words(alloc: Global, row: &Row) -> Result<String, AllocError> {
    let whole = !row.argument.is_empty();
    let place = if whole {
        number_of(row.argument)
    } else {
        row.bytes.len()
    };
    let around = Around::new(alloc, piece(row), place)?;
    around.words(&ByteNumbers, whole)
}

/// What is said of a truncated item.
fn cut_words(alloc: Global, row: &Row) -> Result<String, AllocError> {
    let around = Around::of_end(alloc, piece(row))?;
    around.cut_words(&ByteNumbers)
}

/// What is said of malformed bytes; `none` of others.
fn fault_words(alloc: Global, row: &Row) -> Result<String, AllocError> {
    let Extent::Fault { error, end } = extent(&row.bytes) else {
        return String::from_str(alloc, "none");
    };
    Around::of_end(alloc, piece(row).first(end))?.fault_words(&ByteNumbers, error)
}

/// The byte strings that are open: those below tags, or by this word all that hold items.
fn inside<'a>(word: &str) -> Inside<'a> {
    Inside {
        embedded: word == "embedded",
        named: &[],
    }
}

/// The lines of a byte of items.
fn lines_of_byte(alloc: Global, row: &Row) -> Result<String, Error> {
    let (byte, word) = row.argument.split_once(" ").unwrap_or((row.argument, ""));
    let byte = number_of(byte);
    lines_at(alloc, item_with(piece(row), byte), byte, inside(word))
}

/// The EDN of an item that is not whole, unless what it says is not where it says.
fn partial(alloc: Global, row: &Row) -> Result<String, Error> {
    let shown = partial_edn(alloc, noted(row), &row.bytes, SAID)?;
    let comment = format!(in alloc; "/{SAID}/")?;
    if shown.said.bytes(shown.text.as_bytes()) == comment.as_bytes() {
        Ok(shown.text)
    } else {
        Ok(String::from_str(alloc, "the comment is elsewhere")?)
    }
}

/// The first block of the lines of paths.
fn leaves(alloc: Global, row: &Row) -> Result<String, Error> {
    let mut leaves = Leaves::new(
        alloc,
        piece(row),
        EdnStyle::LINE,
        inside(row.argument),
    ).with_places(row.argument == "places");
    let mut out = String::new(alloc);
    leaves.push_block(&mut out)?;
    Ok(out)
}

/// One line, or lines with notes of this many columns.
fn noted<'a>(row: &Row) -> NotedStyle<'a> {
    let mut style = EdnStyle::LINE;
    if let Ok(columns) = row.argument.parse::<u16>() {
        style = EdnStyle::PRETTY;
        style.columns = columns;
    }
    NotedStyle {
        style,
        notes: &[],
        marks: None,
    }
}
