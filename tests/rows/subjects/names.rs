//! Runs the test rows about names, and returns each result as text. The calls:
//!
//! - `names TYPE` gives a line for each name in an item, with its place, by the tables of
//!   `known_names`. TYPE is the type of the item; it is left out if the item's tag says it.
//! - `meanings TYPE` gives the same for meanings, and `encoded TYPE` the places of the byte strings
//!   that hold items.
//! - `name_before PLACE` gives the name of the item at a place, and `names_at PLACE` the names of
//!   all items that contain the byte there.
//! - `with_file` reads the input as a file of names. It gives `read`, or what is wrong.
//! - `names_by ITEM` and `meanings_by ITEM` give names and meanings of an item in hex, also by the
//!   file of names that is the input.
//! - `names_by_cddl ITEM`, `meanings_by_cddl ITEM` and `encoded_by_cddl ITEM` give the same, and
//!   the places of byte strings that hold items, by the text of CDDL that is the input. A rule
//!   after the item is the item's type.

use crate::row::Row;
use crate::subjects::lines::{lines_or, push_line};
use cbor_cddl::Schema;
use cbor_cddl_names::with_schema;
use cbor_names::{Fault, FileError, Names, Type, known_names, notes, with_file};
use cbor_notes::Note;
use std::alloc::{AllocError, Global};

/// What the call of a row gives; none if it is no call of this subject.
pub fn answer(alloc: Global, row: &Row) -> Result<Option<String>, AllocError> {
    let found = match row.call {
        "names" | "meanings" | "encoded" => of_type(alloc, row),
        "name_before" | "names_at" => at_place(alloc, row),
        "with_file" => of_file(alloc, row),
        "names_by" | "meanings_by" => by_file(alloc, row),
        "names_by_cddl" | "meanings_by_cddl" | "encoded_by_cddl" => by_cddl(alloc, row),
        _ => return Ok(None),
    };
    Ok(Some(found?))
}

/// What is said of the items in an item of the type that the row names.
fn of_type(alloc: Global, row: &Row) -> Result<String, AllocError> {
    let names = known_names(alloc)?;
    let outer = names.find(row.argument);
    if outer.is_none() && !row.argument.is_empty() {
        return String::from_str(alloc, "no type has this name");
    }
    said(alloc, row.call, &row.bytes, &names, outer)
}

/// What is said of the item that is the row's argument, by the file that is its input.
fn by_file(alloc: Global, row: &Row) -> Result<String, AllocError> {
    let Ok(bytes) = hex::decode(alloc, row.argument) else {
        return String::from_str(alloc, "no hex");
    };
    match with_file(alloc, known_names(alloc)?, row.text()) {
        Ok(names) => said(alloc, row.call, &bytes, &names, None),
        Err(error) => error_text(alloc, error),
    }
}

/// What is said of the item that is the row's argument, by the text of CDDL that is its input.
fn by_cddl(alloc: Global, row: &Row) -> Result<String, AllocError> {
    let (digits, rule) = row.argument.split_once(" ").unwrap_or((row.argument, ""));
    let Ok(bytes) = hex::decode(alloc, digits) else {
        return String::from_str(alloc, "no hex");
    };
    // A rule of the prelude: the text needs no rule that is a type.
    let Ok(schema) = Schema::load(alloc, row.text(), Some("any")) else {
        return String::from_str(alloc, "no CDDL");
    };
    let names = with_schema(alloc, known_names(alloc)?, &schema)?;
    said(alloc, row.call, &bytes, &names, names.find(rule))
}

/// What is wrong in the file that is the row's input.
fn of_file(alloc: Global, row: &Row) -> Result<String, AllocError> {
    match with_file(alloc, known_names(alloc)?, row.text()) {
        Ok(_) => String::from_str(alloc, "read"),
        Err(error) => error_text(alloc, error),
    }
}

/// What is wrong in a file, with its line. Of what is no TOML, the words are those of `toml`.
fn error_text(alloc: Global, error: FileError) -> Result<String, AllocError> {
    let FileError { line, fault } = error;
    match fault {
        Fault::OutOfMemory => Err(AllocError),
        Fault::Toml(_) => format!(in alloc; "line {line}: no TOML"),
        _ => format!(in alloc; "{error}"),
    }
}

/// The word that a call asks of a note; empty if the note has none.
fn word_of<'n>(call: &str, note: Note<'n>) -> &'n str {
    match call {
        "names" | "names_by" | "names_by_cddl" => note.before,
        "encoded" | "encoded_by_cddl" if note.encoded => "<<>>",
        "encoded" | "encoded_by_cddl" => "",
        _ => note.after,
    }
}

/// What a call asks of the notes of an item, a line each.
fn said(
    alloc: Global,
    call: &str,
    bytes: &[u8],
    names: &Names,
    outer: Option<Type>,
) -> Result<String, AllocError> {
    let found = notes(alloc, bytes, names, outer)?;
    let list = found.list(alloc)?;
    let mut text = String::new(alloc);
    for note in list.iter() {
        let place = note.start;
        let word = word_of(call, *note);
        if !word.is_empty() {
            push_line(&mut text, &format!(in alloc; "{place} {word}")?)?;
        }
    }
    lines_or(text, "none")
}

/// The name before the item at a place, or those of all that the byte there belongs to.
fn at_place(alloc: Global, row: &Row) -> Result<String, AllocError> {
    let place = row.argument.parse::<usize>().unwrap_or(usize::MAX);
    let names = known_names(alloc)?;
    let found = notes(alloc, &row.bytes, &names, None)?;
    if row.call == "name_before" {
        return String::from_str(alloc, found.name_before(place).unwrap_or("none"));
    }
    let mut text = String::new(alloc);
    for name in found.names_at(alloc, place)?.iter() {
        push_line(&mut text, name)?;
    }
    lines_or(text, "none")
}
