//! Runs the test rows about the containers that are open at a byte, and returns each result as
//! text. Places are counted in bytes; LEVEL is 1 for the outermost item. The calls:
//!
//! - `part_at START LEVEL AT` gives the step from the item at START to its part at AT, and where
//!   that begins. `[1/2]` is the member at index 1 of 2, `{0/2}` the key of the pair at index 0,
//!   `{0/2=3}` the value of it, whose key begins at 3, and `(1)` the item of tag 1.
//! - `innermost AT` gives where the innermost item begins, and its level. `end_at START LEVEL`
//!   gives where an item ends. `head_at START` gives the place after a head, for a string also its
//!   kind and its length.
//! - `place_of_fault ERROR END` gives the byte that is wrong, with ERROR `Utf8`, `Head` or
//!   `CutShort`.
//! - `paths` gives, for each byte and for the end, where the innermost item begins, and all steps
//!   to it; a line for each byte at which that changes. `cuts` gives the same at the end of
//!   the bytes before each place, as if no more had come. Both are made of calls of `cbor_trace`.

use crate::row::Row;
use crate::subjects::lines::push_line;
use crate::subjects::numbers::number_of;
use cbor_grammar::Error;
use cbor_grammar::argument::Argument;
use cbor_grammar::head::ItemHead;
use cbor_grammar::strings::StringKind;
use cbor_trace::{Open, Spot, end_at, head_at, innermost, part_at, place_of_fault};
use std::alloc::{AllocError, Global};

/// What the call of a row gives; none if it is no call of this subject.
pub fn answer(alloc: Global, row: &Row) -> Result<Option<String>, AllocError> {
    let bytes = row.bytes.as_slice();
    let (first, rest) = row.argument.split_once(" ").unwrap_or((row.argument, ""));
    let (second, third) = rest.split_once(" ").unwrap_or((rest, ""));
    let (start, at) = (number_of(first), number_of(second));
    let found = match row.call {
        "part_at" => part_text(alloc, bytes, spot(first, second), number_of(third)),
        "innermost" => spot_text(alloc, innermost(bytes, start)),
        "end_at" => place_text(alloc, end_at(bytes, spot(first, second))),
        "head_at" => head_text(alloc, bytes, start),
        "place_of_fault" => {
            let place = place_of_fault(bytes, error_of(first), at);
            place_text(alloc, Some(place))
        }
        "paths" | "cuts" => paths(alloc, bytes, row.call == "cuts"),
        _ => return Ok(None),
    };
    Ok(Some(found?))
}

/// The error that a word names.
fn error_of(word: &str) -> Error {
    match word {
        "Utf8" => Error::Utf8,
        "Head" => Error::Head,
        _ => Error::CutShort,
    }
}

/// The spot of a place and a level.
fn spot(start: &str, level: &str) -> Spot {
    Spot {
        start: number_of(start),
        level: level.parse::<u8>().unwrap_or(0),
    }
}

/// A place, or `none`.
fn place_text(alloc: Global, found: Option<usize>) -> Result<String, AllocError> {
    match found {
        Some(place) => format!(in alloc; "{place}"),
        None => String::from_str(alloc, "none"),
    }
}

/// Where an item begins, and its level.
fn spot_text(alloc: Global, found: Spot) -> Result<String, AllocError> {
    format!(in alloc; "{} {}", found.start, found.level)
}

/// The step into a part, and where that begins.
fn part_text(alloc: Global, bytes: &[u8], spot: Spot, at: usize) -> Result<String, AllocError> {
    match part_at(bytes, spot, at) {
        Some(part) => {
            let mut text = String::new(alloc);
            push_step(alloc, &mut text, part.open)?;
            format!(in alloc; "{text} {}", part.start)
        }
        None => String::from_str(alloc, "none"),
    }
}

/// The kind and the length of a string, and the place after its head; of other heads that place.
fn head_text(alloc: Global, bytes: &[u8], start: usize) -> Result<String, AllocError> {
    let Some((head, end)) = head_at(bytes, start) else {
        return String::from_str(alloc, "none");
    };
    let (kind, length) = match head {
        ItemHead::String(StringKind::Bytes, length) => ("bytes", length),
        ItemHead::String(StringKind::Text, length) => ("text", length),
        _ => return format!(in alloc; "{end}"),
    };
    format!(in alloc; "{kind} {} {end}", count_text(alloc, length)?)
}

/// A count or a length; `*` if it is indefinite.
fn count_text(alloc: Global, count: Argument) -> Result<String, AllocError> {
    match count {
        Argument::Number(number, _) => format!(in alloc; "{number}"),
        Argument::Indefinite => String::from_str(alloc, "*"),
    }
}

/// Appends a step into a container.
fn push_step(alloc: Global, path: &mut String, open: Open) -> Result<(), AllocError> {
    let step = match open {
        Open::Array { count, index } => {
            format!(in alloc; "[{index}/{}]", count_text(alloc, count)?)?
        }
        Open::Key { count, index } => {
            format!(in alloc; "{{{index}/{}}}", count_text(alloc, count)?)?
        }
        Open::Value { count, index, key } => {
            format!(in alloc; "{{{index}/{}={key}}}", count_text(alloc, count)?)?
        }
        Open::Tag { number, .. } => format!(in alloc; "({number})")?,
    };
    path.push_str(&step)
}

/// Where the innermost item begins that a byte is in, and behind a blank the steps to it.
fn path_text(alloc: Global, bytes: &[u8], at: usize) -> Result<String, AllocError> {
    let mut path = String::new(alloc);
    let mut spot = Spot::outermost();
    for _ in 0..128 {
        let Some(part) = part_at(bytes, spot, at) else {
            break;
        };
        if path.is_empty() {
            path.push_str(" ")?;
        }
        push_step(alloc, &mut path, part.open)?;
        spot = spot.of_part(part);
    }
    let start = innermost(bytes, at).start;
    format!(in alloc; "{start}{path}")
}

/// The paths to each byte and behind the last one, or to the ends of the fronts, where they change.
fn paths(alloc: Global, bytes: &[u8], is_cut: bool) -> Result<String, AllocError> {
    let mut text = String::new(alloc);
    let mut last = String::new(alloc);
    for at in 0..bytes.len().saturating_add(1) {
        let end = if is_cut { at } else { bytes.len() };
        let path = path_text(alloc, bytes.get(..end).unwrap_or(bytes), at)?;
        if path.as_str() != last.as_str() {
            push_line(&mut text, &format!(in alloc; "{at}: {path}")?)?;
            last = path;
        }
    }
    Ok(text)
}
