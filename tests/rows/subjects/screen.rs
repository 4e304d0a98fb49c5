//! Runs the test rows about what a screen shows, and returns each result as text. The calls:
//!
//! - `push_colored dump` colours a dump, and `push_colored edn STYLE` the EDN of an item.
//!   `push_colored elide=MOST STYLE` cuts its strings first. An escape character is `\e` in the
//!   result.
//! - `push_elided MOST STYLE` and `push_without_widths STYLE` shorten the EDN of an item. STYLE is
//!   that of `bytes_to_edn`, and the notes of `push_bytes_to_edn_noted` may follow it after `; `.
//!   The item stands in its row in that style.
//! - `push_dump` gives the dump of items, with the words `embedded`, `elide=MOST`, and `names` or
//!   `names=TYPE` by the tables of [`tables`].
//! - `push_partial_dump` does so, with the same words, for bytes in which an item is truncated or
//!   malformed.

use crate::forms::edn::{notes_of, style_of};
use crate::row::Row;
use crate::subjects::numbers::number_of;
use crate::texts::{lines_text, refused_text, text_of};
use cbor_edn::{EdnError, NotedStyle, edn_item_to_bytes, push_bytes_to_edn_noted};
use cbor_marks::{MarkedText, Marks};
use cbor_names::{Definition, Key, Known, Names, Part, Shape, What};
use cbor_screen::{
    DumpStyle, push_colored, push_colored_dump, push_dump, push_elided, push_partial_dump,
    push_without_widths,
};
use std::alloc::{AllocError, Global};

/// What is said of the items of `push_partial_dump`.
const SAID: &str = "malformed: no item can have this head";

/// What the call of a row gives; none if it is no call of this subject.
pub fn answer(alloc: Global, row: &Row) -> Result<Option<String>, AllocError> {
    let found = match row.call {
        "push_colored" => colored(alloc, row),
        "push_elided" => elided(alloc, row),
        "push_without_widths" => widthless(alloc, row),
        "push_dump" | "push_partial_dump" => dumps(alloc, row),
        _ => return Ok(None),
    };
    Ok(Some(found?))
}

/// The first word of some words, and the others.
fn first_word(words: &str) -> (&str, &str) {
    words.split_once(" ").unwrap_or((words, ""))
}

/// The EDN of the item of a row, with the marks of its tokens, in the style of these words. None if
/// it stands in the row in another way.
fn edn_of(alloc: Global, row: &Row, words: &str) -> Result<Option<MarkedText>, AllocError> {
    let (style, _) = words.split_once("; ").unwrap_or((words, ""));
    let Some(style) = style_of(style) else {
        return Ok(None);
    };
    let bytes = match edn_item_to_bytes(alloc, row.text()) {
        Ok(bytes) => bytes,
        Err(EdnError::Memory) => return Err(AllocError),
        Err(_) => return Ok(None),
    };
    let notes = notes_of(alloc, words)?;
    let marks = Marks::new(alloc);
    let noted = NotedStyle {
        style,
        notes: &notes,
        marks: Some(&marks),
    };
    let mut text = String::new(alloc);
    let written = push_bytes_to_edn_noted(alloc, &bytes, noted, &mut text);
    if written.is_err() || text.as_bytes() != row.input.as_slice() {
        return Ok(None);
    }
    let mut marked = MarkedText::new(alloc);
    marked.push(None, text.as_bytes())?;
    marks.take(&mut marked.marks)?;
    Ok(Some(marked))
}

/// What a call says of a row whose item is written in another way than it stands there.
fn other_text(alloc: Global) -> Result<String, AllocError> {
    String::from_str(alloc, "the item is written in another way")
}

/// A text in colours: a dump, or EDN.
fn colored(alloc: Global, row: &Row) -> Result<String, AllocError> {
    let (form, words) = first_word(row.argument);
    let mut out = Vec::new(alloc);
    if form == "dump" {
        push_colored_dump(&mut out, &row.input)?;
    } else {
        let Some(text) = edn_of(alloc, row, words)? else {
            return other_text(alloc);
        };
        match form.strip_prefix("elide=") {
            None => push_colored(&mut out, text.marked())?,
            Some(most) => {
                let mut cut = MarkedText::new(alloc);
                push_elided(&mut cut, text.marked(), number_of(most))?;
                push_colored(&mut out, cut.marked())?;
            }
        }
    }
    text_of(&out).replace(alloc, "\x1b", "\\e")
}

/// EDN with its long strings cut.
fn elided(alloc: Global, row: &Row) -> Result<String, AllocError> {
    let (most, words) = first_word(row.argument);
    let Some(text) = edn_of(alloc, row, words)? else {
        return other_text(alloc);
    };
    let mut out = MarkedText::new(alloc);
    push_elided(&mut out, text.marked(), number_of(most))?;
    String::from_str(alloc, text_of(&out.text))
}

/// EDN without widths.
fn widthless(alloc: Global, row: &Row) -> Result<String, AllocError> {
    let Some(text) = edn_of(alloc, row, row.argument)? else {
        return other_text(alloc);
    };
    let mut out = MarkedText::new(alloc);
    push_without_widths(&mut out, text.marked())?;
    String::from_str(alloc, text_of(&out.text))
}

/// The dumps of the items that the bytes are, in the style that the words of the row say.
fn dumps(alloc: Global, row: &Row) -> Result<String, AllocError> {
    let names = tables(alloc)?;
    let mut style = DumpStyle::PLAIN;
    for word in row.argument.split(" ") {
        match word.split_once("=").unwrap_or((word, "")) {
            ("embedded", _) => style.embedded = true,
            ("elide", most) => style.elide = Some(number_of(most)),
            ("names", outer) => {
                style.names = Some(&names);
                style.known = names.of(outer).map(Known::of);
            }
            _ => {}
        }
    }
    let mut out = String::new(alloc);
    if row.call == "push_partial_dump" {
        return match push_partial_dump(&mut out, &row.bytes, &style, SAID) {
            Ok(said) if said.bytes(out.as_bytes()).ends_with(SAID.as_bytes()) => {
                lines_text(alloc, &out)
            }
            Ok(_) => String::from_str(alloc, "the comment is elsewhere"),
            Err(error) => refused_text(alloc, error),
        };
    }
    let mut rest = row.bytes.as_slice();
    for _ in 0..=row.bytes.len() {
        match push_dump(&mut out, rest, &style) {
            Ok(used) => rest = rest.get(used..).unwrap_or(b""),
            Err(error) => return refused_text(alloc, error),
        }
        if rest.is_empty() {
            break;
        }
    }
    lines_text(alloc, &out)
}

/// A part of a type with this key.
fn part<'a>(key: i64, name: &'a str, what: What<'a>) -> Part<'a> {
    Part {
        what,
        ..Part::new(Key::Integer(key), name)
    }
}

/// A message as of COSE, tag 18, with two headers and a message in a byte string.
fn tables(alloc: Global) -> Result<Names, AllocError> {
    let message = [
        part(0, "protected", What::Encoded("Header")),
        part(0, "unprotected", What::Of("Header")),
        part(0, "inner", What::Encoded("Message")),
    ];
    let header = [
        part(1, "alg", What::Of("Algorithm")),
        part(4, "kid", What::Any),
        part(5, "two\nlines", What::Date),
    ];
    let algorithm = [part(-7, "ES256", What::Any)];
    let mut names = Names::new(alloc);
    names.add(
        Definition::new("Message", Shape::Array).tagged(18),
        &message,
    )?;
    names.add(Definition::new("Header", Shape::Map), &header)?;
    names.add(Definition::new("Algorithm", Shape::Values), &algorithm)?;
    Ok(names)
}
