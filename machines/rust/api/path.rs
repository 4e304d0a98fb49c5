//! Heads, the parts of an item that a path leads to, and their values.
//!
//! A path has steps joined by `/`, as `cborcat -p` reads them: an index, a key in EDN, where a plain word is a text,
//! `@` for the item in a byte string, and `*` for each member. The empty path is the item itself.
//!
//! ```
//! use semphluk::{edn, path};
//!
//! let item = edn::from_edn(r#"{"at": 1(1700000000), "loc": [52.5, 13.25]}"#)?;
//! assert_eq!(path::value(&item, "at")?, path::Value::Integer(1700000000));
//! assert_eq!(path::part(&item, "loc/0")?, b"\xf9\x52\x90");
//! assert_eq!(path::paths(&item)?[2], ("loc/1".to_owned(), "13.25".to_owned()));
//! # Ok::<(), semphluk::Error>(())
//! ```

use crate::cbor_diag_c::{heads, parts as parts_of, shown, values};
use crate::error::{Error, ErrorKind, Result};
use crate::form::Form;
use crate::rattle::alloc::Global;
use crate::written::text_of;
use std::borrow::Cow;
use std::ops::Range;

/// What a head is: its major type, or a float, or a break.
#[derive(Clone, Copy, PartialEq, Eq, Hash, Debug)]
pub enum HeadKind {
    /// An unsigned integer: the argument.
    Unsigned,
    /// A negative integer: -1 minus the argument.
    Negative,
    /// A byte string of as many bytes as the argument says.
    Bytes,
    /// A text string of as many bytes of UTF-8.
    Text,
    /// An array of as many items.
    Array,
    /// A map of as many pairs.
    Map,
    /// A tag: the argument is its number, and its item follows.
    Tag,
    /// A simple value: 20 is false, 21 true, 22 null, 23 undefined.
    Simple,
    /// A float: its bits are the argument.
    Float,
    /// The end of an indefinite length.
    Break,
}

/// The kinds of heads by their numbers in the library for C.
const KINDS: [HeadKind; 10] = [
    HeadKind::Unsigned,
    HeadKind::Negative,
    HeadKind::Bytes,
    HeadKind::Text,
    HeadKind::Array,
    HeadKind::Map,
    HeadKind::Tag,
    HeadKind::Simple,
    HeadKind::Float,
    HeadKind::Break,
];

/// A head.
#[derive(Clone, Copy, PartialEq, Debug)]
#[non_exhaustive]
pub struct Head {
    /// What it is.
    pub kind: HeadKind,
    /// Whether its length is indefinite; the argument is 0 then.
    pub indefinite: bool,
    /// A number, a length, a count, a tag, a simple value, or the bits of a float.
    pub argument: u64,
    /// The number of a float, and 0 for other kinds.
    pub number: f64,
}

/// Reads one head at the front of the bytes, or a break, and returns how many bytes it takes. The content of a string
/// and the items that a head announces are not looked at, so a walk over an item is this call and
/// [`extent`](crate::extent).
///
/// The error is [`ErrorKind::Truncated`] if the bytes end before the head does, or [`ErrorKind::Head`].
///
/// ```
/// use semphluk::path::{HeadKind, head};
///
/// let (found, length) = head(b"\x19\x03\xe8")?;
/// assert_eq!((found.kind, found.argument, length), (HeadKind::Unsigned, 1000, 3));
/// # Ok::<(), semphluk::Error>(())
/// ```
pub fn head(bytes: &[u8]) -> Result<(Head, usize)> {
    let mut found = heads::Head { kind: 0, indefinite: 0, argument: 0, number: 0.0 };
    let answer = heads::cbor_diag_head(bytes, &mut found);
    let length = usize::try_from(answer).map_err(|_| ErrorKind::of(answer))?;
    let head = Head {
        kind: KINDS[usize::from(found.kind)],
        indefinite: found.indefinite != 0,
        argument: found.argument,
        number: found.number,
    };
    Ok((head, length))
}

/// Returns the part of an item that a path leads to, with its tags; with a `*` the first of the parts.
///
/// The error is that for which the bytes are no item, [`ErrorKind::NoPart`] or [`ErrorKind::Memory`].
pub fn part<'b>(bytes: &'b [u8], path: &str) -> Result<&'b [u8]> {
    let (mut start, mut end) = (0, 0);
    match parts_of::cbor_diag_part(Global, bytes, path.as_bytes(), &mut start, &mut end) {
        answer if answer < 0 => Err(Error::of(answer, Form::Bytes, bytes)),
        _ => bytes.get(start..end).ok_or_else(|| ErrorKind::NoPart.into()),
    }
}

/// A part of an item: where it is in the bytes.
#[derive(Clone, PartialEq, Eq, Hash, Debug)]
#[non_exhaustive]
pub struct Part {
    /// Where its key is, if it is a value of a map; otherwise it is empty.
    pub key: Range<usize>,
    /// Where it is, with its tags.
    pub item: Range<usize>,
}

/// Returns all parts of an item that a path leads to, in order: several with a `*`, and none if it leads nowhere.
///
/// The error is that for which the bytes are no item, or [`ErrorKind::Memory`].
///
/// ```
/// use semphluk::path::parts;
///
/// let map = b"\xa1\x61k\x82\x01\x02";
/// let found = parts(map, "*")?;
/// assert_eq!(found.len(), 1);
/// assert_eq!(&map[found[0].key.clone()], b"\x61k");
/// assert_eq!(&map[found[0].item.clone()], b"\x82\x01\x02");
/// # Ok::<(), semphluk::Error>(())
/// ```
pub fn parts(bytes: &[u8], path: &str) -> Result<Vec<Part>> {
    let mut found = vec![parts_of::Part { key: 0, start: 0, end: 0 }; 16];
    loop {
        let answer = parts_of::cbor_diag_parts(Global, bytes, path.as_bytes(), &mut found);
        let count = usize::try_from(answer).map_err(|_| Error::of(answer, Form::Bytes, bytes))?;
        let fits = count <= found.len();
        found.resize(count, parts_of::Part { key: 0, start: 0, end: 0 });
        if fits {
            let part = |one: &parts_of::Part| Part { key: one.key..one.start, item: one.start..one.end };
            return Ok(found.iter().map(part).collect());
        }
    }
}

/// The value of a part, without its tags.
#[derive(Clone, PartialEq, Debug)]
#[non_exhaustive]
pub enum Value<'b> {
    /// An integer.
    Integer(i128),
    /// A float.
    Float(f64),
    /// A text.
    Text(Cow<'b, str>),
    /// The bytes of a byte string.
    Bytes(Cow<'b, [u8]>),
    /// False or true.
    Bool(bool),
    /// Null or undefined.
    Null,
    /// The bytes of an array, of a map, or of another simple value, with its tags.
    Part(&'b [u8]),
}

/// The chunks of a string of indefinite length, which may have tags, joined.
fn joined(string: &[u8]) -> Result<Vec<u8>> {
    let (mut at, mut content) = (0, Vec::new());
    loop {
        let (found, length) = head(&string[at..])?;
        at += length;
        match found.kind {
            HeadKind::Break => return Ok(content),
            HeadKind::Bytes | HeadKind::Text if !found.indefinite => {
                let end = at + found.argument as usize;
                content.extend_from_slice(&string[at..end]);
                at = end;
            }
            _ => {}
        }
    }
}

/// The text of a text string, which is UTF-8.
fn text(content: Cow<'_, [u8]>) -> Cow<'_, str> {
    const UTF8: &str = "the text is UTF-8";
    match content {
        Cow::Borrowed(bytes) => Cow::Borrowed(std::str::from_utf8(bytes).expect(UTF8)),
        Cow::Owned(bytes) => Cow::Owned(String::from_utf8(bytes).expect(UTF8)),
    }
}

/// Returns the value of the part of an item that a path leads to, without its tags. The content of a string of definite
/// length is borrowed.
///
/// The errors are those of [`part`].
pub fn value<'b>(bytes: &'b [u8], path: &str) -> Result<Value<'b>> {
    let mut found =
        values::Value { kind: 0, indefinite: 0, tagged: 0, tag: 0, argument: 0, number: 0.0, start: 0, end: 0 };
    let answer = values::cbor_diag_value(Global, bytes, path.as_bytes(), &mut found);
    if answer < 0 {
        return Err(Error::of(answer, Form::Bytes, bytes));
    }
    let part = bytes.get(found.start..found.end).ok_or(ErrorKind::NoPart)?;
    let content = |part| match found.indefinite {
        0 => Ok(Cow::Borrowed(part)),
        _ => joined(part).map(Cow::Owned),
    };
    Ok(match KINDS[usize::from(found.kind)] {
        HeadKind::Unsigned => Value::Integer(found.argument.into()),
        HeadKind::Negative => Value::Integer(-1 - i128::from(found.argument)),
        HeadKind::Float => Value::Float(found.number),
        HeadKind::Bytes => Value::Bytes(content(part)?),
        HeadKind::Text => Value::Text(text(content(part)?)),
        HeadKind::Simple if found.argument == 20 => Value::Bool(false),
        HeadKind::Simple if found.argument == 21 => Value::Bool(true),
        HeadKind::Simple if found.argument == 22 || found.argument == 23 => Value::Null,
        _ => Value::Part(part),
    })
}

/// The path and the EDN of a line: two blanks that are not in a text are between them.
fn path_and_text(line: &str) -> (String, String) {
    let mut quoted = false;
    for (at, byte) in line.bytes().enumerate() {
        if !quoted && line.as_bytes()[at..].starts_with(b"  ") {
            return (line[..at].to_owned(), line[at + 2..].to_owned());
        }
        quoted ^= byte == b'"';
    }
    (line.to_owned(), String::new())
}

/// Returns each item in an item that holds no other: the path that leads to it, and the item in EDN.
///
/// The error is that for which the bytes are no item, or [`ErrorKind::Memory`].
pub fn paths(bytes: &[u8]) -> Result<Vec<(String, String)>> {
    let lines = text_of(|room| shown::cbor_diag_paths(Global, bytes, room))
        .map_err(|kind| Error::of_kind(kind, Form::Bytes, bytes))?;
    Ok(lines.lines().map(path_and_text).collect())
}
