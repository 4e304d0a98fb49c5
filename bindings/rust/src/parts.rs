//! Heads, parts of items by a path, and their values.

use crate::{library, Error, Result};
use std::borrow::Cow;
use std::ops::Range;

/// What a head is: its major type, or a float, or a break.
#[derive(Clone, Copy, PartialEq, Eq, Hash, Debug)]
pub enum HeadKind {
    /// An unsigned integer: the argument.
    Unsigned,
    /// A negative integer: -1 minus the argument.
    Negative,
    /// A byte string of as many bytes as the argument says.
    Bytes,
    /// A text string of as many bytes of UTF-8.
    Text,
    /// An array of as many items.
    Array,
    /// A map of as many pairs.
    Map,
    /// A tag: the argument is its number, and its item follows.
    Tag,
    /// A simple value: 20 is false, 21 true, 22 null, 23 undefined.
    Simple,
    /// A float: its bits are the argument.
    Float,
    /// The end of an indefinite length.
    Break,
}

impl HeadKind {
    /// The kind with this number.
    fn of(number: u8) -> HeadKind {
        match number {
            0 => HeadKind::Unsigned,
            1 => HeadKind::Negative,
            2 => HeadKind::Bytes,
            3 => HeadKind::Text,
            4 => HeadKind::Array,
            5 => HeadKind::Map,
            6 => HeadKind::Tag,
            7 => HeadKind::Simple,
            8 => HeadKind::Float,
            9 => HeadKind::Break,
            _ => unreachable!("the library has no head of kind {number}"),
        }
    }
}

/// A head.
#[derive(Clone, Copy, PartialEq, Debug)]
pub struct Head {
    /// What it is.
    pub kind: HeadKind,
    /// Whether its length is indefinite; the argument is 0 then.
    pub indefinite: bool,
    /// A number, a length, a count, a tag, a simple value, or the bits of a float.
    pub argument: u64,
    /// The number of a float, and 0 for other kinds.
    pub number: f64,
}

/// Reads one head at the front of the bytes, or a break, and returns how many bytes it takes. The content of a string
/// and the items that a head announces are not looked at, so a walk over an item is this call and
/// [`extent`](crate::extent).
///
/// The error is [`Error::CutShort`] if the bytes end before the head does, or [`Error::Head`].
///
/// ```rust
/// use semphluk::{head, HeadKind};
///
/// let (found, length) = head(b"\x19\x03\xe8").unwrap();
/// assert_eq!((found.kind, found.argument, length), (HeadKind::Unsigned, 1000, 3));
/// ```
pub fn head(bytes: &[u8]) -> Result<(Head, usize)> {
    let mut found = library::Head::default();
    // SAFETY: the pointers are those of the slice, with its length, and of the variable.
    let answer = unsafe { library::cbor_diag_head(bytes.as_ptr(), bytes.len(), &mut found) };
    let length = usize::try_from(answer).map_err(|_| Error::of(answer))?;
    let head = Head {
        kind: HeadKind::of(found.kind),
        indefinite: found.indefinite != 0,
        argument: found.argument,
        number: found.number,
    };
    Ok((head, length))
}

/// Returns the part of an item that a path leads to, with its tags; with a `*` the first of the parts.
///
/// A path has steps joined by `/`, as `cborcat -p` reads them: an index, a key in EDN, where a plain word is a text,
/// `@` for the item in a byte string, and `*` for each member; names are none. The empty path is the item itself.
///
/// The error is that for which the bytes are no item, [`Error::NoPart`] or [`Error::Memory`].
///
/// ```rust
/// use semphluk::part;
///
/// assert_eq!(part(b"\xa1\x61k\x82\x01\x02", "k/1").unwrap(), b"\x02");
/// ```
pub fn part<'b>(bytes: &'b [u8], path: &str) -> Result<&'b [u8]> {
    let (mut start, mut end) = (0, 0);
    // SAFETY: the pointers are those of the slices, with their lengths, and of the variables.
    let answer = unsafe {
        library::cbor_diag_part(
            bytes.as_ptr(),
            bytes.len(),
            path.as_ptr(),
            path.len(),
            &mut start,
            &mut end,
        )
    };
    usize::try_from(answer).map_err(|_| Error::of(answer))?;
    Ok(&bytes[start..end])
}

/// A part of an item: where it is in the bytes.
#[derive(Clone, PartialEq, Eq, Hash, Debug)]
pub struct Part {
    /// Where its key is, if it is a value of a map; otherwise it is empty.
    pub key: Range<usize>,
    /// Where it is, with its tags.
    pub item: Range<usize>,
}

/// Returns all parts of an item that a path leads to, in order: several with a `*`, and none if it leads nowhere.
///
/// The error is that for which the bytes are no item, or [`Error::Memory`].
///
/// ```rust
/// use semphluk::parts;
///
/// let map = b"\xa1\x61k\x82\x01\x02";
/// let found = parts(map, "*").unwrap();
/// assert_eq!(found.len(), 1);
/// assert_eq!(&map[found[0].key.clone()], b"\x61k");
/// assert_eq!(&map[found[0].item.clone()], b"\x82\x01\x02");
/// ```
pub fn parts(bytes: &[u8], path: &str) -> Result<Vec<Part>> {
    let mut found = vec![library::Part::default(); 16];
    loop {
        // SAFETY: the pointers are those of the slices and of the vector, with their lengths, and do not overlap.
        let answer = unsafe {
            library::cbor_diag_parts(
                bytes.as_ptr(),
                bytes.len(),
                path.as_ptr(),
                path.len(),
                found.as_mut_ptr(),
                found.len(),
            )
        };
        let count = usize::try_from(answer).map_err(|_| Error::of(answer))?;
        let fits = count <= found.len();
        found.resize(count, library::Part::default());
        if fits {
            let part = |one: library::Part| Part {
                key: one.key..one.start,
                item: one.start..one.end,
            };
            return Ok(found.into_iter().map(part).collect());
        }
    }
}

/// The value of a part, without its tags.
#[derive(Clone, PartialEq, Debug)]
#[non_exhaustive]
pub enum Value<'b> {
    /// An integer.
    Integer(i128),
    /// A float.
    Float(f64),
    /// A text.
    Text(Cow<'b, str>),
    /// The bytes of a byte string.
    Bytes(Cow<'b, [u8]>),
    /// False or true.
    Bool(bool),
    /// Null or undefined.
    Null,
    /// The bytes of an array, of a map, or of another simple value, with its tags.
    Part(&'b [u8]),
}

/// Appends the chunks of a string of indefinite length, which may have tags.
fn joined(string: &[u8]) -> Result<Vec<u8>> {
    let (mut at, mut content) = (0, Vec::new());
    loop {
        let (found, length) = head(&string[at..])?;
        at += length;
        match found.kind {
            HeadKind::Break => return Ok(content),
            HeadKind::Bytes | HeadKind::Text if !found.indefinite => {
                let end = at + found.argument as usize;
                content.extend_from_slice(&string[at..end]);
                at = end;
            }
            _ => {}
        }
    }
}

/// Returns the value of the part of an item that a path leads to, without its tags. The content of a string of definite
/// length is borrowed.
///
/// The errors are those of [`part`].
///
/// ```rust
/// use semphluk::{value, Value};
///
/// // {"at": 1(1700000000)}
/// let item = b"\xa1\x62at\xc1\x1a\x65\x53\xf1\x00";
/// assert_eq!(value(item, "at").unwrap(), Value::Integer(1700000000));
/// ```
pub fn value<'b>(bytes: &'b [u8], path: &str) -> Result<Value<'b>> {
    let mut found = library::Value::default();
    // SAFETY: the pointers are those of the slices, with their lengths, and of the variable.
    let answer = unsafe {
        library::cbor_diag_value(
            bytes.as_ptr(),
            bytes.len(),
            path.as_ptr(),
            path.len(),
            &mut found,
        )
    };
    usize::try_from(answer).map_err(|_| Error::of(answer))?;
    let part = &bytes[found.start..found.end];
    let content = |part| match found.indefinite {
        0 => Ok(Cow::Borrowed(part)),
        _ => joined(part).map(Cow::Owned),
    };
    Ok(match HeadKind::of(found.kind) {
        HeadKind::Unsigned => Value::Integer(found.argument.into()),
        HeadKind::Negative => Value::Integer(-1 - i128::from(found.argument)),
        HeadKind::Float => Value::Float(found.number),
        HeadKind::Bytes => Value::Bytes(content(part)?),
        HeadKind::Text => Value::Text(text(content(part)?)),
        HeadKind::Simple if found.argument == 20 => Value::Bool(false),
        HeadKind::Simple if found.argument == 21 => Value::Bool(true),
        HeadKind::Simple if found.argument == 22 || found.argument == 23 => Value::Null,
        _ => Value::Part(part),
    })
}

/// The text of a text string, which is UTF-8.
fn text(content: Cow<'_, [u8]>) -> Cow<'_, str> {
    const UTF8: &str = "the text is UTF-8";
    match content {
        Cow::Borrowed(bytes) => Cow::Borrowed(std::str::from_utf8(bytes).expect(UTF8)),
        Cow::Owned(bytes) => Cow::Owned(String::from_utf8(bytes).expect(UTF8)),
    }
}

/// Returns what a call writes, for room of its own.
pub(crate) fn written(call: impl Fn(*mut u8, usize) -> i64) -> Result<Vec<u8>> {
    written_or(call).map_err(Error::of)
}

/// Returns what a call writes, for room of its own, or the negative result of the call.
pub(crate) fn written_or(
    call: impl Fn(*mut u8, usize) -> i64,
) -> std::result::Result<Vec<u8>, i64> {
    let mut output = vec![0; 1024];
    loop {
        let answer = call(output.as_mut_ptr(), output.len());
        let length = usize::try_from(answer).map_err(|_| answer)?;
        let fits = length <= output.len();
        output.resize(length, 0);
        if fits {
            return Ok(output);
        }
    }
}

/// The path and the EDN of a line: two blanks that are not in a text are between them.
fn path_and_text(line: &str) -> (String, String) {
    let mut quoted = false;
    for (at, byte) in line.bytes().enumerate() {
        if !quoted && line[at..].starts_with("  ") {
            return (line[..at].to_owned(), line[at + 2..].to_owned());
        }
        quoted ^= byte == b'"';
    }
    (line.to_owned(), String::new())
}

/// Returns each item in an item that holds no other: the path that leads to it, and the item in EDN.
///
/// The error is that for which the bytes are no item, or [`Error::Memory`].
///
/// ```rust
/// use semphluk::paths;
///
/// let found = paths(b"\xa1\x61k\x82\x01\x02").unwrap();
/// assert_eq!(found[1], ("k/1".to_owned(), "2".to_owned()));
/// ```
pub fn paths(bytes: &[u8]) -> Result<Vec<(String, String)>> {
    // SAFETY: the pointers are those of the slice and of the room, with their lengths, and do not overlap.
    let lines = written(|room, length| unsafe {
        library::cbor_diag_paths(bytes.as_ptr(), bytes.len(), room, length)
    })?;
    let lines = String::from_utf8(lines).expect("the lines are UTF-8");
    Ok(lines.lines().map(path_and_text).collect())
}
