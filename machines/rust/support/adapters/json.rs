//! Stands in for `json`, which the sources ask only whether an object of a text of JSON has a name
//! twice. They have read the text as EDN before, and so this reads no further than it has to.

use crate::rattle::alloc::Global;
use std::collections::HashSet;
use std::iter::Peekable;
use std::str::Chars;

/// Why a text is no JSON.
#[derive(Clone, Copy, PartialEq, Eq, Debug)]
pub enum Error {
    /// An object has a name twice.
    DuplicateKey,
    /// It is not JSON.
    Syntax,
}

/// What reading needs in the kit's crate.
#[derive(Debug)]
pub struct Scratch(());

impl Scratch {
    /// Room for reading.
    pub fn new(_alloc: Global) -> Scratch {
        Scratch(())
    }
}

/// That a text was read.
#[derive(Debug)]
pub struct Value(());

impl Value {
    /// Reads a text. An object that has a name twice is an error.
    pub fn parse_strict(_alloc: Global, text: &str, _: &mut Scratch) -> Result<Value, Error> {
        // The names of each open object; none for an array.
        let mut open: Vec<Option<HashSet<String>>> = Vec::new();
        let mut rest = text.chars().peekable();
        while let Some(character) = rest.next() {
            match character {
                '{' => open.push(Some(HashSet::new())),
                '[' => open.push(None),
                '}' | ']' => drop(open.pop()),
                '"' => {
                    let name = string(&mut rest).ok_or(Error::Syntax)?;
                    while rest.next_if(|it| it.is_ascii_whitespace()).is_some() {}
                    if rest.peek() == Some(&':')
                        && let Some(Some(names)) = open.last_mut()
                        && !names.insert(name)
                    {
                        return Err(Error::DuplicateKey);
                    }
                }
                _ => {}
            }
        }
        Ok(Value(()))
    }
}

/// The rest of a string, without its escapes. Half of a surrogate pair becomes U+FFFD.
fn string(rest: &mut Peekable<Chars<'_>>) -> Option<String> {
    let mut units: Vec<u16> = Vec::new();
    loop {
        let character = match rest.next()? {
            '"' => break,
            '\\' => match rest.next()? {
                'u' => {
                    units.push(unit(rest)?);
                    continue;
                }
                'n' => '\n',
                't' => '\t',
                'r' => '\r',
                'b' => '\u{8}',
                'f' => '\u{c}',
                escaped => escaped,
            },
            character => character,
        };
        units.extend_from_slice(character.encode_utf16(&mut [0; 2]));
    }
    Some(String::from_utf16_lossy(&units))
}

/// The number of four hex digits.
fn unit(rest: &mut Peekable<Chars<'_>>) -> Option<u16> {
    let mut number = 0;
    for _ in 0..4 {
        number = number * 16 + rest.next()?.to_digit(16)?;
    }
    u16::try_from(number).ok()
}
