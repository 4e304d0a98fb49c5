//! Tests that hidden characters, such as control characters, are escaped in texts and do not appear
//! in messages about EDN.

use cbor_edn::{EdnError, edn_to_bytes};
use cbor_tokens::{is_shown, push_shown};
use std::alloc::{AllocError, Global};
use std::test::Fail;

/// Whether a character is a control character other than a line feed, ends a line, turns the
/// direction of a text, or is the byte order mark.
fn is_hidden(code: u32) -> bool {
    matches!(
        code,
        0..=9
            | 11..=0x1f
            | 0x7f..=0x9f
            | 0x61c
            | 0x200e..=0x200f
            | 0x2028..=0x202e
            | 0x2066..=0x2069
            | 0xfeff
    )
}

#[test]
fn hidden_characters_are_escaped(rt: HostRuntime) -> Result<(), Fail> {
    let alloc = rt.alloc();
    for code in (0..0x700u32).chain(0x2000..0x2100).chain(0xfe00..0x1_0100) {
        let Some(character) = char::from_u32(code) else {
            continue;
        };
        let text = format!(in alloc; "{character}")?;
        let want = if is_hidden(code) {
            format!(in alloc; "\\u{{{code:04x}}}")?
        } else {
            format!(in alloc; "{text}")?
        };
        let mut out = String::new(alloc);
        push_shown(&mut out, &text)?;
        assert!(rt; out.as_str() == want.as_str(), "{code:x}");
    }
    Ok(())
}

/// What comes before and after a character in texts that are not EDN.
const WRONG: &[(&str, &str)] = &[
    ("", "]"),
    ("a", "b"),
    ("h\"", "\""),
    ("h\"01\"", ""),
    ("hash", "'01'"),
    ("hash'", "'"),
    ("h'0", "'"),
    ("dt'", "'"),
    ("True", ""),
    ("\"\\", "\""),
    ("1", "(2"),
    ("[1", "2"),
];

/// The message on the error of a text; empty for one that is EDN.
fn message(alloc: Global, text: &str) -> Result<String, AllocError> {
    match edn_to_bytes(alloc, text) {
        Ok(_) => Ok(String::new(alloc)),
        Err(EdnError::Memory) => Err(AllocError),
        Err(EdnError::Wrong { place, expected }) => {
            let rest = text.as_bytes().get(place..).unwrap_or(b"");
            format!(in alloc; "{}", expected.in_text(rest))
        }
    }
}

#[test]
fn messages_on_edn_hide_nothing(rt: HostRuntime) -> Result<(), Fail> {
    let alloc = rt.alloc();
    for code in (0..0x100u32).chain(0x2028..0x202c).chain(0xfefe..0xff01) {
        let Some(character) = char::from_u32(code) else {
            continue;
        };
        for (before, after) in WRONG {
            let text = format!(in alloc; "{before}{character}{after}")?;
            let said = message(alloc, &text)?;
            assert!(rt;
                is_shown(false, said.as_bytes()),
                "{code:x} in {before}..{after}"
            );
        }
    }
    Ok(())
}
