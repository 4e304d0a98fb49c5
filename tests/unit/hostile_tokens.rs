//! Reads tokens of notation of about a million bytes, and checks where they end. If the work were
//! not linear in the length, this test would be very slow.

use cbor_tokens::{blank_end, digits_at, number_at, quoted_at};
use std::alloc::{AllocError, Global};
use std::test::Fail;

/// Calls, pieces, how often each is repeated, what follows them, and the place after the token, or
/// 0.
const LONG: &[(&str, &str, usize, &str, usize)] = &[
    ("blank", " ", 1_000_000, "1", 1_000_000),
    ("blank", "//", 500_000, "1", 1_000_000),
    ("blank", "/x/", 300_000, "1", 900_000),
    ("blank", "/  / \n", 200_000, "1", 1_200_000),
    ("number", "0", 1_000_000, "7_", 1_000_001),
    ("number", "9", 1_000_000, "_3", 1_000_002),
    ("quoted", "a", 1_000_000, "'", 1_000_001),
    ("quoted", "\\'", 500_000, "'", 1_000_001),
    ("quoted", "\\\\a", 300_000, "'", 900_001),
    ("digits", "0", 1_000_000, "'", 1_000_001),
    ("digits", "0 ", 500_000, "'", 1_000_001),
    ("digits", "0/x/", 250_000, "'", 1_000_001),
    // a comment that is not closed
    ("digits", "0//", 300_000, "/'", 0),
];

/// The place after the token that a text begins with, or 0.
fn end_of(alloc: Global, call: &str, text: &[u8]) -> Result<usize, AllocError> {
    let (_, end) = match call {
        "blank" => return Ok(blank_end(text, 0)),
        "number" => return Ok(number_at(text, 0).unwrap_or((0, None, 0)).2),
        "quoted" => quoted_at(alloc, text, 0, b'\'')?.unwrap_or((Vec::new(alloc), 0)),
        _ => digits_at(alloc, text, 0, true)?.unwrap_or((Vec::new(alloc), 0)),
    };
    Ok(end)
}

#[test]
fn long_tokens_are_read_once(rt: HostRuntime) -> Result<(), Fail> {
    for (call, piece, times, after, want) in LONG {
        let mut text = piece.repeat(rt.alloc(), *times)?;
        text.push_str(after)?;
        let end = end_of(rt.alloc(), call, text.as_bytes())?;
        assert!(rt; end == *want, "{call}: {piece:?} {times} times");
    }
    Ok(())
}
