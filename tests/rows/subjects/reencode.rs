//! Runs the test rows about re-encoding, and returns each result as text.
//!
//! `reencode RULES` re-encodes items, with RULES as in `rules`. The result is bytes in hex, or what
//! is wrong and where. A place is in the input, or, after `Written`, in the output.

use crate::row::Row;
use crate::subjects::rules::{rules_of, violation_text};
use crate::texts::hex_text;
use cbor_reencode::{ReencodeError, reencoded};
use std::alloc::{AllocError, Global};

/// What the call of a row gives; none if it is no call of this subject.
pub fn answer(alloc: Global, row: &Row) -> Result<Option<String>, AllocError> {
    let Some(rules) = rules_of(row.argument) else {
        return Ok(None);
    };
    if row.call != "reencode" {
        return Ok(None);
    }
    let found = match reencoded(alloc, &row.bytes, rules) {
        Ok(bytes) => hex_text(alloc, &bytes),
        Err(error) => error_text(alloc, error),
    };
    Ok(Some(found?))
}

/// Why bytes are not encoded again.
fn error_text(alloc: Global, error: ReencodeError) -> Result<String, AllocError> {
    match error {
        ReencodeError::Memory => Err(AllocError),
        ReencodeError::Violation(found) => {
            format!(in alloc; "Violation {}", violation_text(alloc, found)?)
        }
        ReencodeError::KeyTwice { first, second } => {
            format!(in alloc; "KeyTwice {first} {second}")
        }
        ReencodeError::Written(found) => {
            format!(in alloc; "Written {}", violation_text(alloc, found)?)
        }
    }
}
