//! Runs the test rows that show one item in several forms, and returns each result as text.
//!
//! `item` gives a line `edn` with its EDN, a line `json` with its JSON, a line `core` with its core
//! deterministic encoding in hex, and then its dump. If the item has no such text, the line says
//! `none`.

use crate::row::Row;
use crate::texts::hex_text;
use cbor_diag::bytes_to_hex;
use cbor_edn::bytes_to_edn;
use cbor_json::{JsonStyle, bytes_to_json};
use cbor_reencode::reencoded;
use cbor_rules::Rules;
use std::alloc::{AllocError, Global};

/// What the call of a row gives; none if it is no call of this subject.
pub fn answer(alloc: Global, row: &Row) -> Result<Option<String>, AllocError> {
    if row.call != "item" {
        return Ok(None);
    }
    let bytes = row.bytes.as_slice();
    let edn = bytes_to_edn(alloc, bytes).ok();
    let json = bytes_to_json(alloc, bytes, JsonStyle::PLAIN).ok();
    let core = core_text(alloc, bytes)?;
    let dump = bytes_to_hex(alloc, bytes).ok();
    let (edn, json) = (shown(edn.as_deref()), shown(json.as_deref()));
    let dump = shown(dump.as_deref());
    let text = format!(in alloc; "edn {edn}\njson {json}\ncore {core}\n{}", dump.trim_end())?;
    Ok(Some(text))
}

/// A text, or that there is none.
fn shown(text: Option<&str>) -> &str {
    text.unwrap_or("none")
}

/// The core deterministic encoding in hex.
fn core_text(alloc: Global, bytes: &[u8]) -> Result<String, AllocError> {
    match reencoded(alloc, bytes, Rules::CORE) {
        Ok(core) => hex_text(alloc, &core),
        Err(_) => String::from_str(alloc, "none"),
    }
}
