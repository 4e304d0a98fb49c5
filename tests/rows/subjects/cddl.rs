//! Runs the test rows about CDDL, and returns each result as text. The calls:
//!
//! - `cddl_fits` says whether items fit a CDDL text.
//! - `cddl_message` gives the message for an item that does not fit.
//! - `cddl_fault` says what is wrong with a text.

use crate::row::Row;
use cbor_cddl::{Fault, Schema, position_of, source_of};
use cbor_edn::edn_to_bytes;
use cbor_places::Piece;
use cbor_schema::{Checker, Misfit};
use cbor_tokens::decode_hex;
use std::alloc::{AllocError, Global};
use std::fmt::Write;

/// What the call of a row gives; none if it is no call of this subject.
pub fn answer(alloc: Global, row: &Row) -> Result<Option<String>, AllocError> {
    let found = match row.call {
        "cddl_fits" => each_item(alloc, row, false),
        "cddl_message" => each_item(alloc, row, true),
        "cddl_fault" => fault(alloc, row),
        _ => return Ok(None),
    };
    Ok(Some(found?))
}

/// What is wrong with the text of a row, or `none`.
fn fault(alloc: Global, row: &Row) -> Result<String, AllocError> {
    match checker_of(alloc, row.text(), None) {
        Ok(_) => String::from_str(alloc, "none"),
        Err(fault) => fault_text(alloc, row.text(), fault),
    }
}

/// The line, the column and the message of a fault.
fn fault_text(alloc: Global, text: &str, fault: Fault) -> Result<String, AllocError> {
    let source = source_of(alloc, text)?;
    let at = position_of(text, fault.span.start);
    format!(in alloc; "{}:{} {}", at.line, at.column, fault.said(&source))
}

/// A text that is ready to be matched.
fn checker_of(alloc: Global, text: &str, rule: Option<&str>) -> Result<Checker, Fault> {
    Checker::new(alloc, Schema::load(alloc, text, rule)?)
}

/// What is said of each item of a row, a line each: the row has a text, an empty line, and items.
fn each_item(alloc: Global, row: &Row, in_words: bool) -> Result<String, AllocError> {
    let (text, items) = row.text().rsplit_once("\n\n").unwrap_or(("", ""));
    let rule = if row.argument.is_empty() {
        None
    } else {
        Some(row.argument)
    };
    let checker = match checker_of(alloc, text, rule) {
        Ok(checker) => checker,
        Err(fault) => return fault_text(alloc, text, fault),
    };
    let mut out = String::new(alloc);
    for line in items.lines() {
        if !out.is_empty() {
            out.push('\n')?;
        }
        push_item(&mut out, &checker, line, in_words)?;
    }
    Ok(out)
}

/// Appends what is said of an item, which is EDN or `hex` and digits.
fn push_item(
    out: &mut String,
    checker: &Checker,
    line: &str,
    in_words: bool,
) -> Result<(), AllocError> {
    let alloc = *out.allocator();
    let Some(item) = bytes_of(alloc, line)? else {
        return out.push_str("no item");
    };
    let piece = Piece {
        begins: 0,
        bytes: &item,
    };
    match checker.misfit(alloc, piece) {
        Ok(None) => out.push_str("fits"),
        Ok(Some(misfit)) if in_words => push_message(out, checker, &misfit),
        Ok(Some(misfit)) => write!(out, "misfit {}", misfit.place),
        Err(stop) => write!(out, "{stop}"),
    }
}

/// The bytes of an item; none of a line that is wrong.
fn bytes_of(alloc: Global, line: &str) -> Result<Option<Vec<u8>>, AllocError> {
    match line.strip_prefix("hex ") {
        Some(digits) => decode_hex(alloc, digits.as_bytes()),
        None => Ok(edn_to_bytes(alloc, line).ok()),
    }
}

/// The line of a place in the text of a checker, as a message has it.
fn line_of(alloc: Global, checker: &Checker, place: usize) -> Result<String, AllocError> {
    let position = position_of(&checker.schema().source, place);
    format!(in alloc; ":{}", position.line)
}

/// Appends the message of a misfit, and its path and other alternatives in a line of their own.
fn push_message(out: &mut String, checker: &Checker, misfit: &Misfit) -> Result<(), AllocError> {
    let alloc = *out.allocator();
    write!(out, "{} ", misfit.place)?;
    let line = line_of(alloc, checker, misfit.name_place)?;
    misfit.push_message(out, &line)?;
    let mut before = "\n";
    if !misfit.path.is_empty() {
        write!(out, "\nat {}", misfit.path)?;
        before = "; ";
    }
    let Some(others) = &misfit.others else {
        return Ok(());
    };
    out.push_str(before)?;
    let line = line_of(alloc, checker, others.name_place)?;
    others.push_message(out, &line)
}
