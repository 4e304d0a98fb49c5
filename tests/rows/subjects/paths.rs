//! Runs the test rows about paths, and returns each result as text.
//!
//! `show_items PATH` gives the parts that a path leads to, in EDN, a line each. If it leads to
//! none, the result is `lost` and the number of bytes of the item.

use crate::row::Row;
use crate::texts::{lines_text, refused_text, text_of};
use cbor_inspect::{End, Form, Show, show_items, steps_of};
use std::alloc::{AllocError, Global};

/// What the call of a row gives; none if it is no call of this subject.
pub fn answer(alloc: Global, row: &Row) -> Result<Option<String>, AllocError> {
    if row.call != "show_items" {
        return Ok(None);
    }
    let steps = match steps_of(alloc, row.argument) {
        Ok(steps) => steps,
        Err(error) => return Ok(Some(refused_text(alloc, error)?)),
    };
    let mut show = Show::new(Form::Diag);
    show.steps = &steps;
    let mut out = Vec::new(alloc);
    let end = show_items(&show, &row.bytes, &mut out).end;
    Ok(Some(parts_text(alloc, &out, end)?))
}

/// The parts, or why there are none.
fn parts_text(alloc: Global, out: &[u8], end: End) -> Result<String, AllocError> {
    match end {
        End::Done => lines_text(alloc, text_of(out)),
        End::Lost { len } => format!(in alloc; "lost {len}"),
        end => format!(in alloc; "{end:?}"),
    }
}
