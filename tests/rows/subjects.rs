//! Makes the call of a row, whatever its subject. Each module makes the calls of one subject, and
//! returns the result as text.

mod cddl;
mod floats;
mod inputs;
mod item;
mod json;
mod lines;
mod messages;
mod names;
mod notes;
mod numbers;
mod paths;
mod places;
mod reencode;
mod rules;
mod screen;
mod tokens;
mod trace;

use crate::forms;
use crate::row::Row;
use std::alloc::{AllocError, Global};

/// What the call of a row gives, as a text; none if no subject knows the call.
pub fn answer(alloc: Global, row: &Row) -> Result<Option<String>, AllocError> {
    first_answer!(alloc, row;
        forms
        cddl
        floats
        inputs
        item
        json
        messages
        names
        notes
        paths
        places
        reencode
        rules
        screen
        tokens
        trace
    )
}
