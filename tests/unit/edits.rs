//! Tests calls of `cbor_edit` at places that no path leads to, and with a part that is no item.

use cbor_edit::{Edit, EditError, EnclosedSpan, edited, replaced, with_more, without};
use cbor_paths::{Picture, Step};
use cbor_trace::Span;
use std::alloc::{AllocError, Global};
use std::test::Fail;

/// Whether no bytes are returned where the place is none.
fn is_refused(found: Result<Option<Vec<u8>>, AllocError>) -> bool {
    matches!(found, Ok(None))
}

/// What stands in place of a span in these byte strings.
fn replaced_in(alloc: Global, around: &[usize], span: Span) -> Result<Option<Vec<u8>>, AllocError> {
    let place = EnclosedSpan {
        around: Vec::from_slice(alloc, around)?,
        span,
    };
    replaced(alloc, b"\x82\x42\x81\x05\x06", &place, b"\x07")
}

#[test]
fn wrong_places_are_refused(rt: HostRuntime) {
    let alloc = rt.alloc();
    let inside = Span { start: 3, end: 4 };
    let rows = [
        !is_refused(replaced_in(alloc, &[1], inside)),
        !is_refused(replaced_in(alloc, &[], inside)),
        is_refused(replaced_in(alloc, &[0], inside)),
        is_refused(replaced_in(alloc, &[1], Span { start: 4, end: 5 })),
        is_refused(replaced_in(alloc, &[1], Span { start: 4, end: 3 })),
        is_refused(replaced_in(alloc, &[], Span { start: 4, end: 6 })),
        is_refused(replaced_in(alloc, &[9], inside)),
        is_refused(without(alloc, b"\x80", 0, &[Span { start: 1, end: 1 }])),
        is_refused(without(alloc, b"\x81\x01", 0, &[Span { start: 0, end: 1 }])),
        is_refused(without(alloc, b"\x01\x01", 0, &[Span { start: 1, end: 2 }])),
        is_refused(with_more(alloc, b"\x01", Span { start: 0, end: 1 }, b"\x01")),
        is_refused(with_more(alloc, b"\x9f\x01", Span { start: 0, end: 2 }, b"\x01")),
        is_refused(with_more(alloc, b"\x9f", Span { start: 0, end: 1 }, b"\x01")),
    ];
    for row in rows {
        assert!(rt; row);
    }
}

#[test]
fn no_item_is_refused(rt: HostRuntime) -> Result<(), Fail> {
    let alloc = rt.alloc();
    let mut steps = Vec::new(alloc);
    steps.push(Step::Key(Vec::from_slice(alloc, b"\x00")?))?;
    let edit = Edit {
        steps: &steps,
        part: Some(b"\x1f"),
        keys: &[],
    };
    let found = edited(alloc, b"\x81\x01", edit, Picture::plain());
    assert!(rt; matches!(found, Err(EditError::NoItem)));
    let found = edited(alloc, b"\x01", edit, Picture::plain());
    assert!(rt; matches!(found, Err(EditError::Lost)));
    Ok(())
}
