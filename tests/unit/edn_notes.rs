//! Tests that EDN is written without notes that cannot stand in a comment, such as a text with a
//! slash or a line feed. The rows of the vectors cannot state such texts.

use cbor_edn::{EdnStyle, Note, NotedStyle, push_bytes_to_edn_noted};

/// Places, and a text before and after the item there.
const NOTES: [(usize, &str, &str); 6] = [
    (1, "a/b", "a/b"),
    (2, "a\nb", "a\nb"),
    (3, "*a*", "*a*"),
    (4, "", ""),
    (5, "\u{202e}", "\u{e9}"),
    (6, "\u{1b}[31m", "\u{7f}"),
];

/// A note that does not show a byte string as an item.
fn note_of<'a>((start, before, after): (usize, &'a str, &'a str)) -> Note<'a> {
    Note {
        start,
        before,
        after,
        encoded: false,
    }
}

#[test]
fn texts_that_no_comment_has(rt: HostRuntime) {
    let [a, b, c, d, e, f] = NOTES;
    let notes = [
        note_of(a),
        note_of(b),
        note_of(c),
        note_of(d),
        note_of(e),
        note_of(f),
    ];
    let noted = NotedStyle {
        style: EdnStyle::PRETTY,
        notes: &notes,
        marks: None,
    };
    let mut out = String::new(rt.alloc());
    let bytes = b"\x86\x01\x02\x03\x04\x05\x06";
    let written = push_bytes_to_edn_noted(rt.alloc(), bytes, noted, &mut out);
    assert!(rt; written.is_ok());
    assert!(rt; out.as_str() == "[1, 2, 3, 4, 5, 6]");
}
