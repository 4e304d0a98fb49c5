//! Tests that marks that are wrong lose nothing of a text, and that lines keep their marks.

use cbor_marks::{Kind, Marked, Token};
use std::test::Fail;

/// A mark of a number.
fn number(start: usize, end: usize) -> Token {
    Token {
        kind: Kind::Number,
        start,
        end,
    }
}

#[test]
fn wrong_marks_lose_nothing(rt: HostRuntime) -> Result<(), Fail> {
    let one = Some(Kind::Number);
    // without bytes, over another, out of order, over a line's end, and past the text's end
    let marks = [
        number(1, 1),
        number(1, 3),
        number(2, 4),
        number(0, 1),
        number(5, 7),
        number(8, 99),
    ];
    let mut text = Marked::new(b"abcdef\ngh", &marks);
    assert_eq!(rt; text.next_piece(), Some((None, b"a".as_slice())));
    assert_eq!(rt; text.next_piece(), Some((one, b"bc".as_slice())));
    assert_eq!(rt; text.next_piece(), Some((None, b"de".as_slice())));
    assert_eq!(rt; text.next_piece(), Some((None, b"f\n".as_slice())));
    assert_eq!(rt; text.next_piece(), Some((None, b"g".as_slice())));
    assert_eq!(rt; text.next_piece(), Some((one, b"h".as_slice())));
    assert_eq!(rt; text.next_piece(), None);
    Ok(())
}

#[test]
fn lines_are_taken_with_their_marks(rt: HostRuntime) -> Result<(), Fail> {
    let one = Some(Kind::Number);
    let marks = [number(0, 1), number(2, 3), number(5, 6)];
    let mut text = Marked::new(b"1\n2,\n3", &marks);
    let mut lines = text.take_lines(3);
    assert_eq!(rt; lines.rest(), b"1\n2,\n".as_slice());
    assert_eq!(rt; lines.next_piece(), Some((one, b"1".as_slice())));
    assert_eq!(rt; lines.next_piece(), Some((None, b"\n".as_slice())));
    assert_eq!(rt; lines.next_piece(), Some((one, b"2".as_slice())));
    assert_eq!(rt; lines.next_piece(), Some((None, b",\n".as_slice())));
    assert_eq!(rt; lines.next_piece(), None);
    assert_eq!(rt; text.next_piece(), Some((one, b"3".as_slice())));
    assert_eq!(rt; text.take_lines(0).rest(), b"".as_slice());
    Ok(())
}
