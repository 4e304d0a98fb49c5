//! Tests `Scanner` on bytes in two pieces, and that it takes less than 2 KB. Pieces of one and of
//! three bytes are rows of the vectors (`bytes_pieces.txt`).

use cbor_diag::{Extent, Scanner, extent};
use std::mem::size_of;
use std::process::Abort;

/// Items, bytes that are truncated, and bytes that have a fault.
const INPUTS: [&[u8]; 8] = [
    b"\x83\x01\x82\x02\x03\xf8\x05",
    b"\x7f\x61a\x62\xc3\xa9\xff",
    b"\xd8\x34\x83\x44\xc0\x00\x02\x01\xf6\x63a\nb",
    b"\x5b\xff\xff\xff\xff\xff\xff\xff\xff\x00",
    b"\xbb\xff\xff\xff\xff\xff\xff\xff\xff\x00\xff",
    b"\x9f\x82\x01\xff\xff",
    b"\x83\x01\x63\xffaa\x1c",
    b"\x74aaaaaaaaaaaaaaaaaaa\xff\x00",
];

fn check(rt: &impl Abort, found: Extent, expected: Extent, bytes: &[u8]) {
    assert_eq!(rt; found, expected, "{bytes:?}");
}

/// Bytes in two pieces, nothing, and bytes that come later: these change nothing of an item and of
/// a fault.
fn check_two_pieces(rt: &impl Abort, bytes: &[u8], place: usize) {
    let mut scanner = Scanner::new();
    let front = bytes.get(..place).unwrap_or(b"");
    check(rt, scanner.feed(front), extent(front), front);
    let answer = extent(bytes);
    check(
        rt,
        scanner.feed(bytes.get(place..).unwrap_or(bytes)),
        answer,
        bytes,
    );
    check(rt, scanner.feed(b""), answer, bytes);
    if answer != Extent::Cut {
        check(rt, scanner.feed(b"\xff\x00"), answer, bytes);
    }
}

#[test]
fn bytes_come_in_two_pieces(rt: HostRuntime) {
    for bytes in INPUTS {
        for place in 0..bytes.len() {
            check_two_pieces(&rt, bytes, place);
        }
    }
}

#[test]
fn a_scanner_takes_less_than_2_kb(rt: HostRuntime) {
    assert!(rt; size_of::<Scanner>() < 2048);
}
