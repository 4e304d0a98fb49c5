//! The scanner tells after each piece what `extent` does of all bytes that came.

use semphluk::{extent, Error, Extent, Scanner};

/// Items, cuts and faults of each kind, with bytes after some: heads of each width, texts whose characters have one to
/// four bytes, chunks, containers of both kinds, tags.
const IN_PIECES: [&[u8]; 31] = [
    b"",
    b"\x17\x00",
    b"\x18\x18",
    b"\x39\x03\xe7",
    b"\x1a\x00\x0f\x42\x40",
    b"\x1b\x00\x00\x00\xe8\xd4\xa5\x10\x00\xff",
    b"\xf9\x3c\x00",
    b"\xfb\x3f\xf1\x99\x99\x99\x99\x99\x9a",
    b"\xf8\xff",
    b"\xc1\x1a\x51\x4b\x67\xb0",
    b"\xd9\xd9\xf7\x83\x01\x02\x03\x04",
    b"\x43\x01\x02\x03\x04",
    b"\x59\x00\x03\x01\x02\x03",
    b"\x6aa\xc3\xbc\xe6\xb0\xb4\xf0\x90\x85\x91",
    b"\x7f\x63a\xc3\xbc\x78\x03\xe6\xb0\xb4\x64\xf0\x90\x85\x91\xff\x00",
    b"\x5f\x41\x01\x58\x02\x02\x03\x40\xff",
    b"\x9f\x18\x20\x82\x04\x05\x9f\xff\xff\xff",
    b"\xa2\x61a\x01\x61b\xbf\x01\x02\xff",
    b"\xbf\x01\x02\x03\xff",
    b"\x82\x01\x1c\x00",
    b"\x9f\xfe",
    b"\xff",
    b"\x5f\x61a\xff",
    b"\x81\x62\xff\x00\x00",
    b"\x65ab\xc3de",
    b"\x65abcd\xc3",
    b"\x68\xf0\x90\x85abcde\x00",
    b"\x64\xed\xa0\x80a",
    b"\x7f\x61\xc3\x61\xbc\xff",
    b"\x7b\xff\xff\xff\xff\xff\xff\xff\xffabc",
    b"\x5b\x7f\xff\xff\xff\xff\xff\xff\xffabc",
];

fn assert_fed<'a>(bytes: &[u8], pieces: impl IntoIterator<Item = &'a [u8]>) {
    let mut scanner = Scanner::new();
    let mut fed = 0;
    for piece in pieces {
        fed += piece.len();
        assert_eq!(
            scanner.feed(piece),
            extent(&bytes[..fed]),
            "{fed} of {bytes:x?}"
        );
    }
}

#[test]
fn two_pieces() {
    for bytes in IN_PIECES {
        for cut in 0..=bytes.len() {
            assert_fed(bytes, [&bytes[..cut], &bytes[cut..], &[]]);
        }
    }
}

#[test]
fn byte_by_byte() {
    for bytes in IN_PIECES {
        assert_fed(bytes, bytes.chunks(1));
    }
}

#[test]
fn random_pieces() {
    let mut seed = 1u32;
    for bytes in IN_PIECES {
        for _ in 0..20 {
            let mut pieces = Vec::new();
            let mut rest = bytes;
            while !rest.is_empty() {
                seed = seed.wrapping_mul(1664525).wrapping_add(1013904223);
                let (piece, after) = rest.split_at(1 + (seed >> 16) as usize % rest.len());
                pieces.push(piece);
                rest = after;
            }
            assert_fed(bytes, pieces);
        }
    }
}

#[test]
fn a_deep_stream() {
    let mut scanner = Scanner::default();
    assert_eq!(scanner.feed(&[0x81; 100]), Extent::Cut);
    let error = Error::TooDeep;
    let end = 129;
    assert_eq!(scanner.feed(&[0x81; 100000]), Extent::Fault { error, end });
}

#[test]
fn a_clone_goes_on_by_itself() {
    let mut scanner = Scanner::new();
    assert_eq!(scanner.feed(b"\x82\x01"), Extent::Cut);
    let mut other = scanner.clone();
    assert_eq!(scanner.feed(b"\x02"), Extent::Item(3));
    assert_eq!(other.feed(b"\x18\x20"), Extent::Item(4));
    assert_eq!(scanner.feed(b"\x18\x20"), Extent::Item(3));
}

#[test]
fn a_scanner_can_go_to_another_thread() {
    let mut scanner = Scanner::new();
    assert_eq!(scanner.feed(b"\x82\x01"), Extent::Cut);
    let found = std::thread::spawn(move || scanner.feed(b"\x02")).join();
    assert_eq!(found.unwrap(), Extent::Item(3));
}
