//! Tests that a schema written as bytes is read back unchanged, and that the bytes are an error if
//! they are truncated or have one more byte.

use cbor_cddl::{Schema, Unread};
use std::alloc::{AllocError, Global};

/// A text whose schema has nodes of each kind.
const ALL: &str = r#"
a = [* b, 2*3 c: d, (e // f), ~g]
b = #1 / #2.5 / 1..5 / -0.5...1.5 / #7.25 / #7.20 / #7.<1..3> / "t" / h'00' / any / $none
c = { ? "k" ^ => int, * tstr => any }
d = #6.32(tstr) / #6.<1..3>(int) / #6(any)
e = (tstr .size 4, uint .bits 3, bstr .cbor b, bstr .cborseq [* b])
f = (tstr .regexp "[a-z]+", tstr .pcre "b", int .lt 5, float .ge 1.5, int .ne 3, (int .and b))
g = [x: h<"y", 1>]
h<k, v> = { k: v }
"#;

/// The schema of a text in bytes, which are empty for a fault.
fn flat_of(alloc: Global, text: &str) -> Result<Vec<u8>, AllocError> {
    match Schema::load(alloc, text, None) {
        Ok(schema) => schema.to_flat(alloc),
        Err(_) => Ok(Vec::new(alloc)),
    }
}

/// The schema that is read of bytes, in bytes again, which are empty for an error.
fn again(alloc: Global, flat: &[u8]) -> Result<Vec<u8>, AllocError> {
    match Schema::from_flat(alloc, flat) {
        Ok(schema) => schema.to_flat(alloc),
        Err(Unread::Memory) => Err(AllocError),
        Err(Unread::Wrong) => Ok(Vec::new(alloc)),
    }
}

#[test]
fn a_schema_is_read_back(rt: HostRuntime) -> Result<(), AllocError> {
    let alloc = rt.alloc();
    let flat = flat_of(alloc, ALL)?;
    let read = again(alloc, &flat)?;
    assert!(rt; !flat.is_empty() && read == flat);
    Ok(())
}

/// How many beginnings of a schema, and how many schemas with one byte more, are read.
fn read_of_wrong(alloc: Global, flat: &[u8]) -> Result<usize, AllocError> {
    let mut read = 0usize;
    for len in 0..flat.len() {
        let part = flat.get(..len).unwrap_or(b"");
        if !again(alloc, part)?.is_empty() {
            read = read.saturating_add(1);
        }
    }
    let mut longer = Vec::from_slice(alloc, flat)?;
    longer.push(0)?;
    if !again(alloc, &longer)?.is_empty() {
        read = read.saturating_add(1);
    }
    Ok(read)
}

#[test]
fn no_part_of_a_schema_is_one(rt: HostRuntime) -> Result<(), AllocError> {
    let alloc = rt.alloc();
    let flat = flat_of(alloc, "a = [* uint] / tstr .size 4")?;
    let read = read_of_wrong(alloc, &flat)?;
    assert!(rt; !flat.is_empty() && read == 0);
    Ok(())
}
