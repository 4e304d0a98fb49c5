//! Tests hostile inputs: hundreds of thousands of opening brackets, and nested arrays that are each
//! too long for a line.

use cbor_diag::{
    Error, Extent, Result, bytes_to_diag_pretty, extent, parse_bytes, parse_bytes_partial,
    parse_diag,
};
use std::alloc::Global;
use std::process::Abort;

fn check(rt: &impl Abort, found: Option<Error>, expected: Error, on: u8) {
    assert_eq!(rt; found, Some(expected), "on {on}");
}

/// The error of bytes that are none, as `parse_bytes_partial` has it: bytes that are cut have one.
fn refusal(alloc: Global, bytes: &[u8]) -> Option<Error> {
    match parse_bytes_partial(alloc, bytes) {
        Ok(None) => Some(Error::CutShort),
        Ok(Some(_)) => None,
        Err(error) => Some(error),
    }
}

#[test]
fn openings_that_never_close(rt: HostRuntime) -> Result<()> {
    for opening in [0x81u8, 0x9f, 0xa1, 0xbf, 0xc1, 0x5f] {
        let bytes = vec![in rt.alloc(); opening; 200_000]?;
        let (error, end) = match opening {
            0x5f => (Error::Head, 2),
            _ => (Error::TooDeep, 129),
        };
        check(&rt, refusal(rt.alloc(), &bytes), error, opening);
        check(&rt, parse_bytes(rt.alloc(), &bytes).err(), error, opening);
        assert!(rt; extent(&bytes) == Extent::Fault { error, end }, "{opening}");
    }
    let mut text = "[".repeat(rt.alloc(), 200_000)?;
    check(&rt, parse_diag(rt.alloc(), &text).err(), Error::TooDeep, 0);
    text.push_str("]".repeat(rt.alloc(), 200_000)?.as_str())?;
    check(&rt, parse_diag(rt.alloc(), &text).err(), Error::TooDeep, 0);
    Ok(())
}

/// An array of 20 times 126 arrays, one in the other, each with a text that makes it just too long
/// for a line.
fn long_arrays(alloc: Global) -> Result<Vec<u8>> {
    let mut bytes = Vec::from_slice(alloc, b"\x94")?;
    for _ in 0..20 {
        for _ in 0..126 {
            bytes.extend_from_slice(b"\x82\x78\x34")?;
            bytes.extend_from_slice("A".repeat(alloc, 52)?.as_bytes())?;
        }
        bytes.push(0)?;
    }
    Ok(bytes)
}

// A look ahead at each container ends soon, so that the work grows with the bytes only.
#[test]
fn each_container_is_too_long_for_a_line(rt: HostRuntime) -> Result<()> {
    let text = bytes_to_diag_pretty(rt.alloc(), &long_arrays(rt.alloc())?)?;
    assert!(rt;
        text.lines().count() == 2 + 20 * (3 * 126 + 1),
        "{}",
        text.lines().count()
    );
    Ok(())
}
