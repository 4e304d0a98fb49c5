//! Reads strings whose length is claimed but not there. That takes no memory, so no allocation can
//! fail in these calls.

use crate::tally::Tally;
use cbor_diag::{Error, parse_bytes, parse_bytes_partial};
use std::alloc::Global;
use std::io::{self, Print};

/// Strings that claim more bytes than there are.
const CLAIMED: [&[u8]; 3] = [
    b"\x5b\x20\x00\x00\x00\x00\x00\x00\x00",
    b"\x7b\x20\x00\x00\x00\x00\x00\x00\x00",
    b"\x5a\x40\x00\x00\x00\x01",
];

/// Reads each string, as a whole item and as the front of more bytes.
pub fn run(rt: &impl Print, alloc: Global, tally: &mut Tally) -> io::Result<()> {
    for bytes in CLAIMED {
        let is_cut = parse_bytes(alloc, bytes).err() == Some(Error::CutShort);
        tally.call(rt, "parse_bytes", is_cut)?;
        let is_cut = matches!(parse_bytes_partial(alloc, bytes), Ok(None));
        tally.call(rt, "parse_bytes_partial", is_cut)?;
    }
    Ok(())
}
