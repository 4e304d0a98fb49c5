//! Makes conversions of `cbor_diag`, and checks that each gives the right output, or the error for
//! no memory.

use crate::tally::{Tally, is_answered};
use cbor_diag::{Error, Source, To, convert, push_front};
use std::alloc::Global;
use std::io::{self, Print};
use std::process::Abort;

/// A conversion, or the items at the front of the bytes of a sequence where no form is named, and
/// what is written.
#[derive(Clone, Copy)]
struct Case<'a> {
    from: Option<Source>,
    to: To,
    input: &'a [u8],
    output: &'a [u8],
}

/// The text `https://example.com` under tag 32.
const BYTES: &[u8] = b"\xd8\x20\x73https://example.com";

const COMMENTED: &[u8] = b"\
d8 20                                        # uri, tag(32)
   73                                        #   text(19)
      68747470733a2f2f6578616d706c652e636f6d #     \"https://example.com\"
                                             #   valid URL (checked against URL \
Standard, not RFC 3986)
";

const LINE: &[u8] = b"32_0(\"https://example.com\")\n";

/// An integer, an array, a text and an embedded item.
const SEQUENCE: &[u8] = b"\x18\x64\x82\x01\x20\x62\xc3\xa9\xd8\x18\x41\x01";

const DUMPS: &[u8] = b"\
18 64 # unsigned(100)
82    # array(2)
   01 #   unsigned(1)
   20 #   negative(-1)
62      # text(2)
   c3a9 #   \"\xc3\xa9\"
d8 18    # encoded cbor data item, tag(24)
   41    #   bytes(1)
      01 #     \"\\x01\"
         #   encoded cbor data item
         #     01 # unsigned(1)
";

const LINES: &[u8] = b"100_0\n[1,-1]\n\"\xc3\xa9\"\n24_0(<<1>>)\n";

const PRETTY: &[u8] = b"100_0\n[1, -1]\n\"\xc3\xa9\"\n24_0(<<1>>)\n";

fn row<'a>(from: Option<Source>, to: To, input: &'a [u8], output: &'a [u8]) -> Case<'a> {
    Case {
        from,
        to,
        input,
        output,
    }
}

fn cases() -> [Case<'static>; 11] {
    [
        row(Some(Source::Bytes), To::Bytes, BYTES, BYTES),
        row(Some(Source::Bytes), To::Hex, BYTES, COMMENTED),
        row(Some(Source::Bytes), To::Diag, BYTES, LINE),
        row(Some(Source::Bytes), To::Pretty, BYTES, LINE),
        row(Some(Source::Hex), To::Bytes, COMMENTED, BYTES),
        row(Some(Source::Diag), To::Bytes, LINE, BYTES),
        row(Some(Source::Diag), To::Hex, LINE, COMMENTED),
        row(None, To::Bytes, SEQUENCE, SEQUENCE),
        row(None, To::Hex, SEQUENCE, DUMPS),
        row(None, To::Diag, SEQUENCE, LINES),
        row(None, To::Pretty, SEQUENCE, PRETTY),
    ]
}

/// The output of the four items at the front of the bytes.
fn fronts(alloc: Global, to: To, bytes: &[u8]) -> Result<Vec<u8>, Error> {
    let mut out = Vec::new(alloc);
    let mut rest = bytes;
    for _ in 0..4 {
        match push_front(alloc, to, rest, &mut out)? {
            Some(used) => rest = rest.get(used..).unwrap_or(b""),
            None => return Err(Error::CutShort),
        }
    }
    Ok(out)
}

/// Makes each conversion twice.
pub fn run(rt: &(impl Abort + Print), alloc: Global, tally: &mut Tally) -> io::Result<()> {
    for case in cases() {
        for _ in 0..2 {
            let found = match case.from {
                Some(from) => convert(alloc, from, case.to, case.input),
                None => fronts(alloc, case.to, case.input),
            };
            tally.call(rt, "convert", is_answered(rt, found, case.output))?;
        }
    }
    Ok(())
}
