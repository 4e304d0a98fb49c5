//! Makes all calls of `cbor_diag` on samples, and checks that each gives the right result, or the
//! error for no memory.

use crate::samples::{SAMPLES, Sample, deepest, expected};
use crate::tally::Tally;
use cbor_diag::{
    ByteString, DataItem, Error, IntegerWidth, Result, TextString, Turns, bytes_to_bytes,
    bytes_to_diag, bytes_to_diag_pretty, bytes_to_hex, diag_fault, hex_bytes, hex_to_bytes,
    hex_to_diag, hex_to_diag_pretty, hex_to_hex, parse_bytes, parse_bytes_counted,
    parse_bytes_partial, parse_diag, parse_hex, push_bytes_to_diag, push_bytes_to_diag_partial,
    push_bytes_to_diag_pretty, push_bytes_to_diag_pretty_partial, push_bytes_to_hex,
    push_bytes_to_hex_partial,
};
use std::alloc::Global;
use std::io::{self, Print};
use std::process::Abort;

/// The calls that make a dump.
const DUMPS: &str = "ToHex BytesToHex PushBytesToHex PushBytesToHexPartial HexToHex";

const CALLS: &str = "ParseBytes ParseBytesPartial ParseBytesCounted ParseHex ParseDiag \
    BytesToDiag PushBytesToDiag PushBytesToDiagPartial HexToDiag BytesToDiagPretty \
    PushBytesToDiagPretty PushBytesToDiagPrettyPartial HexToDiagPretty BytesToBytes HexToBytes \
    HexBytes DiagFault ToBytes PushBytes ToDiag PushDiag ToDiagPretty PushDiagPretty Clone \
    CloneByteString CloneTextString";

fn in_digits(alloc: Global, bytes: &[u8]) -> Result<String> {
    Ok(hex::encode(alloc, bytes)?)
}

/// The bytes that an item is written as, in hex.
fn digits_of(alloc: Global, item: &DataItem) -> Result<String> {
    if !item.is_well_formed() {
        return Ok(String::from_str(alloc, "not well formed")?);
    }
    in_digits(alloc, &item.to_bytes(alloc)?)
}

/// The item that bytes begin with, in hex, if it is all `len` of them.
fn front_shown(alloc: Global, front: Option<(DataItem, usize)>, len: usize) -> Result<String> {
    match front {
        Some((item, used)) if used == len => digits_of(alloc, &item),
        _ => Ok(String::from_str(alloc, "not all")?),
    }
}

/// What a call appends for bytes, and a remark if it is not of all of them.
fn pushed(alloc: Global, call: &str, bytes: &[u8]) -> Result<String> {
    let mut text = String::new(alloc);
    let mut used = Some(bytes.len());
    match call {
        "PushBytesToDiag" => push_bytes_to_diag(alloc, bytes, &mut text)?,
        "PushBytesToDiagPretty" => push_bytes_to_diag_pretty(alloc, bytes, &mut text)?,
        "PushBytesToHex" => push_bytes_to_hex(alloc, bytes, &mut text)?,
        "PushBytesToDiagPartial" => used = push_bytes_to_diag_partial(alloc, bytes, &mut text)?,
        "PushBytesToHexPartial" => used = push_bytes_to_hex_partial(alloc, bytes, &mut text)?,
        _ => used = push_bytes_to_diag_pretty_partial(alloc, bytes, &mut text)?,
    }
    if used != Some(bytes.len()) {
        text.push_str(" is not all")?;
    }
    Ok(text)
}

/// The result of a call on bytes.
fn of_bytes(alloc: Global, call: &str, bytes: Vec<u8>) -> Result<String> {
    match call {
        "ParseBytes" => digits_of(alloc, &parse_bytes(alloc, &bytes)?),
        "ParseBytesPartial" => {
            front_shown(alloc, parse_bytes_partial(alloc, &bytes)?, bytes.len())
        }
        "ParseBytesCounted" => {
            let mut turns = Turns::new();
            let front = parse_bytes_counted(alloc, &bytes, &mut turns)?;
            front_shown(alloc, front, bytes.len())
        }
        "BytesToDiag" => bytes_to_diag(alloc, &bytes),
        "BytesToDiagPretty" => bytes_to_diag_pretty(alloc, &bytes),
        "BytesToHex" => bytes_to_hex(alloc, &bytes),
        "BytesToBytes" => in_digits(alloc, &bytes_to_bytes(alloc, bytes)?),
        _ => pushed(alloc, call, &bytes),
    }
}

/// The result of a call on a text.
fn of_text(alloc: Global, call: &str, sample: &Sample) -> Result<String> {
    match call {
        "ParseHex" => digits_of(alloc, &parse_hex(alloc, sample.dump)?),
        "ParseDiag" => digits_of(alloc, &parse_diag(alloc, sample.diag)?),
        "HexToDiag" => hex_to_diag(alloc, sample.dump),
        "HexToDiagPretty" => hex_to_diag_pretty(alloc, sample.dump),
        "HexToHex" => hex_to_hex(alloc, sample.dump),
        "HexToBytes" => in_digits(alloc, &hex_to_bytes(alloc, sample.dump)?),
        "HexBytes" => in_digits(alloc, &hex_bytes(alloc, sample.dump)?),
        _ => match diag_fault(alloc, sample.diag)? {
            None => Ok(String::from_str(alloc, sample.digits)?),
            Some(_) => Ok(String::from_str(alloc, "a fault")?),
        },
    }
}

/// The result of a call on an item.
fn of_item(alloc: Global, call: &str, sample: &Sample) -> Result<String> {
    let item = parse_hex(alloc, sample.digits)?;
    let mut text = String::new(alloc);
    match call {
        "ToBytes" => return digits_of(alloc, &item),
        "ToHex" => return item.to_hex(alloc),
        "ToDiag" => return item.to_diag(alloc),
        "ToDiagPretty" => return item.to_diag_pretty(alloc),
        "Clone" => return digits_of(alloc, &item.clone(alloc)?),
        "PushDiag" => item.push_diag(alloc, &mut text)?,
        "PushDiagPretty" => item.push_diag_pretty(alloc, &mut text)?,
        _ => {
            let mut bytes = Vec::new(alloc);
            item.push_bytes(&mut bytes)?;
            return in_digits(alloc, &bytes);
        }
    }
    Ok(text)
}

/// A clone of a string of the digits of a sample.
fn of_string(alloc: Global, call: &str, sample: &Sample) -> Result<String> {
    let bitwidth = IntegerWidth::Unknown;
    if call == "CloneTextString" {
        let content = String::from_str(alloc, sample.digits)?;
        return Ok(TextString { content, bitwidth }.clone(alloc)?.content);
    }
    let content = Vec::from_slice(alloc, sample.digits.as_bytes())?;
    let string = ByteString { content, bitwidth }.clone(alloc)?;
    match String::from_utf8(string.content) {
        Ok(text) => Ok(text),
        Err(_) => Ok(String::from_str(alloc, "not UTF-8")?),
    }
}

fn answer(alloc: Global, call: &str, sample: &Sample) -> Result<String> {
    match call {
        "ParseHex"
        | "ParseDiag"
        | "HexToDiag"
        | "HexToDiagPretty"
        | "HexToHex"
        | "HexToBytes"
        | "HexBytes"
        | "DiagFault" => of_text(alloc, call, sample),
        "ToBytes"
        | "PushBytes"
        | "ToHex"
        | "ToDiag"
        | "PushDiag"
        | "ToDiagPretty"
        | "PushDiagPretty"
        | "Clone" => of_item(alloc, call, sample),
        "CloneByteString" | "CloneTextString" => of_string(alloc, call, sample),
        _ => match hex::decode(alloc, sample.digits) {
            Ok(bytes) => of_bytes(alloc, call, bytes),
            Err(_) => Err(Error::Memory),
        },
    }
}

/// Whether a call returns a result, which is then the right one. Otherwise an allocation failed.
fn is_answered(rt: &impl Abort, alloc: Global, call: &str, sample: &Sample) -> bool {
    match answer(alloc, call, sample) {
        Ok(found) => {
            let expected = expected(call, sample);
            assert_eq!(rt; found.as_str(), expected, "{call} of {}", sample.digits);
            true
        }
        Err(error) => {
            assert_eq!(rt; error, Error::Memory, "{call} of {}", sample.digits);
            false
        }
    }
}

/// Makes each of these calls of a sample twice.
fn make_calls(
    rt: &(impl Abort + Print),
    alloc: Global,
    (calls, sample): (&str, &Sample),
    tally: &mut Tally,
) -> io::Result<()> {
    for call in calls.split_whitespace() {
        for _ in 0..2 {
            let answered = is_answered(rt, alloc, call, sample);
            tally.call(rt, call, answered)?;
        }
    }
    Ok(())
}

/// Makes all calls. A reader or a writer that always returns `Memory` meets its contract, so no
/// proof finds it. The dumps of the deepest item are left out: each has 800 kilobytes.
pub fn run(rt: &(impl Abort + Print), alloc: Global, tally: &mut Tally) -> io::Result<()> {
    for sample in &SAMPLES {
        make_calls(rt, alloc, (DUMPS, sample), tally)?;
        make_calls(rt, alloc, (CALLS, sample), tally)?;
    }
    match deepest(alloc) {
        Ok((digits, text)) => {
            let (digits, diag) = (digits.as_str(), text.as_str());
            let dump = digits;
            make_calls(rt, alloc, (CALLS, &Sample { digits, dump, diag }), tally)
        }
        Err(_) => tally.call(rt, "the deepest item", false),
    }
}
