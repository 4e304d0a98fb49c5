//! Makes the calls of `cbor_notes` and `cbor_tokens` that allocate, and checks that each gives the
//! right result, or the error for no memory.

use crate::note_lines::{merged, with_note};
use crate::tally::Tally;
use cbor_notes::{
    base32_decode, base32hex_decode, base58, base64_any_decode, base64_lines, date_of_epoch,
    datetime_of_epoch, decode_hex, digits_at, element_text, epoch_of_date, epoch_of_datetime,
    escaped_text, grouped, ipv4_text, ipv6_text, mac_text, push_element_text, push_escaped_text,
    push_grouped, push_hex, push_quoted_bytes, put_line, quoted_at, quoted_bytes, url_verdict,
    uuid_lines,
};
use std::alloc::{AllocError, Global};
use std::io::{self, Print};
use std::process::Abort;

/// Each call that allocates, with its result as `answer` shows it.
const ROWS: &[(&str, &str)] = &[
    ("Base32", "666f6f6261"),
    ("Base32Hex", "666f6f6261"),
    // the second alphabet that is tried
    ("Base64Any", "fbff"),
    ("DecodeHex", "0aff"),
    ("QuotedAt", "612762"),
    ("DigitsAt", "3031"),
    ("Base64Lines", "666f78                           # \"fox\""),
    ("UuidLines", "base64(/////////////////////w)"),
    ("DateOfEpoch", "1980-12-08"),
    ("DatetimeOfEpoch", "2013-03-21T20:04:00Z"),
    ("EpochOfDate", "-10,676"),
    ("EpochOfDatetime", "482196050.520"),
    ("ElementText", "unsigned(1,000)"),
    ("UrlVerdict", "true"),
    ("UrlVerdictInUnicode", "true"),
    ("Base58", "YcVfxkQb6JRzqk5kF2tNLv"),
    ("QuotedBytes", "\"\\x00A\\\"\""),
    ("EscapedText", "\\u{0}\\u{85}"),
    ("Grouped", "-1,234,567"),
    ("Ipv4", "192.0.2.1"),
    ("Ipv6", "::ffff:192.0.2.1"),
    ("Mac", "00:00:5e:00:53:01"),
    ("Merge", "f4 # false, simple(20)\n   #   note\n"),
    ("PushElementText", "before unsigned(1,000)"),
    ("PushQuotedBytes", "before \"\\x00A\\\"\""),
    ("PushEscapedText", "before \\u{0}\\u{85}"),
    ("PushGrouped", "before -1,234,567"),
    ("PushHex", "before 00ff"),
    ("PutLine", "before    0a #   \"\\n\"\n"),
];

/// Bytes in hex.
fn found_bytes(alloc: Global, found: Option<Vec<u8>>) -> Result<String, AllocError> {
    hex::encode(alloc, &found.unwrap_or(Vec::new(alloc)))
}

/// The content that a call found, in hex.
fn found_content(alloc: Global, found: Option<(Vec<u8>, usize)>) -> Result<String, AllocError> {
    let (content, _) = found.unwrap_or((Vec::new(alloc), 0));
    hex::encode(alloc, &content)
}

/// The last of lines.
fn last(alloc: Global, lines: Vec<String>) -> Result<String, AllocError> {
    match lines.last() {
        Some(line) => String::from_str(alloc, line.as_str()),
        None => String::from_str(alloc, "no line"),
    }
}

/// What a call gives, as a text; here of those that decode.
fn answer(alloc: Global, call: &str) -> Result<String, AllocError> {
    match call {
        "Base32" => found_bytes(alloc, base32_decode(alloc, b"MZXW6YTB")?),
        "Base32Hex" => found_bytes(alloc, base32hex_decode(alloc, b"CPNMUOJ1")?),
        "Base64Any" => found_bytes(alloc, base64_any_decode(alloc, b"-_8")?),
        "DecodeHex" => found_bytes(alloc, decode_hex(alloc, b"0aFF")?),
        "QuotedAt" => found_content(alloc, quoted_at(alloc, b"a\\'b'", 0, b'\'')?),
        "DigitsAt" => found_content(alloc, digits_at(alloc, b"0 /x/ 1'", 0, true)?),
        _ => noted(alloc, call),
    }
}

/// The same of those that return a text or none.
fn noted(alloc: Global, call: &str) -> Result<String, AllocError> {
    let found = match call {
        "DateOfEpoch" => date_of_epoch(alloc, 3_994)?,
        "DatetimeOfEpoch" => datetime_of_epoch(alloc, 1_363_896_240)?,
        "EpochOfDate" => epoch_of_date(alloc, "1940-10-09")?,
        "EpochOfDatetime" => epoch_of_datetime(alloc, "1985-04-12T23:20:50.52Z")?,
        "ElementText" => element_text(alloc, 66, b"\x00\x00\x03\xe8")?,
        _ => return lined(alloc, call),
    };
    Ok(found.unwrap_or(String::new(alloc)))
}

/// The same of those that return lines or a verdict.
fn lined(alloc: Global, call: &str) -> Result<String, AllocError> {
    let verdict = match call {
        "UrlVerdict" => url_verdict(alloc, "https://[2001:db8::1]:8080/a%20b?c#d")?,
        "UrlVerdictInUnicode" => url_verdict(alloc, "http://xn--bcher-kva.example/\u{fc}")?,
        "UuidLines" => return last(alloc, uuid_lines(alloc, &[0xff; 16])?),
        "Base64Lines" => {
            let lines = base64_lines(alloc, "VGhlIHF1aWNrIGJyb3duIGZveA==", false)?;
            return last(alloc, lines.unwrap_or(Vec::new(alloc)));
        }
        _ => return written(alloc, call),
    };
    format!(in alloc; "{verdict}")
}

/// The same of those that return a text.
fn written(alloc: Global, call: &str) -> Result<String, AllocError> {
    match call {
        "Base58" => base58(alloc, &[0xff; 16]),
        "QuotedBytes" => quoted_bytes(alloc, b"\x00A\""),
        "EscapedText" => escaped_text(alloc, "\0\u{85}"),
        "Grouped" => grouped(alloc, 1_234_567, true),
        "Ipv4" => ipv4_text(alloc, &[192, 0, 2, 1]),
        "Ipv6" => ipv6_text(alloc, b"\0\0\0\0\0\0\0\0\0\0\xff\xff\xc0\0\x02\x01"),
        "Mac" => mac_text(alloc, &[0, 0, 0x5e, 0, 0x53, 1]),
        "Merge" => merged(alloc, &with_note(alloc, "f4", "false, simple(20)")?),
        _ => {
            let mut text = String::from_str(alloc, "before ")?;
            append(&mut text, call)?;
            Ok(text)
        }
    }
}

/// Appends to a text.
fn append(text: &mut String, call: &str) -> Result<(), AllocError> {
    match call {
        "PushElementText" => {
            push_element_text(text, 66, b"\x00\x00\x03\xe8")?;
            Ok(())
        }
        "PushQuotedBytes" => push_quoted_bytes(text, b"\x00A\""),
        "PushEscapedText" => push_escaped_text(text, "\0\u{85}"),
        "PushGrouped" => push_grouped(text, 1_234_567, true),
        "PushHex" => push_hex(text, b"\x00\xff"),
        _ => put_line(text, 5, 1, "0a", "\"\\n\""),
    }
}

/// Makes each call twice.
pub fn run(rt: &(impl Abort + Print), alloc: Global, tally: &mut Tally) -> io::Result<()> {
    for (call, want) in ROWS {
        for _ in 0..2 {
            let found = answer(alloc, call);
            if let Ok(found) = &found {
                assert!(rt; found.as_str() == *want, "{call}");
            }
            tally.call(rt, call, found.is_ok())?;
        }
    }
    Ok(())
}
