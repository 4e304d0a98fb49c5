//! Runs the test rows about texts of comments, such as dates and addresses, and returns each result
//! as text.
//!
//! A row calls a function of `cbor_notes` by its name. Numbers are decimal, and bytes are in hex.
//! `none` says that a call found nothing. A word may follow a name: `grouped negative`,
//! `element_text TAG`, `base64_lines url`, and `uuid_lines first`, which gives the first of the
//! lines.

use crate::row::Row;
use cbor_notes::{
    base58, base64_lines, date_of_epoch, datetime_of_epoch, element_size, element_text,
    epoch_of_date, epoch_of_datetime, escaped_text, grouped, ipv4_text, ipv6_text, mac_text,
    quoted_bytes, tag_name, url_verdict, uuid_lines,
};
use std::alloc::{AllocError, Global};

/// What the call of a row gives; none if it is no call of this subject.
pub fn answer(alloc: Global, row: &Row) -> Result<Option<String>, AllocError> {
    let (text, words) = (row.text(), row.argument);
    let found = match row.call {
        "date_of_epoch" | "datetime_of_epoch" | "epoch_of_date" | "epoch_of_datetime" => {
            date(alloc, row.call, text)
        }
        "base58" | "uuid_lines" | "ipv4_text" | "ipv6_text" | "mac_text" => {
            of_octets(alloc, row)
        }
        "grouped" => grouped(
            alloc,
            text.parse::<u128>().unwrap_or(0),
            words == "negative",
        ),
        "quoted_bytes" => quoted_bytes(alloc, &row.bytes),
        "escaped_text" => escaped_text(alloc, text),
        "element_size" => size_text(alloc, element_size(tag(text))),
        "element_text" => or_none(alloc, element_text(alloc, tag(words), &row.bytes)),
        "base64_lines" => lines(alloc, base64_lines(alloc, text, words == "url")),
        "tag_name" => String::from_str(alloc, tag_name(tag(text)).unwrap_or("none")),
        "url_verdict" => verdict(alloc, text),
        _ => return Ok(None),
    };
    Ok(Some(found?))
}

/// A text, or `none`.
fn or_none(alloc: Global, found: Result<Option<String>, AllocError>) -> Result<String, AllocError> {
    match found? {
        Some(text) => Ok(text),
        None => String::from_str(alloc, "none"),
    }
}

/// The tag of this number.
fn tag(number: &str) -> u64 {
    number.parse::<u64>().unwrap_or(0)
}

/// What a call on a date, a moment, days or seconds gives.
fn date(alloc: Global, call: &str, text: &str) -> Result<String, AllocError> {
    let number = text.parse::<i64>().unwrap_or(0);
    let found = match call {
        "date_of_epoch" => date_of_epoch(alloc, number),
        "datetime_of_epoch" => datetime_of_epoch(alloc, number),
        "epoch_of_date" => epoch_of_date(alloc, text),
        _ => epoch_of_datetime(alloc, text),
    };
    or_none(alloc, found)
}

/// What a call on 4, 6 or 16 bytes gives.
fn of_octets(alloc: Global, row: &Row) -> Result<String, AllocError> {
    let bytes = row.bytes.as_slice();
    if let Some(octets) = bytes.as_array() {
        ipv4_text(alloc, octets)
    } else if let Some(octets) = bytes.as_array() {
        mac_text(alloc, octets)
    } else if let Some(octets) = bytes.as_array() {
        of_sixteen(alloc, row, octets)
    } else {
        String::from_str(alloc, "another number of bytes")
    }
}

/// What a call on 16 bytes gives.
fn of_sixteen(alloc: Global, row: &Row, octets: &[u8; 16]) -> Result<String, AllocError> {
    match (row.call, row.argument) {
        ("base58", _) => base58(alloc, octets),
        ("ipv6_text", _) => ipv6_text(alloc, octets),
        (_, "first") => match uuid_lines(alloc, octets)?.first() {
            Some(line) => String::from_str(alloc, line.as_str()),
            None => String::from_str(alloc, ""),
        },
        _ => lines(alloc, Ok(Some(uuid_lines(alloc, octets)?))),
    }
}

/// Lines, or `none`.
fn lines(
    alloc: Global,
    found: Result<Option<Vec<String>>, AllocError>,
) -> Result<String, AllocError> {
    let Some(lines) = found? else {
        return String::from_str(alloc, "none");
    };
    let mut joined = String::new(alloc);
    for line in lines.iter() {
        if !joined.is_empty() {
            joined.push('\n')?;
        }
        joined.push_str(line.as_str())?;
    }
    Ok(joined)
}

/// A size, or `none`.
fn size_text(alloc: Global, size: Option<usize>) -> Result<String, AllocError> {
    match size {
        Some(size) => format!(in alloc; "{size}"),
        None => String::from_str(alloc, "none"),
    }
}

/// Whether a text is a URL.
fn verdict(alloc: Global, text: &str) -> Result<String, AllocError> {
    let is_url = url_verdict(alloc, text)?;
    String::from_str(alloc, if is_url { "true" } else { "false" })
}
