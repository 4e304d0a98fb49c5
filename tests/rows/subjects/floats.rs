//! Runs the test rows about floats, and returns each result as text. In input and result, a float
//! is its CBOR encoding in hex, or a decimal text. The calls:
//!
//! - `parse_number` gives the number of a decimal text in its shortest width, `parse_in_width
//!   WIDTH` in 16, 32 or 64 bits, and `nearest_half` the half that is nearest to it; or each an
//!   error.
//! - `push_number` gives the decimal text of a float.
//! - `value` gives the number of a float in 64 bits, with the usual bits of a NaN; `shortest` gives
//!   it in the shortest width that has it.
//! - `widened` gives the same float in 64 bits, and `shorter` in the shortest width, or `none`;
//!   both keep the bits of a NaN.
//! - `is_usual` and `is_shortest` say whether a number has these bits in its width, and in the
//!   shortest.

use crate::row::Row;
use cbor_floats::{
    EncodedFloat, NumberError, Width, nearest_half, parse_in_width, parse_number, push_number,
};
use std::alloc::{AllocError, Global};

/// What the call of a row gives; none if it is no call of this subject.
pub fn answer(alloc: Global, row: &Row) -> Result<Option<String>, AllocError> {
    let found = match row.call {
        "parse_number" => match parse_number(&row.input) {
            Ok(x) => encoded_text(alloc, EncodedFloat::shortest(x)),
            Err(error) => error_text(alloc, error),
        },
        "parse_in_width" => match parse_in_width(&row.input, width_of(row.argument)) {
            Ok(float) => encoded_text(alloc, float),
            Err(error) => error_text(alloc, error),
        },
        "nearest_half" => match parse_number(&row.input) {
            Ok(x) => encoded_text(alloc, EncodedFloat::Half(nearest_half(x))),
            Err(error) => error_text(alloc, error),
        },
        "push_number" | "value" | "shortest" | "widened" | "shorter" | "is_usual" | "is_shortest" =>
            match float_of(&row.bytes) {
                Some(float) => of_float(alloc, row.call, float),
                None => String::from_str(alloc, "no float"),
            },
        _ => return Ok(None),
    };
    Ok(Some(found?))
}

/// What a call on a float gives.
fn of_float(alloc: Global, call: &str, float: EncodedFloat) -> Result<String, AllocError> {
    match call {
        "push_number" => {
            let mut text = String::new(alloc);
            push_number(&mut text, float.value())?;
            Ok(text)
        }
        "value" => encoded_text(alloc, EncodedFloat::double(float.value())),
        "shortest" => encoded_text(alloc, EncodedFloat::shortest(float.value())),
        "widened" => encoded_text(alloc, EncodedFloat::Double(float.widened())),
        "is_usual" => format!(in alloc; "{}", float.is_usual()),
        "is_shortest" => format!(in alloc; "{}", float.is_shortest()),
        _ => match float.shorter() {
            Some(shorter) => encoded_text(alloc, shorter),
            None => String::from_str(alloc, "none"),
        },
    }
}

/// The width of this many bits.
fn width_of(bits: &str) -> Width {
    match bits {
        "16" => Width::Sixteen,
        "32" => Width::ThirtyTwo,
        _ => Width::SixtyFour,
    }
}

/// The float that these bytes encode.
fn float_of(bytes: &[u8]) -> Option<EncodedFloat> {
    match *bytes {
        [0xf9, a, b] => Some(EncodedFloat::Half(u16::from_be_bytes([a, b]))),
        [0xfa, a, b, c, d] => Some(EncodedFloat::Single(u32::from_be_bytes([a, b, c, d]))),
        [0xfb, a, b, c, d, e, f, g, h] => {
            let bits = u64::from_be_bytes([a, b, c, d, e, f, g, h]);
            Some(EncodedFloat::Double(bits))
        }
        _ => None,
    }
}

/// The bytes of a float in hex.
fn encoded_text(alloc: Global, float: EncodedFloat) -> Result<String, AllocError> {
    match float {
        EncodedFloat::Half(bits) => format!(in alloc; "f9{bits:04x}"),
        EncodedFloat::Single(bits) => format!(in alloc; "fa{bits:08x}"),
        EncodedFloat::Double(bits) => format!(in alloc; "fb{bits:016x}"),
    }
}

/// The name of an error.
fn error_text(alloc: Global, error: NumberError) -> Result<String, AllocError> {
    format!(in alloc; "{error:?}")
}
