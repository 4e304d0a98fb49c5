//! Stands in for `fast_float`: finds the numeral at the front of bytes. Rust's own reader of
//! floats, which is exact too, reads it.

use std::ops::Neg;
use std::str::FromStr;

/// A numeral at the front of bytes.
#[derive(Clone, Copy, Debug)]
pub struct Numeral<'a> {
    text: &'a str,
    has_point: bool,
    has_digits: bool,
    exponent: &'a [u8],
}

/// The end of the digits that begin at an index.
fn digits_end(bytes: &[u8], start: usize) -> usize {
    let rest = bytes.get(start..).unwrap_or(b"");
    start + rest.iter().take_while(|byte| byte.is_ascii_digit()).count()
}

impl<'a> Numeral<'a> {
    /// The longest numeral at the front of bytes: digits, a point, digits, and an exponent.
    pub fn scan(bytes: &'a [u8]) -> Numeral<'a> {
        let whole = digits_end(bytes, 0);
        let has_point = bytes.get(whole) == Some(&b'.');
        let mut end = if has_point {
            digits_end(bytes, whole + 1)
        } else {
            whole
        };
        let has_digits = whole > 0 || has_point && end > whole + 1;
        let mut exponent: &[u8] = b"";
        if let Some(b'e' | b'E') = bytes.get(end) {
            let has_sign = matches!(bytes.get(end + 1), Some(b'+' | b'-'));
            let start = end + 1 + usize::from(has_sign);
            let last = digits_end(bytes, start);
            if last > start {
                exponent = &bytes[start..last];
                end = last;
            }
        }
        Numeral {
            text: str::from_utf8(&bytes[..end]).unwrap_or(""),
            has_point,
            has_digits,
            exponent,
        }
    }

    /// How many bytes it has.
    #[allow(clippy::len_without_is_empty)] // As in the kit's crate.
    pub fn len(&self) -> usize {
        self.text.len()
    }

    /// Whether it has digits before the exponent.
    pub fn has_digits(&self) -> bool {
        self.has_digits
    }

    /// Whether it has a point.
    pub fn has_point(&self) -> bool {
        self.has_point
    }

    /// The digits of its exponent.
    pub fn exponent(&self) -> &'a [u8] {
        self.exponent
    }

    /// The nearest float.
    pub fn to_float<F: FromStr + Neg<Output = F> + Default>(&self, is_negative: bool) -> F {
        let float: F = self.text.parse().unwrap_or_default();
        if is_negative { -float } else { float }
    }
}
