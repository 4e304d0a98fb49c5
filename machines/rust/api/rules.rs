//! Rules of an encoding, such as deterministic encoding: the first violation, and items encoded anew.
//!
//! ```
//! use semphluk::rules::{self, Rules, ViolationKind};
//!
//! let found = rules::violation(b"\xa2\x02\x80\x01\x80", Rules::Core)?.unwrap();
//! assert_eq!((found.offset, found.kind), (3, ViolationKind::KeyOrder { previous: 1 }));
//! assert_eq!(rules::reencode(b"\xa2\x18\x02\x80\x01\x80", Rules::Core)?, b"\xa2\x01\x80\x02\x80");
//! # Ok::<(), semphluk::Error>(())
//! ```

use crate::cbor_diag_c::reencoding::{cbor_diag_reencode, cbor_diag_reencode_fault};
use crate::cbor_diag_c::violations::{cbor_diag_violation, cbor_diag_violation_text};
use crate::error::{ErrorKind, Result};
use crate::rattle::alloc::Global;
use crate::written::answer_of;
use std::fmt;

/// A set of rules for an encoding. Each includes the rules of the first.
#[derive(Clone, Copy, PartialEq, Eq, Hash, Debug)]
#[non_exhaustive]
pub enum Rules {
    /// Well formed by RFC 8949: no `f8` before a byte below 32.
    Rfc8949,
    /// No map has a key twice (RFC 8949, sections 5.3.1 and 5.6.1).
    Valid,
    /// Preferred serialization (RFC 8949, section 4.1).
    Preferred,
    /// Core deterministic encoding (RFC 8949, section 4.2.1).
    Core,
    /// Length-first deterministic encoding (RFC 8949, section 4.2.3).
    LengthFirst,
    /// Canonical CBOR (CTAP 2.1, section 8).
    Ctap2,
    /// dCBOR.
    Dcbor,
}

/// How a head or a key violates a rule.
#[derive(Clone, Copy, PartialEq, Eq, Hash, Debug)]
#[non_exhaustive]
pub enum ViolationKind {
    /// No item begins there, or it is truncated, or its content is not UTF-8.
    NoItem(ErrorKind),
    /// `f8` before a byte below 32.
    LongSimple,
    /// A number in a non-minimal width: a value, a length, a count or a tag.
    LongHead,
    /// A text, or a chunk of one, that is not in NFC.
    NotNfc,
    /// A float in a non-minimal width.
    LongFloat,
    /// A float that is an integer.
    IntegerFloat,
    /// A NaN other than `f97e00`.
    OtherNan,
    /// A simple value other than false, true and null.
    OtherSimple,
    /// An indefinite length.
    Indefinite,
    /// A tag.
    Tag,
    /// A big number with a zero byte in front.
    LeadingZero,
    /// A big number that fits an integer.
    SmallBigNumber,
    /// An array or a map at a level that is too deep.
    TooDeep,
    /// The key comes before the key at this offset in the order of keys.
    KeyOrder {
        /// The offset of the key before.
        previous: usize,
    },
    /// The map has the key already, at this offset.
    KeyTwice {
        /// The offset of the first of the two.
        first: usize,
    },
}

impl ViolationKind {
    /// The kind with this number in the library for C, and this detail.
    fn of(number: i64, detail: usize) -> ViolationKind {
        match number {
            1 => ViolationKind::NoItem(ErrorKind::of(-(detail as i64))),
            2 => ViolationKind::LongSimple,
            3 => ViolationKind::LongHead,
            4 => ViolationKind::NotNfc,
            5 => ViolationKind::LongFloat,
            6 => ViolationKind::IntegerFloat,
            7 => ViolationKind::OtherNan,
            8 => ViolationKind::OtherSimple,
            9 => ViolationKind::Indefinite,
            10 => ViolationKind::Tag,
            11 => ViolationKind::LeadingZero,
            12 => ViolationKind::SmallBigNumber,
            13 => ViolationKind::TooDeep,
            14 => ViolationKind::KeyOrder { previous: detail },
            15 => ViolationKind::KeyTwice { first: detail },
            _ => unreachable!("a call answered {number}"),
        }
    }

    /// Its number.
    fn number(self) -> u32 {
        match self {
            ViolationKind::NoItem(_) => 1,
            ViolationKind::LongSimple => 2,
            ViolationKind::LongHead => 3,
            ViolationKind::NotNfc => 4,
            ViolationKind::LongFloat => 5,
            ViolationKind::IntegerFloat => 6,
            ViolationKind::OtherNan => 7,
            ViolationKind::OtherSimple => 8,
            ViolationKind::Indefinite => 9,
            ViolationKind::Tag => 10,
            ViolationKind::LeadingZero => 11,
            ViolationKind::SmallBigNumber => 12,
            ViolationKind::TooDeep => 13,
            ViolationKind::KeyOrder { .. } => 14,
            ViolationKind::KeyTwice { .. } => 15,
        }
    }
}

impl fmt::Display for ViolationKind {
    fn fmt(&self, f: &mut fmt::Formatter<'_>) -> fmt::Result {
        if let ViolationKind::NoItem(error) = self {
            return error.fmt(f);
        }
        let mut text = [0; 64];
        let length = cbor_diag_violation_text(self.number(), &mut text);
        let written = usize::try_from(length).ok().and_then(|length| text.get(..length));
        f.pad(std::str::from_utf8(written.unwrap_or_default()).unwrap_or_default())
    }
}

/// A violation of a rule. Its `Display` says what is wrong.
#[derive(Clone, Copy, PartialEq, Eq, Hash, Debug)]
#[non_exhaustive]
pub struct Violation {
    /// How many bytes come before the head or the key that violates the rule.
    pub offset: usize,
    /// What is wrong there.
    pub kind: ViolationKind,
}

impl fmt::Display for Violation {
    fn fmt(&self, f: &mut fmt::Formatter<'_>) -> fmt::Result {
        self.kind.fmt(f)
    }
}

/// Returns the first violation of the rules; `None` if the bytes are a sequence of items, or none, that keep the rules.
/// The only error is [`ErrorKind::Memory`].
pub fn violation(bytes: &[u8], rules: Rules) -> Result<Option<Violation>> {
    let (mut offset, mut detail) = (0, 0);
    match cbor_diag_violation(Global, rules as u32, bytes, &mut offset, &mut detail) {
        0 => Ok(None),
        number if number > 0 => Ok(Some(Violation { offset, kind: ViolationKind::of(number, detail) })),
        answer => Err(ErrorKind::of(answer).into()),
    }
}

/// Encodes a sequence of items, or none, so that they keep the rules. The result has the same items but for widths,
/// kinds of length, the order of pairs and the forms of numbers. Bytes that keep the rules are returned as they are.
///
/// The error is [`ErrorKind::NotEncodable`] if the bytes are not a sequence of items, or if no encoding of them keeps
/// the rules: [`fault`] says why. The only other error is [`ErrorKind::Memory`].
pub fn reencode(bytes: &[u8], rules: Rules) -> Result<Vec<u8>> {
    answer_of(bytes.len(), |room| cbor_diag_reencode(Global, rules as u32, bytes, room))
        .map_err(|answer| ErrorKind::of(answer).into())
}

/// Why items have no encoding that keeps the rules.
#[derive(Clone, Copy, PartialEq, Eq, Hash, Debug)]
#[non_exhaustive]
pub enum Fault {
    /// A violation in the bytes that no encoding repairs. The bytes of two keys that are the same may differ, as `01`
    /// and `18 01`.
    Violation(Violation),
    /// A violation in the items that were encoded anew, such as a text whose joined chunks are not in NFC.
    Written,
}

/// Finds why no encoding of the items keeps the rules. Returns `None` if there is one. The only error is
/// [`ErrorKind::Memory`].
///
/// ```
/// use semphluk::rules::{self, Fault, Rules, ViolationKind};
///
/// let Some(Fault::Violation(found)) = rules::fault(b"\xa2\x01\x80\x18\x01\x80", Rules::Core)? else { panic!() };
/// assert_eq!((found.offset, found.kind), (3, ViolationKind::KeyTwice { first: 1 }));
/// # Ok::<(), semphluk::Error>(())
/// ```
pub fn fault(bytes: &[u8], rules: Rules) -> Result<Option<Fault>> {
    let (mut offset, mut detail) = (0, 0);
    match cbor_diag_reencode_fault(Global, rules as u32, bytes, &mut offset, &mut detail) {
        0 => Ok(None),
        answer if answer < 0 => Err(ErrorKind::of(answer).into()),
        _ if offset == usize::MAX => Ok(Some(Fault::Written)),
        number => {
            let kind = ViolationKind::of(number, detail);
            Ok(Some(Fault::Violation(Violation { offset, kind })))
        }
    }
}
