//! Rules of an encoding: the first violation, and items re-encoded so that they keep the rules.

use crate::{library, Error, Result};
use std::fmt;

/// A set of rules for an encoding. Each includes the rules of the first.
#[derive(Clone, Copy, PartialEq, Eq, Hash, Debug)]
#[non_exhaustive]
pub enum Rules {
    /// Well formed by RFC 8949: no `f8` before a byte below 32.
    Rfc8949,
    /// No map has a key twice: the core encodings of its keys differ (RFC 8949, sections 5.3.1 and 5.6.1). Checking
    /// this takes memory.
    Valid,
    /// Preferred serialization (RFC 8949, section 4.1).
    Preferred,
    /// Core deterministic encoding (RFC 8949, section 4.2.1).
    Core,
    /// Length-first deterministic encoding (RFC 8949, section 4.2.3).
    LengthFirst,
    /// Canonical CBOR (CTAP 2.1, section 8).
    Ctap2,
    /// dCBOR. Checking this takes memory.
    Dcbor,
}

/// The first violation of a rule. Its `Display` says what is wrong.
#[derive(Clone, Copy, PartialEq, Eq, Hash, Debug)]
pub struct Violation {
    /// How many bytes come before the head or the key that violates the rule.
    pub place: usize,
    /// What is wrong there.
    pub kind: ViolationKind,
}

/// How a head or a key violates a rule.
#[derive(Clone, Copy, PartialEq, Eq, Hash, Debug)]
#[non_exhaustive]
pub enum ViolationKind {
    /// No item begins there, or it is truncated, or its content is not UTF-8.
    NoItem(Error),
    /// `f8` before a byte below 32.
    LongSimple,
    /// A number in a non-minimal width: a value, a length, a count or a tag.
    LongHead,
    /// A text, or a chunk of one, that is not in NFC.
    NotNfc,
    /// A float in a non-minimal width.
    LongFloat,
    /// A float that is an integer.
    IntegerFloat,
    /// A NaN other than `f97e00`.
    OtherNan,
    /// A simple value other than false, true and null.
    OtherSimple,
    /// An indefinite length.
    Indefinite,
    /// A tag.
    Tag,
    /// A big number with a zero byte in front.
    LeadingZero,
    /// A big number that fits an integer.
    SmallBigNumber,
    /// An array or a map at a level that is too deep.
    TooDeep,
    /// The key comes before the key at this place in the order of keys.
    KeyOrder {
        /// The place of the key before.
        previous: usize,
    },
    /// The map has the key already, at this place.
    KeyTwice {
        /// The place of the first of the two.
        first: usize,
    },
}

impl ViolationKind {
    /// The kind with this number and this detail.
    fn of(number: u32, detail: usize) -> ViolationKind {
        match number {
            1 => ViolationKind::NoItem(Error::of(-(detail as i64))),
            2 => ViolationKind::LongSimple,
            3 => ViolationKind::LongHead,
            4 => ViolationKind::NotNfc,
            5 => ViolationKind::LongFloat,
            6 => ViolationKind::IntegerFloat,
            7 => ViolationKind::OtherNan,
            8 => ViolationKind::OtherSimple,
            9 => ViolationKind::Indefinite,
            10 => ViolationKind::Tag,
            11 => ViolationKind::LeadingZero,
            12 => ViolationKind::SmallBigNumber,
            13 => ViolationKind::TooDeep,
            14 => ViolationKind::KeyOrder { previous: detail },
            15 => ViolationKind::KeyTwice { first: detail },
            _ => unreachable!("the library answered {number}"),
        }
    }

    fn number(self) -> u32 {
        match self {
            ViolationKind::NoItem(_) => 1,
            ViolationKind::LongSimple => 2,
            ViolationKind::LongHead => 3,
            ViolationKind::NotNfc => 4,
            ViolationKind::LongFloat => 5,
            ViolationKind::IntegerFloat => 6,
            ViolationKind::OtherNan => 7,
            ViolationKind::OtherSimple => 8,
            ViolationKind::Indefinite => 9,
            ViolationKind::Tag => 10,
            ViolationKind::LeadingZero => 11,
            ViolationKind::SmallBigNumber => 12,
            ViolationKind::TooDeep => 13,
            ViolationKind::KeyOrder { .. } => 14,
            ViolationKind::KeyTwice { .. } => 15,
        }
    }
}

impl fmt::Display for ViolationKind {
    fn fmt(&self, f: &mut fmt::Formatter<'_>) -> fmt::Result {
        if let ViolationKind::NoItem(error) = self {
            return error.fmt(f);
        }
        let mut text = [0; 64];
        // SAFETY: the pointer and the length are those of the array.
        let length =
            unsafe { library::cbor_diag_violation_text(self.number(), text.as_mut_ptr(), text.len()) };
        let written = &text[..length as usize];
        f.pad(std::str::from_utf8(written).expect("the text is ASCII"))
    }
}

impl fmt::Display for Violation {
    fn fmt(&self, f: &mut fmt::Formatter<'_>) -> fmt::Result {
        self.kind.fmt(f)
    }
}

/// Returns the first violation of the rules; `None` if the bytes are a sequence of items, or none, that keep the rules.
/// The only error is [`Error::Memory`], which only [`Rules::Valid`] and [`Rules::Dcbor`] can have. By [`Rules::Valid`]
/// two keys are the same if their core encodings are, even if their bytes differ.
///
/// ```rust
/// use semphluk::{violation, Violation, ViolationKind, Rules};
///
/// let found = violation(b"\x82\x01\x18\x02", Rules::Core).unwrap();
/// let kind = ViolationKind::LongHead;
/// assert_eq!(found, Some(Violation { place: 2, kind }));
/// ```
pub fn violation(bytes: &[u8], rules: Rules) -> Result<Option<Violation>> {
    let (mut place, mut detail) = (0, 0);
    // SAFETY: the pointers are those of the slice, with its length, and of the variables.
    let answer = unsafe {
        library::cbor_diag_violation(
            rules as u32,
            bytes.as_ptr(),
            bytes.len(),
            &mut place,
            &mut detail,
        )
    };
    match u32::try_from(answer) {
        Ok(0) => Ok(None),
        Ok(number) => {
            let kind = ViolationKind::of(number, detail);
            Ok(Some(Violation { place, kind }))
        }
        Err(_) => Err(Error::of(answer)),
    }
}

/// Re-encodes a sequence of items, or none, so that they keep the rules. The result has the same items but for widths,
/// kinds of length, the order of pairs and the forms of numbers: a big number that fits an integer becomes that
/// integer, and by [`Rules::Dcbor`] a float that is an integer does. Bytes that keep the rules are returned as they
/// are.
///
/// The error is [`Error::NotEncodable`] if the bytes are not a sequence of items; if they have a violation that
/// re-encoding cannot repair; if two keys of a map have the same core encoding or become the same; or if the joined
/// chunks of a text violate a rule. [`reencode_fault`] says which of these, and where. The only other error is
/// [`Error::Memory`].
///
/// ```rust
/// use semphluk::{reencode, Rules};
///
/// let core = reencode(b"\xa2\x18\x02\x80\x01\x80", Rules::Core).unwrap();
/// assert_eq!(core, b"\xa2\x01\x80\x02\x80");
/// ```
pub fn reencode(bytes: &[u8], rules: Rules) -> Result<Vec<u8>> {
    let mut output = Vec::new();
    let mut room = bytes.len();
    loop {
        output.try_reserve_exact(room).map_err(|_| Error::Memory)?;
        let room_there = output.capacity();
        // SAFETY: the pointers are those of the slice and of the vector, are not null and do not overlap; the lengths
        // are those of the slice and of the vector's room. The call only writes to the output.
        let answer = unsafe {
            library::cbor_diag_reencode(
                rules as u32,
                bytes.as_ptr(),
                bytes.len(),
                output.as_mut_ptr(),
                room_there,
            )
        };
        let length = usize::try_from(answer).map_err(|_| Error::of(answer))?;
        if length <= room_there {
            // SAFETY: the call wrote all bytes of the output.
            unsafe { output.set_len(length) };
            return Ok(output);
        }
        room = length;
    }
}

/// Why items have no encoding that keeps the rules.
#[derive(Clone, Copy, PartialEq, Eq, Hash, Debug)]
pub enum ReencodeFault {
    /// A violation in the bytes that re-encoding cannot repair. The bytes of two keys that are the same may differ, as
    /// `01` and `18 01`: they have the same core encoding, or become the same.
    Violation(Violation),
    /// A violation in the re-encoded items, such as a text whose joined chunks are not in NFC.
    Written,
}

/// Finds why no encoding of the items keeps the rules, after [`reencode`] has failed with [`Error::NotEncodable`].
/// Returns `None` if there is an encoding. The only error is [`Error::Memory`].
///
/// ```rust
/// use semphluk::{reencode_fault, Violation, ViolationKind, ReencodeFault, Rules};
///
/// let found = reencode_fault(b"\xa2\x01\x80\x18\x01\x80", Rules::Core).unwrap();
/// let kind = ViolationKind::KeyTwice { first: 1 };
/// assert_eq!(found, Some(ReencodeFault::Violation(Violation { place: 3, kind })));
/// ```
pub fn reencode_fault(bytes: &[u8], rules: Rules) -> Result<Option<ReencodeFault>> {
    let (mut place, mut detail) = (0, 0);
    // SAFETY: the pointers are those of the slice, with its length, and of the variables.
    let answer = unsafe {
        library::cbor_diag_reencode_fault(
            rules as u32,
            bytes.as_ptr(),
            bytes.len(),
            &mut place,
            &mut detail,
        )
    };
    match u32::try_from(answer) {
        Ok(0) => Ok(None),
        Ok(_) if place == usize::MAX => Ok(Some(ReencodeFault::Written)),
        Ok(number) => {
            let kind = ViolationKind::of(number, detail);
            Ok(Some(ReencodeFault::Violation(Violation { place, kind })))
        }
        Err(_) => Err(Error::of(answer)),
    }
}
