//! Errors.

use crate::{library, Form};
use std::fmt;

/// Why a conversion failed. Its `Display` is the text of the library.
#[derive(Clone, Copy, PartialEq, Eq, Hash, Debug)]
#[non_exhaustive]
pub enum Error {
    /// Out of memory. It says nothing about the input.
    Memory,
    /// The input ends before the item does.
    CutShort,
    /// A head that cannot be in its place.
    Head,
    /// A text string is not UTF-8, or the hex, notation or EDN of the input is not.
    Utf8,
    /// An item is deeper than level 128; the outermost item is at level 1.
    TooDeep,
    /// Bytes follow the item.
    Remaining,
    /// Without comments, spaces and line ends, the hex has an odd number of bytes, whatever they are.
    OddHex,
    /// That number is even, and one of the bytes is not a hex digit.
    BadHex,
    /// The text is not diagnostic notation, or not one item in EDN.
    Notation,
    /// A number is too large for the width written after it.
    PastWidth,
    /// No encoding of the items keeps the rules, or the bytes are not items.
    NotEncodable,
    /// Two keys of a map become the same in JSON.
    SameKeys,
    /// JSON does not keep all of the item: only for [`Form::JsonStrict`].
    NotKept,
    /// The path leads to no part of the item.
    NoPart,
    /// No type of the tables of names has this name.
    NoType,
    /// Neither hex, EDN, base 64 nor bytes of items.
    NotRecognized,
    /// The file of names has an error.
    WrongNames,
    /// Matching an item takes more than 10 million steps, or nests too deeply.
    TooMuchWork,
}

/// The result of a conversion.
pub type Result<T> = std::result::Result<T, Error>;

/// The errors of a conversion, in the order of their numbers, from 1 on.
const ERRORS: [Error; 10] = [
    Error::Memory,
    Error::CutShort,
    Error::Head,
    Error::Utf8,
    Error::TooDeep,
    Error::Remaining,
    Error::OddHex,
    Error::BadHex,
    Error::Notation,
    Error::PastWidth,
];

/// A call of the library that writes a text about an input: a form, the input, and room for the text.
type Call = unsafe extern "C" fn(u32, *const u8, usize, *mut u8, usize) -> i64;

/// The number of `NotEncodable`. The numbers before it are errors of arguments that this crate never passes.
const NOT_ENCODABLE: i64 = 13;

/// The numbers of `SameKeys` and `NotKept`.
const SAME_KEYS: i64 = 14;
const NOT_KEPT: i64 = 15;

/// The numbers of `NoPart` and `NoType`.
const NO_PART: i64 = 16;
const NO_TYPE: i64 = 17;

/// The number of `NotRecognized`.
const NOT_RECOGNIZED: i64 = 18;

/// The number of `WrongNames`.
const WRONG_NAMES: i64 = 19;

/// The number of `TooMuchWork`. Those before it are errors of CDDL, which [`CddlError`](crate::CddlError) has.
const TOO_MUCH_WORK: i64 = 22;

impl Error {
    /// The error for a negative result of the library.
    pub(crate) fn of(answer: i64) -> Error {
        match -answer {
            NOT_ENCODABLE => Error::NotEncodable,
            SAME_KEYS => Error::SameKeys,
            NOT_KEPT => Error::NotKept,
            NO_PART => Error::NoPart,
            NO_TYPE => Error::NoType,
            NOT_RECOGNIZED => Error::NotRecognized,
            WRONG_NAMES => Error::WrongNames,
            TOO_MUCH_WORK => Error::TooMuchWork,
            number => usize::try_from(number - 1)
                .ok()
                .and_then(|index| ERRORS.get(index).copied())
                .unwrap_or_else(|| unreachable!("the library answered {answer}")),
        }
    }

    /// Finds the position of this error in the input of a failed conversion: how many bytes of the input come before
    /// it.
    ///
    /// In bytes the error position is the malformed byte; the last byte of a text that is not UTF-8; the end of
    /// truncated bytes; or the first byte after the item. In hex it is the first digit of that byte, or the digit that
    /// is wrong, which is the last of an odd number. In notation and EDN it is the first byte with which the text
    /// cannot go on, or the end of a text that is only truncated. In hex, notation or EDN that is not UTF-8 it is the
    /// first byte that is not.
    ///
    /// Returns `None` if the input does not have this error, and out of memory.
    ///
    /// ```rust
    /// use semphluk::{convert, Form};
    ///
    /// let hex = b"82 01 # one\n1f # what?";
    /// let error = convert(Form::Hex, Form::Diag, hex).unwrap_err();
    /// assert_eq!(error.place(Form::Hex, hex), Some(12));
    /// ```
    pub fn place(self, from: Form, input: &[u8]) -> Option<usize> {
        let mut place = 0;
        // SAFETY: the pointers are those of the slice, with its length, and of the variable.
        let answer = unsafe {
            library::cbor_diag_fault(from.number(), input.as_ptr(), input.len(), &mut place)
        };
        let found = answer == -i64::from(self.number()) && place != usize::MAX;
        found.then_some(place)
    }

    /// Returns the path to the truncated or malformed item in the input of a failed conversion: steps joined by `/`, as
    /// `cborcat -p` reads them. `/` is the outermost item.
    ///
    /// Returns `None` if the input does not have this error; in notation, EDN and hex whose digits are wrong; if more
    /// bytes follow an item; and out of memory.
    ///
    /// ```rust
    /// use semphluk::{bytes_to_edn, Form};
    ///
    /// let bytes = b"\xa1\x61k\x82\x01\x1f";
    /// let error = bytes_to_edn(bytes).unwrap_err();
    /// assert_eq!(error.path(Form::Bytes, bytes).as_deref(), Some("k/1"));
    /// ```
    pub fn path(self, from: Form, input: &[u8]) -> Option<String> {
        self.words(library::cbor_diag_fault_path, from, input)
    }

    /// The text of a call of the library about the input, if the input has this error.
    fn words(self, call: Call, from: Form, input: &[u8]) -> Option<String> {
        self.place(from, input)?;
        let mut text = vec![0; 256];
        loop {
            // SAFETY: the pointers are those of the slices, with their lengths.
            let answer = unsafe {
                call(
                    from.number(),
                    input.as_ptr(),
                    input.len(),
                    text.as_mut_ptr(),
                    text.len(),
                )
            };
            let length = usize::try_from(answer).ok().filter(|length| *length > 0)?;
            let fits = length <= text.len();
            text.resize(length, 0);
            if fits {
                return String::from_utf8(text).ok();
            }
        }
    }

    /// Returns in words why a conversion of the input failed with this error. For bytes and hex the words say what is
    /// wrong and where in the item, and for EDN what has to be at the error position. For notation, out of memory, and
    /// if the input does not have this error, they are the text of the error.
    ///
    /// ```rust
    /// use semphluk::{edn_to_bytes, Form};
    ///
    /// let edn = "{\"a\" 1}";
    /// let error = edn_to_bytes(edn).unwrap_err();
    /// assert_eq!(error.place(Form::Edn, edn.as_bytes()), Some(5));
    /// assert_eq!(error.explain(Form::Edn, edn.as_bytes()), "a colon has to follow the key");
    /// ```
    pub fn explain(self, from: Form, input: &[u8]) -> String {
        self.words(library::cbor_diag_fault_message, from, input)
            .unwrap_or_else(|| self.to_string())
    }

    /// Returns the number of the error: from 1 for `Memory` to 10 for `PastWidth`, in the order of the variants, and
    /// from 13 for `NotEncodable` to 19 for `WrongNames`; 22 for `TooMuchWork`.
    pub fn number(self) -> u32 {
        match self {
            Error::NotEncodable => NOT_ENCODABLE as u32,
            Error::SameKeys => SAME_KEYS as u32,
            Error::NotKept => NOT_KEPT as u32,
            Error::NoPart => NO_PART as u32,
            Error::NoType => NO_TYPE as u32,
            Error::NotRecognized => NOT_RECOGNIZED as u32,
            Error::WrongNames => WRONG_NAMES as u32,
            Error::TooMuchWork => TOO_MUCH_WORK as u32,
            other => other as u32 + 1,
        }
    }
}

impl fmt::Display for Error {
    fn fmt(&self, f: &mut fmt::Formatter<'_>) -> fmt::Result {
        let mut text = [0; 64];
        // SAFETY: the pointer and the length are those of the array.
        let length =
            unsafe { library::cbor_diag_error_text(self.number(), text.as_mut_ptr(), text.len()) };
        let written = &text[..length as usize];
        f.pad(std::str::from_utf8(written).expect("the text is ASCII"))
    }
}

impl std::error::Error for Error {}

#[cfg(test)]
mod tests {
    use super::{Error, ERRORS};

    #[test]
    fn each_error_has_its_number() {
        for (index, error) in ERRORS.into_iter().enumerate() {
            assert_eq!(error.number() as usize, index + 1, "{error:?}");
            assert_eq!(Error::of(-1 - index as i64), error);
        }
        for (number, error) in [
            (13, Error::NotEncodable),
            (14, Error::SameKeys),
            (15, Error::NotKept),
            (16, Error::NoPart),
            (17, Error::NoType),
            (18, Error::NotRecognized),
            (19, Error::WrongNames),
            (22, Error::TooMuchWork),
        ] {
            assert_eq!(error.number(), number);
            assert_eq!(Error::of(-i64::from(number)), error);
        }
    }
}
