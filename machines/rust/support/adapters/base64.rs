//! Stands in for `base64`: both alphabets of RFC 4648, with padding or without. Bits that are left
//! over have to be zero.

use crate::rattle::alloc::AllocError;

/// A text is no base 64.
#[derive(Clone, Copy, PartialEq, Eq, Debug)]
pub struct DecodeError;

/// Why a text gives no bytes.
#[derive(Clone, Copy, PartialEq, Eq, Debug)]
pub enum DecodeAllocError {
    /// Memory ran out.
    OutOfMemory,
    /// It is no base 64.
    DecodeError(DecodeError),
}

impl From<AllocError> for DecodeAllocError {
    fn from(_: AllocError) -> DecodeAllocError {
        DecodeAllocError::OutOfMemory
    }
}

/// What encodes and decodes.
pub mod engine {
    /// The engines.
    pub mod general_purpose {
        use super::super::{DecodeAllocError, DecodeError};
        use crate::rattle::alloc::{AllocError, Global};
        use crate::rattle::{String, Vec};

        /// An alphabet, with padding or without.
        #[derive(Debug)]
        pub struct GeneralPurpose {
            alphabet: &'static [u8; 64],
            is_padded: bool,
        }

        const PLAIN: &[u8; 64] =
            b"ABCDEFGHIJKLMNOPQRSTUVWXYZabcdefghijklmnopqrstuvwxyz0123456789+/";
        const FOR_URLS: &[u8; 64] =
            b"ABCDEFGHIJKLMNOPQRSTUVWXYZabcdefghijklmnopqrstuvwxyz0123456789-_";

        /// The standard alphabet.
        pub const STANDARD: GeneralPurpose = GeneralPurpose {
            alphabet: PLAIN,
            is_padded: true,
        };
        /// The standard alphabet, without padding.
        pub const STANDARD_NO_PAD: GeneralPurpose = GeneralPurpose {
            alphabet: PLAIN,
            is_padded: false,
        };
        /// The alphabet for URLs, without padding.
        pub const URL_SAFE_NO_PAD: GeneralPurpose = GeneralPurpose {
            alphabet: FOR_URLS,
            is_padded: false,
        };

        impl GeneralPurpose {
            /// Appends bytes in base 64.
            pub fn encode_string(&self, bytes: &[u8], out: &mut String) -> Result<(), AllocError> {
                for part in bytes.chunks(3) {
                    let byte_at = |index| u32::from(part.get(index).copied().unwrap_or(0));
                    let bits = byte_at(0) << 16 | byte_at(1) << 8 | byte_at(2);
                    for index in 0..4 {
                        let digit = bits >> (18 - 6 * index) & 63;
                        if index <= part.len() {
                            out.push(char::from(self.alphabet[digit as usize]))?;
                        } else if self.is_padded {
                            out.push('=')?;
                        }
                    }
                }
                Ok(())
            }

            /// Bytes in base 64.
            pub fn encode(&self, alloc: Global, bytes: &[u8]) -> Result<String, AllocError> {
                let mut out = String::new(alloc);
                self.encode_string(bytes, &mut out)?;
                Ok(out)
            }

            /// The bytes of base 64.
            pub fn decode(&self, alloc: Global, text: &[u8]) -> Result<Vec<u8>, DecodeAllocError> {
                const WRONG: DecodeAllocError = DecodeAllocError::DecodeError(DecodeError);
                let digits = self.without_padding(text).ok_or(WRONG)?;
                let (mut out, mut bits, mut count) = (Vec::new(alloc), 0u32, 0);
                for byte in digits {
                    let digit = self
                        .alphabet
                        .iter()
                        .position(|it| it == byte)
                        .ok_or(WRONG)?;
                    bits = bits << 6 | digit as u32;
                    count += 6;
                    if count >= 8 {
                        count -= 8;
                        out.push((bits >> count) as u8)?;
                        bits &= (1 << count) - 1;
                    }
                }
                if bits == 0 { Ok(out) } else { Err(WRONG) }
            }

            /// The digits of a text, if it has as much padding as it has to.
            fn without_padding<'a>(&self, text: &'a [u8]) -> Option<&'a [u8]> {
                let mut digits = text;
                if self.is_padded {
                    if !text.len().is_multiple_of(4) {
                        return None;
                    }
                    digits = digits.strip_suffix(b"=").unwrap_or(digits);
                    digits = digits.strip_suffix(b"=").unwrap_or(digits);
                }
                if digits.len() % 4 == 1 {
                    None
                } else {
                    Some(digits)
                }
            }
        }
    }
}
