//! `hex`, with an allocator.

use crate::rattle::alloc::{AllocError, Global};
use crate::rattle::{String, Vec};

/// Why a text is no hex.
#[derive(Clone, Copy, PartialEq, Eq, Debug)]
pub enum FromHexError {
    /// It has another character, or half a byte.
    NotHex,
    /// Memory ran out.
    OutOfMemory,
}

/// Writes the digits of bytes to a slice of twice their length.
pub fn encode_to_slice<T: AsRef<[u8]>>(data: T, out: &mut [u8]) -> Result<(), FromHexError> {
    ::hex::encode_to_slice(data, out).map_err(|_| FromHexError::NotHex)
}

/// The digits of bytes.
pub fn encode<T: AsRef<[u8]>>(alloc: Global, data: T) -> Result<String, AllocError> {
    let data = data.as_ref();
    let mut digits = Vec::new(alloc);
    digits.resize(data.len().checked_mul(2).ok_or(AllocError)?, 0)?;
    ::hex::encode_to_slice(data, &mut digits).map_err(|_| AllocError)?;
    String::from_utf8(digits).map_err(|_| AllocError)
}

/// The digits of bytes, with A to F.
pub fn encode_upper<T: AsRef<[u8]>>(alloc: Global, data: T) -> Result<String, AllocError> {
    let mut digits = encode(alloc, data)?.into_bytes();
    digits.make_ascii_uppercase();
    String::from_utf8(digits).map_err(|_| AllocError)
}

/// The bytes of digits.
pub fn decode<T: AsRef<[u8]>>(alloc: Global, digits: T) -> Result<Vec<u8>, FromHexError> {
    let digits = digits.as_ref();
    let mut bytes = Vec::new(alloc);
    bytes
        .resize(digits.len() / 2, 0)
        .map_err(|_| FromHexError::OutOfMemory)?;
    ::hex::decode_to_slice(digits, &mut bytes).map_err(|_| FromHexError::NotHex)?;
    Ok(bytes)
}
