//! The form that an input has.

use crate::{library, Error, Result};

/// The form that [`recognize`] finds.
#[derive(Clone, Copy, PartialEq, Eq, Hash, Debug)]
pub enum Input {
    /// The bytes of items, one after the other.
    Bytes,
    /// These bytes in hex, as people paste it.
    Hex,
    /// Items in EDN, none or more.
    Edn,
    /// The bytes in base 64, in either alphabet.
    Base64,
}

impl Input {
    /// The form with this number.
    fn of(number: u32) -> Input {
        match number {
            0 => Input::Bytes,
            1 => Input::Hex,
            2 => Input::Edn,
            3 => Input::Base64,
            _ => unreachable!("the library has no form {number}"),
        }
    }
}

/// Returns the form that an input has, and the bytes that it stands for, as `cborcat` finds them: hex as people paste
/// it, EDN, base 64, or bytes. Unless it is hex, these are items, none or more, one after the other. No text is taken
/// for bytes.
///
/// The error is [`Error::NotRecognized`] or [`Error::Memory`].
///
/// ```rust
/// use semphluk::{recognize, Input};
///
/// let found = recognize(b"0x82 01 02  # pasted").unwrap();
/// assert_eq!(found, (Input::Hex, b"\x82\x01\x02".to_vec()));
/// ```
pub fn recognize(input: &[u8]) -> Result<(Input, Vec<u8>)> {
    let mut form = 0;
    let mut output = vec![0; input.len()];
    loop {
        // SAFETY: the pointers are those of the slice and of the vector, with their lengths, and of the variable.
        let answer = unsafe {
            library::cbor_diag_recognize(
                input.as_ptr(),
                input.len(),
                &mut form,
                output.as_mut_ptr(),
                output.len(),
            )
        };
        let length = usize::try_from(answer).map_err(|_| Error::of(answer))?;
        let fits = length <= output.len();
        output.resize(length, 0);
        if fits {
            return Ok((Input::of(form), output));
        }
    }
}
