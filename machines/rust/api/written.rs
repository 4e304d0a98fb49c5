//! What a call of the library for C writes: it returns the length of all of it, and writes as much as fits.

use crate::error::ErrorKind;

/// What a call writes, or its negative answer.
pub(crate) fn answer_of(likely: usize, call: impl Fn(&mut [u8]) -> i64) -> Result<Vec<u8>, i64> {
    let mut output = Vec::new();
    let mut room = likely;
    loop {
        output.try_reserve_exact(room).map_err(|_| -1)?;
        output.resize(room, 0);
        let answer = call(&mut output);
        let length = usize::try_from(answer).map_err(|_| answer)?;
        if length <= output.len() {
            output.truncate(length);
            return Ok(output);
        }
        room = length;
        output.clear();
    }
}

/// What a call writes.
pub(crate) fn bytes_of(call: impl Fn(&mut [u8]) -> i64) -> Result<Vec<u8>, ErrorKind> {
    answer_of(1024, call).map_err(ErrorKind::of)
}

/// What a call writes, as text.
pub(crate) fn text_of(call: impl Fn(&mut [u8]) -> i64) -> Result<String, ErrorKind> {
    bytes_of(call).map(text)
}

/// Bytes that a call wrote, as text.
pub(crate) fn text(bytes: Vec<u8>) -> String {
    String::from_utf8(bytes).expect("what is written is UTF-8")
}

/// Text without the line feed at its end.
pub(crate) fn line(bytes: Vec<u8>) -> String {
    let mut text = text(bytes);
    text.pop();
    text
}
