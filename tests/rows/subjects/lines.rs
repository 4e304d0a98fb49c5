//! Appends a line to a result of several lines (`push_line`), and puts a word in place of a result
//! without lines (`lines_or`).

use std::alloc::AllocError;

/// Appends a line to a text, with a line feed before it if it is not the first.
pub fn push_line(text: &mut String, line: &str) -> Result<(), AllocError> {
    if !text.is_empty() {
        text.push_str("\n")?;
    }
    text.push_str(line)
}

/// The lines of a text, or this word if there are none.
pub fn lines_or(text: String, word: &str) -> Result<String, AllocError> {
    let mut text = text;
    if text.is_empty() {
        text.push_str(word)?;
    }
    Ok(text)
}
