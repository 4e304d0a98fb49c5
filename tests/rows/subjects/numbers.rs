//! Reads the numbers in rows.

/// The number that a word is; the greatest if it is none.
pub fn number_of(word: &str) -> usize {
    word.parse::<usize>().unwrap_or(usize::MAX)
}
