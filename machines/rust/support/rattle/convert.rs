//! What can be read as a text.

/// May be read as a text.
pub trait AsStr {
    /// The text.
    fn as_str(&self) -> &str;
}

impl AsStr for &str {
    fn as_str(&self) -> &str {
        self
    }
}

impl AsStr for super::String {
    fn as_str(&self) -> &str {
        self
    }
}
