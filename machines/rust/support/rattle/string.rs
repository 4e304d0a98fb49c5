use super::Vec;
use super::alloc::{AllocError, Global};
use std::borrow::Borrow;
use std::fmt;
use std::ops::Deref;
use std::string::FromUtf8Error;

/// A text whose growth can fail.
#[derive(Clone, PartialEq, Eq, PartialOrd, Ord, Hash)]
pub struct String(std::string::String);

impl String {
    /// An empty text.
    pub const fn new(_alloc: Global) -> String {
        String(std::string::String::new())
    }

    /// An empty text with room for as many bytes.
    pub fn with_capacity(alloc: Global, len: usize) -> Result<String, AllocError> {
        let mut text = String::new(alloc);
        text.0.try_reserve_exact(len)?;
        Ok(text)
    }

    /// A copy of a text.
    pub fn from_str(alloc: Global, text: &str) -> Result<String, AllocError> {
        let mut copy = String::with_capacity(alloc, text.len())?;
        copy.0.push_str(text);
        Ok(copy)
    }

    /// What `format!` calls.
    #[doc(hidden)]
    pub fn formatted(alloc: Global, text: fmt::Arguments<'_>) -> Result<String, AllocError> {
        let mut out = String::new(alloc);
        out.write_fmt(text)?;
        Ok(out)
    }

    /// The text that bytes are.
    pub fn from_utf8(bytes: Vec<u8>) -> Result<String, FromUtf8Error> {
        std::string::String::from_utf8(bytes.into()).map(String)
    }

    /// Appends a character.
    #[inline]
    pub fn push(&mut self, character: char) -> Result<(), AllocError> {
        self.0.try_reserve(character.len_utf8())?;
        self.0.push(character);
        Ok(())
    }

    /// Appends a text.
    #[inline]
    pub fn push_str(&mut self, text: &str) -> Result<(), AllocError> {
        self.0.try_reserve(text.len())?;
        self.0.push_str(text);
        Ok(())
    }

    /// What `write!` calls. An error of an argument counts as memory that ran out.
    pub fn write_fmt(&mut self, text: fmt::Arguments<'_>) -> Result<(), AllocError> {
        fmt::Write::write_fmt(self, text).map_err(|_| AllocError)
    }

    /// Makes room for as many more bytes.
    pub fn reserve(&mut self, len: usize) -> Result<(), AllocError> {
        Ok(self.0.try_reserve(len)?)
    }

    /// Cuts the text to a length, which is the end of a character.
    pub fn truncate(&mut self, len: usize) {
        self.0.truncate(len);
    }

    /// Removes all characters.
    pub fn clear(&mut self) {
        self.0.clear();
    }

    /// Removes the last character.
    pub fn pop(&mut self) -> Option<char> {
        self.0.pop()
    }

    /// The text.
    pub fn as_str(&self) -> &str {
        &self.0
    }

    /// The bytes of the text.
    pub fn into_bytes(self) -> Vec<u8> {
        self.0.into_bytes().into()
    }

    /// The allocator.
    pub fn allocator(&self) -> &Global {
        &Global
    }

    /// A copy.
    #[allow(clippy::should_implement_trait)] // In Rattle it can fail; derives use the trait.
    pub fn clone(&self) -> Result<String, AllocError> {
        String::from_str(Global, &self.0)
    }
}

impl From<std::string::String> for String {
    fn from(text: std::string::String) -> String {
        String(text)
    }
}

impl Deref for String {
    type Target = str;

    #[inline]
    fn deref(&self) -> &str {
        &self.0
    }
}

impl Borrow<str> for String {
    fn borrow(&self) -> &str {
        &self.0
    }
}

impl AsRef<str> for String {
    fn as_ref(&self) -> &str {
        &self.0
    }
}

impl fmt::Write for String {
    fn write_str(&mut self, text: &str) -> fmt::Result {
        Ok(self.push_str(text)?)
    }
}

impl fmt::Display for String {
    fn fmt(&self, f: &mut fmt::Formatter<'_>) -> fmt::Result {
        fmt::Display::fmt(&self.0, f)
    }
}

impl fmt::Debug for String {
    fn fmt(&self, f: &mut fmt::Formatter<'_>) -> fmt::Result {
        fmt::Debug::fmt(&self.0, f)
    }
}
