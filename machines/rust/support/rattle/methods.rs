use super::alloc::{AllocError, Global};
use super::rt::HostRuntime;
use super::{String, Vec};
use std::fmt::Display;
use std::net::{AddrParseError, Ipv4Addr, Ipv6Addr};

/// `collect`, which can run out of memory.
pub trait CollectWith: Iterator + Sized {
    /// The items that are left, as a list.
    fn collect_with(self, alloc: Global) -> Result<Vec<Self::Item>, AllocError> {
        let mut list = Vec::with_capacity(alloc, self.size_hint().0)?;
        for item in self {
            list.push(item)?;
        }
        Ok(list)
    }
}

impl<I: Iterator> CollectWith for I {}

/// `to_string`, which can run out of memory.
pub trait ToStringWith: Display {
    /// The value as a text.
    fn to_string_with(&self, alloc: Global) -> Result<String, AllocError> {
        String::formatted(alloc, format_args!("{self}"))
    }
}

impl<T: Display + ?Sized> ToStringWith for T {}

/// `to_vec`, which can run out of memory.
pub trait ToVecWith<T> {
    /// The items as a list.
    fn to_vec_with(&self, alloc: Global) -> Result<Vec<T>, AllocError>;
}

impl<T: Clone> ToVecWith<T> for [T] {
    fn to_vec_with(&self, alloc: Global) -> Result<Vec<T>, AllocError> {
        Vec::from_slice(alloc, self)
    }
}

/// `replace`, which can run out of memory.
pub trait ReplaceWith {
    /// The text with each match of `from` replaced by `to`.
    fn replace_with(&self, alloc: Global, from: &str, to: &str) -> Result<String, AllocError>;
}

impl ReplaceWith for str {
    fn replace_with(&self, alloc: Global, from: &str, to: &str) -> Result<String, AllocError> {
        let mut out = String::new(alloc);
        for (index, part) in self.split(from).enumerate() {
            if index > 0 {
                out.push_str(to)?;
            }
            out.push_str(part)?;
        }
        Ok(out)
    }
}

/// `repeat`, which can run out of memory.
pub trait RepeatWith {
    /// The text as many times.
    fn repeat_with(&self, alloc: Global, count: usize) -> Result<String, AllocError>;
}

impl RepeatWith for str {
    fn repeat_with(&self, alloc: Global, count: usize) -> Result<String, AllocError> {
        let len = self.len().checked_mul(count).ok_or(AllocError)?;
        let mut out = String::with_capacity(alloc, len)?;
        for _ in 0..count {
            out.push_str(self)?;
        }
        Ok(out)
    }
}

/// `parse_ascii`, which is not stable in Rust.
pub trait ParseAsciiWith: Sized {
    /// The address that a text is.
    fn parse_ascii_with(text: &[u8]) -> Result<Self, AddrParseError>;
}

impl ParseAsciiWith for Ipv4Addr {
    fn parse_ascii_with(text: &[u8]) -> Result<Ipv4Addr, AddrParseError> {
        str::from_utf8(text).unwrap_or("").parse()
    }
}

impl ParseAsciiWith for Ipv6Addr {
    fn parse_ascii_with(text: &[u8]) -> Result<Ipv6Addr, AddrParseError> {
        str::from_utf8(text).unwrap_or("").parse()
    }
}

/// `expect`, which takes the handle that may stop the process.
pub trait ExpectWith<T> {
    /// The value. Panics if there is none.
    fn expect_with(self, rt: &HostRuntime, message: &str) -> T;
}

impl<T> ExpectWith<T> for Option<T> {
    fn expect_with(self, _rt: &HostRuntime, message: &str) -> T {
        self.expect(message)
    }
}
