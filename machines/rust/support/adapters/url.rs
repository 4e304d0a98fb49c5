//! `url`, which the sources ask only whether a text is a URL.

use crate::rattle::alloc::Global;

/// Why a text is no URL.
#[derive(Clone, Copy, PartialEq, Eq, Debug)]
pub enum ParseError {
    /// It breaks the URL Standard.
    Invalid,
    /// It is too long. Upstream's crate never says so.
    Overflow,
    /// Memory ran out. Upstream's crate aborts then.
    OutOfMemory,
}

/// That a text is a URL.
#[derive(Clone, Copy, PartialEq, Eq, Debug)]
pub struct Url(());

impl Url {
    /// Reads a text.
    pub fn parse(_alloc: Global, text: &str) -> Result<Url, ParseError> {
        match ::url::Url::parse(text) {
            Ok(_) => Ok(Url(())),
            Err(_) => Err(ParseError::Invalid),
        }
    }
}
