//! `regex`, with an allocator. A matcher owns what a match needs in the kit's crate; here it
//! borrows.

use crate::rattle::alloc::{AllocError, Global};

/// Why a text is no regular expression.
#[derive(Clone, Copy, PartialEq, Eq, Debug)]
pub enum Error {
    /// It has another syntax, or is too large.
    Syntax,
    /// Memory ran out. Upstream's crate aborts then.
    OutOfMemory,
}

/// A regular expression.
#[derive(Clone, Debug)]
pub struct Regex(::regex::Regex);

impl Regex {
    /// Reads a regular expression.
    pub fn new(_alloc: Global, pattern: &str) -> Result<Regex, Error> {
        ::regex::Regex::new(pattern)
            .map(Regex)
            .map_err(|_| Error::Syntax)
    }

    /// What matches texts.
    pub fn matcher(&self, _alloc: Global) -> Result<Matcher<'_>, AllocError> {
        Ok(Matcher(&self.0))
    }
}

/// What matches texts.
#[derive(Debug)]
pub struct Matcher<'a>(&'a ::regex::Regex);

impl Matcher<'_> {
    /// Whether a part of a text matches.
    pub fn is_match(&mut self, text: &str) -> bool {
        self.0.is_match(text)
    }
}

#[cfg(test)]
mod tests {
    use super::Regex;
    use crate::rattle::alloc::Global;

    #[test]
    fn an_empty_text_matches_only_if_it_may() {
        for (pattern, matches) in [("a", false), ("a*", true), ("^$", true)] {
            let regex = Regex::new(Global, pattern).ok();
            let matcher = regex.as_ref().and_then(|it| it.matcher(Global).ok());
            assert_eq!(matcher.map(|mut it| it.is_match("")), Some(matches));
        }
    }
}
