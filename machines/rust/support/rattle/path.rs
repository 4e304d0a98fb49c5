//! Paths, which are UTF-8.

use super::String;
use super::alloc::{AllocError, Global};
use std::path::Path;

/// A path of its own.
#[derive(PartialEq, Eq, Debug)]
pub struct PathBuf(String);

impl PathBuf {
    /// The path that a text is.
    pub fn from_str(alloc: Global, text: &str) -> Result<PathBuf, AllocError> {
        Ok(PathBuf(String::from_str(alloc, text)?))
    }

    /// The path as a text.
    pub fn as_str(&self) -> &str {
        &self.0
    }

    /// The folder that the path is in.
    pub fn parent(&self) -> Option<PathBuf> {
        let parent = Path::new(self.as_str()).parent()?.to_str()?;
        PathBuf::from_str(Global, parent).ok()
    }

    /// A path behind this one.
    pub fn join(&self, alloc: Global, path: &str) -> Result<PathBuf, AllocError> {
        let joined = Path::new(self.as_str()).join(path);
        PathBuf::from_str(alloc, joined.to_str().unwrap_or(""))
    }
}
