//! Files, through the handle of the runtime. Names of files are UTF-8.

use super::String;
use super::alloc::Global;
use super::path::PathBuf;
use super::rt::HostRuntime;
use std::io::{ErrorKind, Read, Result, Write};

pub use std::fs::{Metadata, Permissions};

/// An open file.
#[derive(Debug)]
pub struct File(std::fs::File);

impl File {
    /// Opens a file for reading.
    pub fn open(_rt: &HostRuntime, name: &str) -> Result<File> {
        std::fs::File::open(name).map(File)
    }

    /// Creates a file for writing, if it is not there.
    pub fn create_new(_rt: &HostRuntime, name: &str) -> Result<File> {
        std::fs::File::create_new(name).map(File)
    }

    /// Gives the file permissions.
    pub fn set_permissions(&self, permissions: Permissions) -> Result<()> {
        self.0.set_permissions(permissions)
    }

    /// Writes the file to its disk.
    pub fn sync_all(&self) -> Result<()> {
        self.0.sync_all()
    }
}

impl Read for File {
    fn read(&mut self, bytes: &mut [u8]) -> Result<usize> {
        self.0.read(bytes)
    }
}

impl Write for File {
    fn write(&mut self, bytes: &[u8]) -> Result<usize> {
        self.0.write(bytes)
    }

    fn flush(&mut self) -> Result<()> {
        self.0.flush()
    }
}

/// How a file is opened.
#[derive(Clone, Debug)]
pub struct OpenOptions(std::fs::OpenOptions);

impl OpenOptions {
    /// For nothing yet.
    #[allow(clippy::new_without_default)] // As in std of Rattle.
    pub fn new() -> OpenOptions {
        OpenOptions(std::fs::OpenOptions::new())
    }

    /// Whether it is opened for writing.
    pub fn write(&mut self, write: bool) -> &mut OpenOptions {
        self.0.write(write);
        self
    }

    /// Opens a file.
    pub fn open(&self, _rt: &HostRuntime, name: &str) -> Result<File> {
        self.0.open(name).map(File)
    }
}

/// What is known of a file, or of the file that a link leads to.
pub fn metadata(_rt: &HostRuntime, name: &str) -> Result<Metadata> {
    std::fs::metadata(name)
}

/// What is known of a file or a link.
pub fn symlink_metadata(_rt: &HostRuntime, name: &str) -> Result<Metadata> {
    std::fs::symlink_metadata(name)
}

/// Where a link leads.
pub fn read_link(_rt: &HostRuntime, name: &str) -> Result<PathBuf> {
    let path = std::fs::read_link(name)?;
    let text = path.to_str().ok_or(ErrorKind::InvalidData)?;
    Ok(PathBuf::from_str(Global, text)?)
}

/// Removes a file.
pub fn remove_file(_rt: &HostRuntime, name: &str) -> Result<()> {
    std::fs::remove_file(name)
}

/// Gives a file another name.
pub fn rename(_rt: &HostRuntime, from: &str, to: &str) -> Result<()> {
    std::fs::rename(from, to)
}

/// The text of a file.
pub fn read_to_string(_rt: &HostRuntime, name: &str) -> Result<String> {
    std::fs::read_to_string(name).map(String::from)
}
