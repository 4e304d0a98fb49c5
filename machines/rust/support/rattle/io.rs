//! The standard streams, without a buffer.
//!
//! Rust's own handles take a closed stream for one that works. So these write and read the streams
//! as files, and `closed` says which were closed when the process began.

pub use super::rt::Print;
use std::fs::File;
use std::io::{Error, ErrorKind, Read, Result, Write};
use std::sync::OnceLock;

/// Standard input.
#[derive(Clone, Copy, Debug)]
pub struct Stdin;

/// Standard output.
#[derive(Clone, Copy, Debug)]
pub struct Stdout;

/// Standard error.
#[derive(Clone, Copy, Debug)]
pub struct Stderr;

static STREAMS: [OnceLock<Option<File>>; 3] = [const { OnceLock::new() }; 3];

/// The file of a stream, by its number.
fn stream(number: usize) -> Result<&'static File> {
    STREAMS[number]
        .get_or_init(|| opened(number).ok())
        .as_ref()
        .ok_or_else(|| Error::from(ErrorKind::NotFound))
}

/// A second handle of a stream. It fails if the stream was closed.
#[cfg(unix)]
fn opened(number: usize) -> Result<File> {
    use std::os::fd::AsFd;
    #[cfg(target_os = "linux")]
    if super::closed::is_closed(number) {
        return Err(Error::from(ErrorKind::NotFound));
    }
    let descriptor = match number {
        0 => std::io::stdin().as_fd().try_clone_to_owned(),
        1 => std::io::stdout().as_fd().try_clone_to_owned(),
        _ => std::io::stderr().as_fd().try_clone_to_owned(),
    };
    descriptor.map(File::from)
}

/// A second handle of a stream.
#[cfg(windows)]
fn opened(number: usize) -> Result<File> {
    use std::os::windows::io::AsHandle;
    let handle = match number {
        0 => std::io::stdin().as_handle().try_clone_to_owned(),
        1 => std::io::stdout().as_handle().try_clone_to_owned(),
        _ => std::io::stderr().as_handle().try_clone_to_owned(),
    };
    handle.map(File::from)
}

/// May be a terminal.
pub trait IsTerminal {
    /// Whether it is one.
    fn is_terminal(&self) -> bool;
}

impl IsTerminal for Stdin {
    fn is_terminal(&self) -> bool {
        std::io::IsTerminal::is_terminal(&std::io::stdin())
    }
}

impl IsTerminal for Stdout {
    fn is_terminal(&self) -> bool {
        std::io::IsTerminal::is_terminal(&std::io::stdout())
    }
}

impl IsTerminal for Stderr {
    fn is_terminal(&self) -> bool {
        std::io::IsTerminal::is_terminal(&std::io::stderr())
    }
}

impl Read for Stdin {
    fn read(&mut self, bytes: &mut [u8]) -> Result<usize> {
        stream(0)?.read(bytes)
    }
}

impl Write for Stdout {
    fn write(&mut self, bytes: &[u8]) -> Result<usize> {
        stream(1)?.write(bytes)
    }

    fn flush(&mut self) -> Result<()> {
        Ok(())
    }
}

impl Write for Stderr {
    fn write(&mut self, bytes: &[u8]) -> Result<usize> {
        stream(2)?.write(bytes)
    }

    fn flush(&mut self) -> Result<()> {
        Ok(())
    }
}
