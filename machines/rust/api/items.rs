//! Items one after the other, in a slice or from a reader (RFC 8742).

use crate::cbor_bytes::{Extent as Found, extent as find, skip::Scanner as Scanning};
use crate::error::{Error, ErrorKind, Result};
use crate::form::Form;
use std::fmt;
use std::io::{self, Read};

/// How bytes begin.
#[derive(Clone, Copy, PartialEq, Eq, Hash, Debug)]
pub enum Extent {
    /// The length of the item that comes first. More bytes may follow it.
    Item(usize),
    /// The bytes end before the item does. More bytes may complete it.
    Truncated,
    /// No item begins with these bytes, whatever follows them.
    Fault {
        /// The error.
        kind: ErrorKind,
        /// The first `end` bytes show it; fewer bytes are only truncated.
        end: usize,
    },
}

impl From<Found> for Extent {
    fn from(found: Found) -> Extent {
        match found {
            Found::Item(length) => Extent::Item(length),
            Found::Cut => Extent::Truncated,
            Found::Fault { error, end } => Extent::Fault { kind: ErrorKind::of(-i64::from(error.number())), end },
        }
    }
}

/// Reports how bytes begin, without memory.
///
/// ```
/// use semphluk::{Extent, extent};
///
/// assert_eq!(extent(b"\x82\x02\x03\x01"), Extent::Item(3));
/// assert_eq!(extent(b"\x82\x02"), Extent::Truncated);
/// ```
pub fn extent(bytes: &[u8]) -> Extent {
    find(bytes).into()
}

/// Reports how bytes begin that come in pieces, as [`extent`] does for all bytes at once. The time of
/// [`feed`](Scanner::feed) grows with the new bytes alone. A scanner allocates nothing.
///
/// ```
/// use semphluk::{Extent, Scanner};
///
/// let mut scanner = Scanner::new();
/// assert_eq!(scanner.feed(b"\x82\x19\x03"), Extent::Truncated);
/// assert_eq!(scanner.feed(b"\xe8\x02\xff"), Extent::Item(5));
/// ```
pub struct Scanner(Scanning);

impl Scanner {
    /// Returns a scanner that was fed no bytes.
    pub fn new() -> Scanner {
        Scanner(Scanning::new())
    }

    /// Feeds the next bytes, and reports how all bytes that were fed begin. Once there is an item or an error, it
    /// stays, whatever is fed.
    pub fn feed(&mut self, bytes: &[u8]) -> Extent {
        self.0.feed(bytes).into()
    }
}

impl Default for Scanner {
    fn default() -> Scanner {
        Scanner::new()
    }
}

impl fmt::Debug for Scanner {
    fn fmt(&self, f: &mut fmt::Formatter<'_>) -> fmt::Result {
        f.debug_struct("Scanner").finish_non_exhaustive()
    }
}

/// The items of bytes, one after the other, each as its bytes. After an error there are no more.
///
/// ```
/// use semphluk::{edn, items};
///
/// let texts: Result<Vec<String>, _> = items(b"\x01\x82\x02\x03").map(|item| edn::to_edn(item?)).collect();
/// assert_eq!(texts?, ["1", "[2, 3]"]);
/// assert!(items(b"\x01\x1f").nth(1).unwrap().is_err());
/// # Ok::<(), semphluk::Error>(())
/// ```
pub fn items(bytes: &[u8]) -> Items<'_> {
    Items { bytes }
}

/// The iterator that [`items`] returns.
#[derive(Clone, Debug)]
pub struct Items<'a> {
    bytes: &'a [u8],
}

impl<'a> Iterator for Items<'a> {
    type Item = Result<&'a [u8]>;

    fn next(&mut self) -> Option<Self::Item> {
        if self.bytes.is_empty() {
            return None;
        }
        let bytes = std::mem::take(&mut self.bytes);
        match extent(bytes) {
            Extent::Item(length) => {
                let (item, rest) = bytes.split_at(length);
                self.bytes = rest;
                Some(Ok(item))
            }
            Extent::Truncated => Some(Err(Error::of_kind(ErrorKind::Truncated, Form::Bytes, bytes))),
            Extent::Fault { kind, .. } => Some(Err(Error::of_kind(kind, Form::Bytes, bytes))),
        }
    }
}

/// Why there is no next item from a reader.
#[derive(Debug)]
pub enum ReadError {
    /// The reader failed.
    Io(io::Error),
    /// The bytes are not an item. Offset and path are those in the item.
    Item(Error),
}

impl fmt::Display for ReadError {
    fn fmt(&self, f: &mut fmt::Formatter<'_>) -> fmt::Result {
        match self {
            ReadError::Io(error) => error.fmt(f),
            ReadError::Item(error) => error.fmt(f),
        }
    }
}

impl std::error::Error for ReadError {
    fn source(&self) -> Option<&(dyn std::error::Error + 'static)> {
        match self {
            ReadError::Io(error) => Some(error),
            ReadError::Item(error) => Some(error),
        }
    }
}

/// The items that a reader yields, each as its bytes and as soon as it is complete. After an error there are no more.
/// An item is held in memory until it is complete; `limit` bounds its length, so that no input can take more.
///
/// ```
/// use semphluk::{Reader, edn};
///
/// let mut reader = Reader::new(&b"\x01\x82\x02\x03"[..]);
/// assert_eq!(edn::to_edn(&reader.next().unwrap()?)?, "1");
/// assert_eq!(edn::to_edn(&reader.next().unwrap()?)?, "[2, 3]");
/// assert!(reader.next().is_none());
/// # Ok::<(), Box<dyn std::error::Error>>(())
/// ```
#[derive(Debug)]
pub struct Reader<R> {
    input: R,
    limit: usize,
    scanner: Scanner,
    held: Vec<u8>,
    is_done: bool,
}

/// How many bytes are read at once.
const BLOCK: usize = 8192;

impl<R: Read> Reader<R> {
    /// A reader of items without a limit.
    pub fn new(input: R) -> Reader<R> {
        Reader::with_limit(input, usize::MAX)
    }

    /// The same, where an item of more than `limit` bytes is an error, [`ErrorKind::Memory`].
    pub fn with_limit(input: R, limit: usize) -> Reader<R> {
        Reader { input, limit, scanner: Scanner::new(), held: Vec::new(), is_done: false }
    }

    /// Takes the item of this length from the front of the bytes that are held.
    fn take(&mut self, length: usize) -> Vec<u8> {
        let rest = self.held.split_off(length);
        self.scanner = Scanner::new();
        std::mem::replace(&mut self.held, rest)
    }

    /// Reads a block more. Returns how many bytes it has.
    fn read_more(&mut self) -> io::Result<usize> {
        let start = self.held.len();
        self.held.try_reserve(BLOCK).map_err(|_| io::Error::from(io::ErrorKind::OutOfMemory))?;
        self.held.resize(start + BLOCK, 0);
        let read = loop {
            match self.input.read(&mut self.held[start..]) {
                Err(error) if error.kind() == io::ErrorKind::Interrupted => {}
                other => break other,
            }
        };
        self.held.truncate(start + *read.as_ref().unwrap_or(&0));
        read
    }

    /// The next item, or `None` at the end of the input.
    fn next_item(&mut self) -> std::result::Result<Option<Vec<u8>>, ReadError> {
        let mut found = self.scanner.feed(&self.held);
        loop {
            match found {
                Extent::Item(length) => return Ok(Some(self.take(length))),
                Extent::Fault { kind, .. } => {
                    return Err(ReadError::Item(Error::of_kind(kind, Form::Bytes, &self.held)));
                }
                Extent::Truncated if self.held.len() > self.limit => {
                    return Err(ReadError::Item(ErrorKind::Memory.into()));
                }
                Extent::Truncated => {}
            }
            let start = self.held.len();
            match self.read_more().map_err(ReadError::Io)? {
                0 if self.held.is_empty() => return Ok(None),
                0 => return Err(ReadError::Item(Error::of_kind(ErrorKind::Truncated, Form::Bytes, &self.held))),
                _ => found = self.scanner.feed(&self.held[start..]),
            }
        }
    }
}

impl<R: Read> Iterator for Reader<R> {
    type Item = std::result::Result<Vec<u8>, ReadError>;

    fn next(&mut self) -> Option<Self::Item> {
        if self.is_done {
            return None;
        }
        let next = self.next_item().transpose();
        self.is_done = !matches!(next, Some(Ok(_)));
        next
    }
}
