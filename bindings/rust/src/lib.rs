#![doc = include_str!("../README.md")]
#![warn(missing_docs)]

mod error;
mod json;
mod names;
mod page;
mod parts;
mod recognized;
mod rules;
mod scanner;
mod schema;

pub use error::{Error, Result};
pub use json::{bytes_to_json, bytes_to_json_strict, hex_to_json, hex_to_json_strict, json_fault};
pub use json::{JsonFault, LossKind};
pub use names::{name_at, named};
pub use page::{names_fault, page, PageStyle};
pub use parts::{head, part, parts, paths, value, Head, HeadKind, Part, Value};
pub use recognized::{recognize, Input};
pub use rules::{violation, reencode, reencode_fault, Violation, ViolationKind, ReencodeFault, Rules};
pub use scanner::Scanner;
pub use schema::{CddlError, Misfit, Schema};

/// The form of an input or of an output.
#[derive(Clone, Copy, PartialEq, Eq, Hash, Debug)]
pub enum Form {
    /// The bytes of an item.
    Bytes,
    /// Hex with comments from `#` to the end of the line. As an output it is a dump.
    Hex,
    /// Diagnostic notation. As an output it has only line feeds of its texts, and one at its end.
    Diag,
    /// Diagnostic notation. As an output it may have several lines, and ends with a line feed.
    Pretty,
    /// One item in EDN. An input may be JSON. As an output it is one line, and ends with a line feed.
    Edn,
    /// One item in EDN. As an output it may have several lines and comments, and ends with a line feed.
    EdnPretty,
    /// JSON on one line, with a line feed at its end. An input is read as EDN.
    Json,
    /// The same, but what JSON does not keep is an error.
    JsonStrict,
    /// The lines of a page of HTML, as [`page()`] writes them, but without names. An input is read as EDN.
    Html,
}

impl Form {
    fn number(self) -> u32 {
        match self {
            Form::Bytes => 0,
            Form::Hex => 1,
            Form::Diag => 2,
            Form::Pretty => 3,
            Form::Edn => 4,
            Form::EdnPretty => 5,
            Form::Json => 6,
            Form::JsonStrict => 7,
            Form::Html => 8,
        }
    }
}

mod library {
    /// The memory of a scanner. Only the library looks inside. It holds no pointers.
    #[repr(C)]
    #[derive(Clone)]
    pub struct ScannerRoom(pub [u64; 256]);

    /// A head.
    #[repr(C)]
    #[derive(Default)]
    pub struct Head {
        pub kind: u8,
        pub indefinite: u8,
        pub argument: u64,
        pub number: f64,
    }

    /// A part of an item.
    #[repr(C)]
    #[derive(Clone, Copy, Default)]
    pub struct Part {
        pub key: usize,
        pub start: usize,
        pub end: usize,
    }

    /// The value of a part.
    #[repr(C)]
    #[derive(Default)]
    pub struct Value {
        pub kind: u8,
        pub indefinite: u8,
        pub tagged: u8,
        pub tag: u64,
        pub argument: u64,
        pub number: f64,
        pub start: usize,
        pub end: usize,
    }

    /// Where an item does not fit a schema, and parts of the message.
    #[repr(C)]
    #[derive(Default)]
    pub struct Misfit {
        pub place: usize,
        pub item: usize,
        pub line: usize,
        pub expected: usize,
        pub expected_end: usize,
        pub rule: usize,
        pub rule_end: usize,
        pub found: usize,
        pub found_end: usize,
        pub path: usize,
        pub path_end: usize,
    }

    extern "C" {
        /// Returns the length of the whole output, or minus the number of an error, and writes as much of the output as
        /// fits. It reads no byte of the output.
        pub fn cbor_diag_convert(
            from: u32,
            to: u32,
            input: *const u8,
            input_len: usize,
            output: *mut u8,
            output_len: usize,
        ) -> i64;
        /// Returns how many bytes the item takes, or minus the number of an error, and writes to `end` how many first
        /// bytes decide that.
        pub fn cbor_diag_extent(input: *const u8, input_len: usize, end: *mut usize) -> i64;
        /// Returns minus the number of the error of an input that is not an item, or 0, and writes the error position
        /// to `place`, or `usize::MAX`.
        pub fn cbor_diag_fault(
            from: u32,
            input: *const u8,
            input_len: usize,
            place: *mut usize,
        ) -> i64;
        /// Returns the length of the path to the truncated or malformed item, or 0, or minus the number of an error,
        /// and writes as much of it as fits.
        pub fn cbor_diag_fault_path(
            from: u32,
            input: *const u8,
            input_len: usize,
            path: *mut u8,
            path_len: usize,
        ) -> i64;
        /// The same for the message of that.
        pub fn cbor_diag_fault_message(
            from: u32,
            input: *const u8,
            input_len: usize,
            message: *mut u8,
            message_len: usize,
        ) -> i64;
        /// Returns minus the number of the error of a conversion without an output, or 0, and writes to `place` and
        /// `detail` where in the bytes of the item it is, and its detail, or `usize::MAX`.
        pub fn cbor_diag_output_fault(
            from: u32,
            to: u32,
            input: *const u8,
            input_len: usize,
            place: *mut usize,
            detail: *mut usize,
        ) -> i64;
        /// Initializes a scanner.
        pub fn cbor_diag_scanner_init(scanner: *mut ScannerRoom);
        /// Does what `cbor_diag_extent` does for all bytes that the scanner was fed.
        pub fn cbor_diag_scanner_feed(
            scanner: *mut ScannerRoom,
            input: *const u8,
            input_len: usize,
            end: *mut usize,
        ) -> i64;
        /// Returns the number of the kind of the first violation, or 0, or minus the number of an error, and writes to
        /// `place` and `detail` where it is, and its detail.
        pub fn cbor_diag_violation(
            rules: u32,
            input: *const u8,
            input_len: usize,
            place: *mut usize,
            detail: *mut usize,
        ) -> i64;
        /// Returns the length of the re-encoded items, or minus the number of an error, and writes as much of them as
        /// fits. It reads no byte of the output.
        pub fn cbor_diag_reencode(
            rules: u32,
            input: *const u8,
            input_len: usize,
            output: *mut u8,
            output_len: usize,
        ) -> i64;
        /// Returns the number of the kind of violation that re-encoding cannot repair, or 0, or minus the number of an
        /// error, and writes to `place` and `detail` where it is, and its detail, or `usize::MAX`.
        pub fn cbor_diag_reencode_fault(
            rules: u32,
            input: *const u8,
            input_len: usize,
            place: *mut usize,
            detail: *mut usize,
        ) -> i64;
        /// Returns the length of the name of a part, or minus the number of an error, and writes as much of the name as
        /// fits. It reads no byte of the output.
        pub fn cbor_diag_name_at(
            input: *const u8,
            input_len: usize,
            path: *const u8,
            path_len: usize,
            kind: *const u8,
            kind_len: usize,
            output: *mut u8,
            output_len: usize,
        ) -> i64;
        /// Returns how many bytes the head at the front takes, or minus the number of an error, and writes to `head`
        /// what it says.
        pub fn cbor_diag_head(input: *const u8, input_len: usize, head: *mut Head) -> i64;
        /// Returns 0, or minus the number of an error, and writes to `start` and `end` where the part is.
        pub fn cbor_diag_part(
            input: *const u8,
            input_len: usize,
            path: *const u8,
            path_len: usize,
            start: *mut usize,
            end: *mut usize,
        ) -> i64;
        /// Returns how many parts there are, or minus the number of an error, and writes as many as fit.
        pub fn cbor_diag_parts(
            input: *const u8,
            input_len: usize,
            path: *const u8,
            path_len: usize,
            parts: *mut Part,
            parts_len: usize,
        ) -> i64;
        /// Returns 0, or minus the number of an error, and writes to `value` that of the part.
        pub fn cbor_diag_value(
            input: *const u8,
            input_len: usize,
            path: *const u8,
            path_len: usize,
            value: *mut Value,
        ) -> i64;
        /// Returns the length of the lines, and writes as much of them as fits; or returns minus the number of an error.
        pub fn cbor_diag_paths(
            input: *const u8,
            input_len: usize,
            output: *mut u8,
            output_len: usize,
        ) -> i64;
        /// The same of an item with names.
        pub fn cbor_diag_named(
            input: *const u8,
            input_len: usize,
            kind: *const u8,
            kind_len: usize,
            output: *mut u8,
            output_len: usize,
        ) -> i64;
        /// The same of the bytes that an input stands for, and writes its form to `form`.
        pub fn cbor_diag_recognize(
            input: *const u8,
            input_len: usize,
            form: *mut u32,
            output: *mut u8,
            output_len: usize,
        ) -> i64;
        /// Returns the length of the lines of a page, or minus the number of an error, and writes as much as fits.
        pub fn cbor_diag_page(
            input: *const u8,
            input_len: usize,
            kind: *const u8,
            kind_len: usize,
            names: *const u8,
            names_len: usize,
            flags: u32,
            output: *mut u8,
            output_len: usize,
        ) -> i64;
        /// The same of what is wrong with a file of names.
        pub fn cbor_diag_names_fault(
            names: *const u8,
            names_len: usize,
            message: *mut u8,
            message_len: usize,
        ) -> i64;
        /// The same of a text of CDDL as a schema in bytes.
        pub fn cbor_diag_schema_load(
            cddl: *const u8,
            cddl_len: usize,
            rule: *const u8,
            rule_len: usize,
            schema: *mut u8,
            schema_len: usize,
        ) -> i64;
        /// The same of what is wrong with such a text, and writes to `line` and `column` where that is, or 0.
        pub fn cbor_diag_schema_fault(
            cddl: *const u8,
            cddl_len: usize,
            rule: *const u8,
            rule_len: usize,
            line: *mut usize,
            column: *mut usize,
            message: *mut u8,
            message_len: usize,
        ) -> i64;
        /// Returns 0 if all items fit a schema; or the length of what is said of the first that does not, writes as
        /// much of it as fits, and sets `misfit`; or returns minus the number of an error.
        pub fn cbor_diag_schema_misfit(
            schema: *const u8,
            schema_len: usize,
            input: *const u8,
            input_len: usize,
            misfit: *mut Misfit,
            message: *mut u8,
            message_len: usize,
        ) -> i64;
        pub fn cbor_diag_violation_text(kind: u32, output: *mut u8, output_len: usize) -> i64;
        pub fn cbor_diag_error_text(error: u32, output: *mut u8, output_len: usize) -> i64;
        pub fn cbor_diag_version() -> u32;
    }
}

/// A capacity that is enough for most outputs.
fn likely_room(to: Form, input: &[u8]) -> usize {
    let factor = match to {
        Form::Hex => 8,
        Form::Html => 80,
        _ => 3,
    };
    input.len().saturating_mul(factor).saturating_add(64)
}

/// Converts an item from one form to another. [`Error::place`] finds the position of an error in the input, and
/// [`json_fault`] says why an item has no JSON.
pub fn convert(from: Form, to: Form, input: &[u8]) -> Result<Vec<u8>> {
    let mut output = Vec::new();
    let mut room = likely_room(to, input);
    loop {
        output.try_reserve_exact(room).map_err(|_| Error::Memory)?;
        let room_there = output.capacity();
        // SAFETY: the pointers are those of the slice and of the vector, are not null and do not overlap; the lengths
        // are those of the slice and of the vector's room. The call only writes to the output.
        let answer = unsafe {
            library::cbor_diag_convert(
                from.number(),
                to.number(),
                input.as_ptr(),
                input.len(),
                output.as_mut_ptr(),
                room_there,
            )
        };
        let length = usize::try_from(answer).map_err(|_| Error::of(answer))?;
        if length <= room_there {
            // SAFETY: the call wrote all bytes of the output.
            unsafe { output.set_len(length) };
            return Ok(output);
        }
        room = length;
    }
}

/// An output that is text.
fn text(from: Form, to: Form, input: &[u8]) -> Result<String> {
    let output = convert(from, to, input)?;
    // All text of an item is checked to be UTF-8 before any of it is written.
    Ok(String::from_utf8(output).expect("the output is UTF-8"))
}

/// Notation without the line feed at its end.
pub(crate) fn notation(from: Form, to: Form, input: &[u8]) -> Result<String> {
    let mut text = text(from, to, input)?;
    text.pop();
    Ok(text)
}

/// How bytes begin.
#[derive(Clone, Copy, PartialEq, Eq, Hash, Debug)]
pub enum Extent {
    /// The length of the item that comes first. More bytes may follow it.
    Item(usize),
    /// The bytes end before the item does. More bytes may complete it.
    Cut,
    /// No item begins with these bytes, whatever follows them.
    Fault {
        /// The error.
        error: Error,
        /// The first `end` bytes show it; fewer bytes are only truncated.
        end: usize,
    },
}

impl Extent {
    /// The beginning, by the result of the library and how many bytes decide it.
    fn of(answer: i64, end: usize) -> Extent {
        match usize::try_from(answer).map_err(|_| Error::of(answer)) {
            Ok(length) => Extent::Item(length),
            Err(Error::CutShort) => Extent::Cut,
            Err(error) => Extent::Fault { error, end },
        }
    }
}

/// Reports how bytes begin, without memory. A [`Scanner`] does the same for bytes that come in pieces.
///
/// ```rust
/// use semphluk::{extent, Extent};
///
/// assert_eq!(extent(b"\x82\x02\x03\x01"), Extent::Item(3));
/// assert_eq!(extent(b"\x82\x02"), Extent::Cut);
/// ```
pub fn extent(bytes: &[u8]) -> Extent {
    let mut end = 0;
    // SAFETY: the pointers are those of the slice, with its length, and of the variable.
    let answer = unsafe { library::cbor_diag_extent(bytes.as_ptr(), bytes.len(), &mut end) };
    Extent::of(answer, end)
}

/// The dump of an item: its bytes in hex, a line for each head, with comments.
pub fn bytes_to_hex(bytes: &[u8]) -> Result<String> {
    text(Form::Bytes, Form::Hex, bytes)
}

/// An item in diagnostic notation, with no line feeds but those in its texts.
pub fn bytes_to_diag(bytes: &[u8]) -> Result<String> {
    notation(Form::Bytes, Form::Diag, bytes)
}

/// An item in diagnostic notation over several lines, without a line feed at the end.
pub fn bytes_to_diag_pretty(bytes: &[u8]) -> Result<String> {
    notation(Form::Bytes, Form::Pretty, bytes)
}

/// The bytes of an item from hex, with or without comments.
pub fn hex_to_bytes(hex: &str) -> Result<Vec<u8>> {
    convert(Form::Hex, Form::Bytes, hex.as_bytes())
}

/// An item in hex in diagnostic notation, with no line feeds but those in its texts.
pub fn hex_to_diag(hex: &str) -> Result<String> {
    notation(Form::Hex, Form::Diag, hex.as_bytes())
}

/// An item in hex in diagnostic notation over several lines, without a line feed at the end.
pub fn hex_to_diag_pretty(hex: &str) -> Result<String> {
    notation(Form::Hex, Form::Pretty, hex.as_bytes())
}

/// The bytes of an item from diagnostic notation.
pub fn diag_to_bytes(diag: &str) -> Result<Vec<u8>> {
    convert(Form::Diag, Form::Bytes, diag.as_bytes())
}

/// The dump of an item from diagnostic notation.
pub fn diag_to_hex(diag: &str) -> Result<String> {
    text(Form::Diag, Form::Hex, diag.as_bytes())
}

/// An item in EDN on one line. It is read back as the same bytes.
pub fn bytes_to_edn(bytes: &[u8]) -> Result<String> {
    notation(Form::Bytes, Form::Edn, bytes)
}

/// An item in EDN over several lines, with notes as comments, without a line feed at the end.
pub fn bytes_to_edn_pretty(bytes: &[u8]) -> Result<String> {
    notation(Form::Bytes, Form::EdnPretty, bytes)
}

/// An item in hex in EDN on one line.
pub fn hex_to_edn(hex: &str) -> Result<String> {
    notation(Form::Hex, Form::Edn, hex.as_bytes())
}

/// An item in hex in EDN over several lines, with notes as comments, without a line feed at the end.
pub fn hex_to_edn_pretty(hex: &str) -> Result<String> {
    notation(Form::Hex, Form::EdnPretty, hex.as_bytes())
}

/// The bytes of one item in EDN. The text may also be JSON.
pub fn edn_to_bytes(edn: &str) -> Result<Vec<u8>> {
    convert(Form::Edn, Form::Bytes, edn.as_bytes())
}

/// The dump of one item in EDN.
pub fn edn_to_hex(edn: &str) -> Result<String> {
    text(Form::Edn, Form::Hex, edn.as_bytes())
}

/// The major, minor and patch version of the library.
pub fn library_version() -> (u32, u32, u32) {
    // SAFETY: the call takes nothing.
    let version = unsafe { library::cbor_diag_version() };
    (version / 10000, version / 100 % 100, version % 100)
}
