//! `toml`, of which the sources read whole files. Upstream's says the line and the column of an
//! error, and words of its own; only the place is kept.

use crate::rattle::alloc::Global;

pub use ::toml::Value;

/// The keys of a file or of a table, with their values.
pub type Table = ::toml::value::Table;

/// Errors of reading.
pub mod de {
    use std::ops::Range;

    /// Where a text is no TOML.
    #[derive(Clone, Copy, PartialEq, Eq, Debug)]
    pub struct Error(pub(super) usize);

    impl Error {
        /// Whether memory ran out. Upstream's crate aborts then.
        pub fn is_memory(&self) -> bool {
            false
        }

        /// The bytes that are wrong.
        pub fn span(&self) -> Option<Range<usize>> {
            Some(self.0..self.0)
        }

        /// What is wrong.
        pub fn message(&self) -> &'static str {
            "no TOML"
        }
    }
}

/// The table that a text is.
pub fn table_from_str(_alloc: Global, text: &str) -> Result<Table, de::Error> {
    match text.parse::<Value>() {
        Ok(Value::Table(table)) => Ok(table),
        Ok(_) => Ok(Table::new()),
        Err(error) => {
            let (line, column) = error.line_col().unwrap_or((0, 0));
            let start: usize = text.split_inclusive('\n').take(line).map(str::len).sum();
            Err(de::Error(start.saturating_add(column)))
        }
    }
}
