//! Crates of the names that the sources use, with the calls that they use: an allocator is passed,
//! and memory that runs out is an error. Each is upstream's crate behind these calls, or, where
//! Debian packages none that fits, a module of its own: `base64`, `fast_float`, `jiff` and `json`.
//!
//! Upstream's crates abort if memory runs out.

pub mod base64;
pub mod clap;
pub mod fast_float;
pub mod hex;
pub mod jiff;
pub mod json;
pub mod regex;
pub mod simdutf8;
pub mod toml;
pub mod unicode_normalization;
pub mod url;
pub mod uuid;
