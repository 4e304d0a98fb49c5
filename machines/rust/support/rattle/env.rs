//! The arguments and the environment, as UTF-8.

use super::alloc::Global;
use super::rt::Env;
use super::{String, Vec};
use std::io::{ErrorKind, Result};

/// Why a variable has no value.
#[derive(Clone, Copy, PartialEq, Eq, Debug)]
pub enum VarError {
    /// It is not set.
    NotPresent,
    /// Its value is not UTF-8.
    NotUnicode,
}

/// The arguments, the name of the program first. One that is not UTF-8 is an error.
pub fn args<R: Env>(_rt: &R) -> Result<std::vec::IntoIter<String>> {
    let mut words = Vec::new(Global);
    for word in std::env::args_os() {
        let word = word.into_string().map_err(|_| ErrorKind::InvalidData)?;
        words.push(String::from(word))?;
    }
    Ok(words.into_iter())
}

/// The value of a variable.
pub fn var<R: Env>(_rt: &R, name: &str) -> std::result::Result<String, VarError> {
    match std::env::var(name) {
        Ok(value) => Ok(String::from(value)),
        Err(std::env::VarError::NotPresent) => Err(VarError::NotPresent),
        Err(std::env::VarError::NotUnicode(_)) => Err(VarError::NotUnicode),
    }
}
