//! `Tally`: counts calls, and prints those that run out of memory. `is_answered` tells these from
//! calls with the right result.

use cbor_diag::Error;
use std::io::{self, Print};
use std::process::Abort;

/// How many calls were made, and how many of them ran out of memory.
#[derive(Drop)]
pub struct Tally {
    pub calls: usize,
    pub refused: usize,
}

impl Tally {
    pub const NONE: Tally = Tally {
        calls: 0,
        refused: 0,
    };

    /// Counts a call that gave the right result or ran out of memory, and prints the second.
    pub fn call(&mut self, rt: &impl Print, name: &str, answered: bool) -> io::Result<()> {
        self.calls = self.calls.saturating_add(1);
        if answered {
            return Ok(());
        }
        self.refused = self.refused.saturating_add(1);
        println!(rt; "{name}: out of memory")
    }
}

/// Whether a call gave this, which it has to if memory did not run out.
pub fn is_answered(rt: &impl Abort, found: Result<Vec<u8>, Error>, wanted: &[u8]) -> bool {
    match found {
        Ok(bytes) => {
            assert_eq!(rt; bytes.as_slice(), wanted);
            true
        }
        Err(error) => {
            assert!(rt; error == Error::Memory, "{error}");
            false
        }
    }
}
