//! The handle of the runtime, and what a function may do through it.

use super::alloc::Global;
use super::io::{Stderr, Stdin, Stdout};
use std::fmt::Display;
use std::io::{self, Write};

/// The runtime of the process, which `main` makes and passes down.
#[derive(Debug)]
pub struct HostRuntime(());

impl HostRuntime {
    /// The runtime of the process.
    #[allow(clippy::new_without_default)] // Only `main` and tests make one.
    pub fn new() -> HostRuntime {
        HostRuntime(())
    }

    /// The allocator.
    pub fn alloc(&self) -> Global {
        Global
    }

    /// Standard input.
    pub fn stdin(&self) -> Stdin {
        Stdin
    }

    /// Standard output.
    pub fn stdout(&self) -> Stdout {
        Stdout
    }

    /// Standard error.
    pub fn stderr(&self) -> Stderr {
        Stderr
    }
}

/// May allocate.
pub trait Alloc {
    /// The allocator.
    fn alloc(&self) -> Global {
        Global
    }
}

/// May allocate by the allocator of the process.
pub trait AllocGlobal: Alloc {}

/// May read the arguments and the environment.
pub trait Env {}

/// May print to standard output.
pub trait Print {
    /// Prints a value, in one write if the system takes it whole.
    fn print<D: Display>(&self, value: &D) -> io::Result<()> {
        Stdout.write_all(value.to_string().as_bytes())
    }
}

/// May print to standard error.
pub trait Eprint {
    /// Prints a value, in one write if the system takes it whole.
    fn eprint<D: Display>(&self, value: &D) -> io::Result<()> {
        Stderr.write_all(value.to_string().as_bytes())
    }
}

impl Alloc for HostRuntime {}
impl AllocGlobal for HostRuntime {}
impl Env for HostRuntime {}
impl Print for HostRuntime {}
impl Eprint for HostRuntime {}
impl<T: Print + ?Sized> Print for &T {}
impl<T: Eprint + ?Sized> Eprint for &T {}
