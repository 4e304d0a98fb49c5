//! What may stop the process.

/// May stop the process: a failed assertion does.
pub trait Abort {}

impl Abort for super::HostRuntime {}
