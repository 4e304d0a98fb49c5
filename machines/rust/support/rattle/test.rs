//! Tests that take the runtime and may return an error.

use super::HostRuntime;
use std::fmt::Debug;

/// Why a test failed.
pub struct Fail(std::string::String);

impl<E: Debug> From<E> for Fail {
    fn from(error: E) -> Fail {
        Fail(format!("error: {error:?}"))
    }
}

/// How a test ended.
pub trait Outcome {
    /// Panics if it failed.
    fn check(self);
}

impl Outcome for () {
    fn check(self) {}
}

impl<E: Into<Fail>> Outcome for Result<(), E> {
    fn check(self) {
        if let Err(error) = self {
            panic!("{}", error.into().0);
        }
    }
}

/// Runs a test.
pub fn run<R: Outcome>(test: impl FnOnce(HostRuntime) -> R) {
    test(HostRuntime::new()).check();
}

#[cfg(test)]
mod tests {
    use super::{Fail, run};

    #[test]
    #[should_panic(expected = "error: 1")]
    fn an_error_fails_a_test() {
        run(|_| Err::<(), Fail>(Fail::from(1)));
    }
}
