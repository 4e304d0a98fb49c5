//! What Rattle's `std` has and Rust's lacks: collections whose growth can fail, the handle of the
//! runtime that programs print and read through, and a few casts. All else is Rust's own `std`.
//!
//! A call that allocates takes a [`Global`](alloc::Global) and returns an
//! [`AllocError`](alloc::AllocError) if memory runs out. These calls may still abort, as Rust does:
//! `insert` and `entry` of the maps and sets, the sorts of a [`Vec`], and calls of other crates.

#[cfg(not(target_pointer_width = "64"))]
compile_error!("semphluk needs a machine of 64 bits: its sources are proved for such alone");

pub mod alloc;
mod boxed;
#[cfg(target_os = "linux")]
mod closed;
pub mod collections;
pub mod convert;
pub mod env;
pub mod fs;
pub mod io;
mod methods;
pub mod num;
pub mod path;
pub mod process;
pub mod rt;
mod string;
pub mod test;
mod vec;

pub use boxed::Box;
pub use methods::{
    CollectWith, ExpectWith, ParseAsciiWith, RepeatWith, ReplaceWith, ToStringWith, ToVecWith,
};
pub use rt::HostRuntime;
pub use string::String;
pub use vec::Vec;

pub use crate::{
    rattle_assert as assert, rattle_assert_eq as assert_eq, rattle_eprint as eprint,
    rattle_eprintln as eprintln, rattle_format as format, rattle_print as print,
    rattle_println as println, rattle_tests as tests, rattle_vec as vec,
};

/// What a proof shows at compile time: an assertion of debug builds.
pub use std::debug_assert as prove;

/// `format!(in alloc; ..)`: a [`String`], or an error if memory runs out.
#[doc(hidden)]
#[macro_export]
macro_rules! rattle_format {
    (in $alloc:expr; $($text:tt)*) => {
        $crate::rattle::String::formatted($alloc, ::std::format_args!($($text)*))
    };
}

/// `vec![in alloc; ..]`: a [`Vec`], or an error if memory runs out.
#[doc(hidden)]
#[macro_export]
macro_rules! rattle_vec {
    (in $alloc:expr; $item:expr; $len:expr) => {
        $crate::rattle::Vec::from_elem($alloc, $item, $len)
    };
    (in $alloc:expr; $($item:expr),* $(,)?) => {
        $crate::rattle::Vec::from_array($alloc, [$($item),*])
    };
}

/// `print!(rt; ..)`.
#[doc(hidden)]
#[macro_export]
macro_rules! rattle_print {
    ($rt:expr; $($text:tt)*) => {
        $crate::rattle::rt::Print::print(&$rt, &::std::format_args!($($text)*))
    };
}

/// `println!(rt; ..)`.
#[doc(hidden)]
#[macro_export]
macro_rules! rattle_println {
    ($rt:expr; $($text:tt)*) => {
        $crate::rattle::rt::Print::print(
            &$rt,
            &::std::format_args!("{}\n", ::std::format_args!($($text)*)),
        )
    };
}

/// `eprint!(rt; ..)`.
#[doc(hidden)]
#[macro_export]
macro_rules! rattle_eprint {
    ($rt:expr; $($text:tt)*) => {
        $crate::rattle::rt::Eprint::eprint(&$rt, &::std::format_args!($($text)*))
    };
}

/// `eprintln!(rt; ..)`.
#[doc(hidden)]
#[macro_export]
macro_rules! rattle_eprintln {
    ($rt:expr; $($text:tt)*) => {
        $crate::rattle::rt::Eprint::eprint(
            &$rt,
            &::std::format_args!("{}\n", ::std::format_args!($($text)*)),
        )
    };
}

/// `assert!(rt; ..)`: Rust's, whose panic needs no handle.
#[doc(hidden)]
#[macro_export]
macro_rules! rattle_assert {
    ($rt:expr; $($rest:tt)*) => {{
        let _ = &$rt;
        ::std::assert!($($rest)*)
    }};
}

/// `assert_eq!(rt; ..)`: Rust's, whose panic needs no handle.
#[doc(hidden)]
#[macro_export]
macro_rules! rattle_assert_eq {
    ($rt:expr; $($rest:tt)*) => {{
        let _ = &$rt;
        ::std::assert_eq!($($rest)*)
    }};
}

/// Makes a test of each function, which takes the runtime and may return an error.
#[doc(hidden)]
#[macro_export]
macro_rules! rattle_tests {
    ($($name:ident)*) => {
        mod runs {
            $(#[test]
            fn $name() {
                $crate::rattle::test::run(super::$name)
            })*
        }
    };
}
