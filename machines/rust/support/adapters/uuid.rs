//! `uuid`. Its enums are closed here: upstream's may grow, and version 1.2 names no version of RFC
//! 9562.

use std::fmt;

/// The layout of a UUID.
#[derive(Clone, Copy, PartialEq, Eq, Debug)]
pub enum Variant {
    /// Reserved for NCS.
    NCS,
    /// That of RFC 4122 and RFC 9562.
    RFC4122,
    /// Reserved for Microsoft.
    Microsoft,
    /// Reserved for the future.
    Future,
}

/// How a UUID was made.
#[derive(Clone, Copy, PartialEq, Eq, Debug)]
pub enum Version {
    /// All bits are clear.
    Nil,
    /// From a time and an address.
    Mac,
    /// As DCE has it.
    Dce,
    /// From a name, by MD5.
    Md5,
    /// At random.
    Random,
    /// From a name, by SHA-1.
    Sha1,
    /// From a time and an address, in an order that sorts.
    SortMac,
    /// From a time, and at random.
    SortRand,
    /// In a way of its own.
    Custom,
    /// All bits are set.
    Max,
}

/// A UUID.
#[derive(Clone, Copy, PartialEq, Eq, Debug)]
pub struct Uuid(::uuid::Uuid);

impl Uuid {
    /// The UUID of 16 bytes.
    pub fn from_bytes(bytes: [u8; 16]) -> Uuid {
        Uuid(::uuid::Uuid::from_bytes(bytes))
    }

    /// The UUID as it is written, with hyphens.
    pub fn hyphenated(&self) -> Hyphenated {
        Hyphenated(self.0)
    }

    /// The number of its version.
    pub fn get_version_num(&self) -> usize {
        self.0.get_version_num()
    }

    /// Its layout.
    pub fn get_variant(&self) -> Variant {
        match self.0.get_variant() {
            ::uuid::Variant::NCS => Variant::NCS,
            ::uuid::Variant::RFC4122 => Variant::RFC4122,
            ::uuid::Variant::Microsoft => Variant::Microsoft,
            _ => Variant::Future,
        }
    }

    /// Its version, if its number is a known one.
    pub fn get_version(&self) -> Option<Version> {
        match self.get_version_num() {
            0 if self.0.is_nil() => Some(Version::Nil),
            1 => Some(Version::Mac),
            2 => Some(Version::Dce),
            3 => Some(Version::Md5),
            4 => Some(Version::Random),
            5 => Some(Version::Sha1),
            6 => Some(Version::SortMac),
            7 => Some(Version::SortRand),
            8 => Some(Version::Custom),
            15 if self.0.as_bytes() == &[0xff; 16] => Some(Version::Max),
            _ => None,
        }
    }
}

/// A UUID as it is written, with hyphens.
#[derive(Clone, Copy, PartialEq, Eq, Debug)]
pub struct Hyphenated(::uuid::Uuid);

impl fmt::Display for Hyphenated {
    fn fmt(&self, f: &mut fmt::Formatter<'_>) -> fmt::Result {
        fmt::Display::fmt(self.0.as_hyphenated(), f)
    }
}
