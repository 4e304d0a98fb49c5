//! Tests that each float of 16 bits stays the same when it is turned into a number and back, but
//! for a NaN, which gets its usual bits. Each of these numbers is also a float of 32 bits.

use cbor_floats::{half_of, half_value, nearest_half, single_of};

/// Whether a half is that of its number, or the usual NaN, and its number is a single.
fn is_kept(bits: u16) -> bool {
    let x = half_value(bits);
    let usual = if x.is_nan() { 0x7e00 } else { bits };
    half_of(x) == Some(usual) && nearest_half(x) == usual && single_of(x).is_some()
}

#[test]
fn all_halves(rt: HostRuntime) {
    for bits in 0..=u16::MAX {
        assert!(rt; is_kept(bits), "on {bits}");
    }
}
