//! Casts of floats that say what becomes of a NaN: always the quiet one without a sign. No payload
//! of a NaN goes through a register for floats, so each processor gives the same bits.

/// The bits of a float.
#[inline]
pub fn f64_to_bits_with_nan(x: f64) -> u64 {
    if x.is_nan() {
        0x7ff8_0000_0000_0000
    } else {
        x.to_bits()
    }
}

/// The float of bits.
#[inline]
pub fn f64_from_bits_with_nan(bits: u64) -> f64 {
    if bits & 0x7fff_ffff_ffff_ffff > 0x7ff0_0000_0000_0000 {
        f64::NAN
    } else {
        f64::from_bits(bits)
    }
}

/// The bits of a float.
#[inline]
pub fn f32_to_bits_with_nan(x: f32) -> u32 {
    if x.is_nan() { 0x7fc0_0000 } else { x.to_bits() }
}

/// The float of bits.
#[inline]
pub fn f32_from_bits_with_nan(bits: u32) -> f32 {
    if bits & 0x7fff_ffff > 0x7f80_0000 {
        f32::NAN
    } else {
        f32::from_bits(bits)
    }
}

/// The same number in more bits.
#[inline]
pub fn f32_to_f64_with_nan(x: f32) -> f64 {
    if x.is_nan() { f64::NAN } else { f64::from(x) }
}

/// The nearest number in fewer bits; of two, the even one.
#[inline]
pub fn nearest_f64_to_f32_with_nan(x: f64) -> f32 {
    if x.is_nan() { f32::NAN } else { x as f32 }
}

/// The nearest float; of two, the even one.
#[inline]
pub fn nearest_u64_to_f64(x: u64) -> f64 {
    x as f64
}

/// The nearest float; of two, the even one.
#[inline]
pub fn nearest_i64_to_f64(x: i64) -> f64 {
    x as f64
}

/// The integer without the fraction, or the nearest one there is; 0 for a NaN.
#[inline]
pub fn saturating_f64_to_i64(x: f64) -> i64 {
    x as i64
}
