//! Rounding to whole numbers, and square roots, worked out from the bits. Never refused.
use crate::ffi::call;

/// The nearest whole number as an integer, ties away from zero; what is beyond `i64` gives its nearest end, and NaN 0.
///
/// ```
/// use gullyfork::common::nint;
/// assert_eq!([nint(2.5), nint(-0.5), nint(0.49999999999999994)], [3, -1, 0]);
/// ```
pub fn nint(x: f64) -> i64 {
    call!(gf_nint(x))
}

/// The nearest whole number; halves go away from zero.
///
/// ```
/// assert_eq!(gullyfork::common::round(-2.5), -3.0);
/// ```
pub fn round(x: f64) -> f64 {
    call!(gf_round(x))
}

/// The square root as IEEE 754 rounds it to nearest, ties to even: of -0.0 it is -0.0, of any other negative number NaN.
///
/// ```
/// assert_eq!(gullyfork::common::sqrt(2.0).to_bits(), 0x3FF6A09E667F3BCD);
/// ```
pub fn sqrt(x: f64) -> f64 {
    call!(gf_sqrt(x))
}
