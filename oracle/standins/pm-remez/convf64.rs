//! A stand-in for pm-remez's `convf64.rs`: lib.rs re-exports the name, nothing here uses it.

/// Conversion to and from `f64`.
pub trait Convf64 {
    /// The number as an `f64`.
    fn to_f64(&self) -> f64;

    /// The number that an `f64` is.
    fn from_f64(x: f64) -> Self;
}
