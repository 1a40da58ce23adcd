//! extrema.rs: the first points of any bands.
//!
//! pm-remez takes bands that its `Band::new` has made, and this refuses edges outside 0 to 0.5 or out of order. The edges here are
//! made with a number type that has no order while a band is made, so that no test of it refuses them. Its `min` is the caller's:
//! which of two zeros Rust's own gives is left open, and differs from host to host.

use std::cell::Cell;
use std::cmp::Ordering;

use pm_remez::{Band, function};

use crate::number_type;

thread_local! {
    static MAKING: Cell<bool> = const { Cell::new(false) };
    static MIN: Cell<fn(f64, f64) -> f64> = const { Cell::new(f64::min) };
}

fn ordered(a: f64, b: f64) -> Option<Ordering> {
    if MAKING.get() {
        None
    } else {
        a.partial_cmp(&b)
    }
}

number_type!(
    /// An `f64` without an order while a band is made.
    Free,
    cos: |_| f64::NAN,
    sin: |_| f64::NAN,
    acos: |_| f64::NAN,
    abs: f64::abs,
    order: ordered,
    min: |a, b| MIN.get()(a, b),
);

/// The smaller of two, the second where neither is below the other.
pub fn second_on_tie(a: f64, b: f64) -> f64 {
    if a < b { a } else { b }
}

/// The first points of bands with finite edges.
pub fn first_points(bands: &[(f64, f64)], functions: usize, min: fn(f64, f64) -> f64) -> Vec<f64> {
    MIN.set(min);
    MAKING.set(true);
    let bands: Vec<_> = bands
        .iter()
        .map(|&(begin, end)| Band::new(Free(begin), Free(end)).expect("no test refuses it"))
        .collect();
    MAKING.set(false);
    function::initial_extremal_freqs(&bands, functions)
        .iter()
        .map(|x| x.0)
        .collect()
}
