//! Requests to compare on: request `index` of `seed` is a pure function of the two.
//!
//! All of them keep 01's ranges (refusals 5 and 6 never apply). Somewhat more than half are filters
//! that people ask for; the others are plans with any edges, values and weights.

use pm_remez::Symmetry;

mod edges;
mod filters;
mod plans;

pub use plans::plan;

use crate::chance::Chance;
use crate::design::Request;
use crate::plan::{Band, Value, lookup};

/// 01's limits.
pub const MOST_TAPS: usize = 128;
pub const MOST_BANDS: usize = 8;
const MOST_ALLOWED: usize = 100;

/// Request `index` of `seed`.
pub fn request(seed: u64, index: u64) -> Request {
    let c = &mut Chance::new(seed, "request", index);
    let mut request = if c.below(100) < 58 {
        filters::filter(c)
    } else {
        wild(c)
    };
    if c.one_in(40) {
        for band in &mut request.bands {
            band.desired = Value::Constant(0.0);
        }
    }
    if c.one_in(16) {
        plans::extremes(c, &mut request.bands);
    }
    if !c.one_in(25) {
        realizable(c, &mut request);
    }
    let first = &mut request.bands[0];
    if first.begin == 0.0 && c.one_in(100) {
        first.begin = -0.0;
    }
    request
}

/// A request with the settings chosen and the plan given.
fn with_settings(c: &mut Chance, taps: usize, symmetry: Symmetry, bands: Vec<Band>) -> Request {
    let degree = match c.below(8) {
        0..=2 => 8,
        3 => 2,
        4 => 16,
        _ => c.between(2, 16),
    };
    let allowed = match c.below(16) {
        0 => 0,
        1 => 1,
        2 => c.between(2, 5),
        3..=5 => c.between(1, 30),
        6 => c.between(0, MOST_ALLOWED),
        _ => MOST_ALLOWED,
    };
    let threshold = match c.below(20) {
        0 => 0.0,
        1 => 1.0,
        2 => c.unit(),
        3 => c.power(-1074, 0),
        4 => c.among(&[
            -0.0,
            f64::from_bits(1),
            f64::MIN_POSITIVE,
            1.0 - f64::EPSILON / 2.0,
        ]),
        5..=11 => c.among(&[0.5, 0.1, 0.05, 0.01, 1e-2, 1e-4, 1e-5, 1e-6, 1e-9, 1e-12]),
        _ => 1e-3,
    };
    Request {
        taps,
        symmetry,
        degree,
        allowed,
        threshold,
        bands,
    }
}

pub fn symmetry(c: &mut Chance) -> Symmetry {
    c.among(&[Symmetry::Even, Symmetry::Odd])
}

/// These taps, or the fewest that the symmetry asks for with taps of this parity.
pub fn enough(taps: usize, symmetry: Symmetry) -> usize {
    match (taps % 2 == 1, symmetry) {
        (true, Symmetry::Even) => taps.max(3),
        (true, Symmetry::Odd) => taps.max(7),
        (false, _) => taps.max(4),
    }
}

/// Taps for a symmetry: the ends of the range and the places where a stride changes are frequent.
pub fn taps(c: &mut Chance, symmetry: Symmetry) -> usize {
    let taps = match c.below(4) {
        0 => c.between(3, 12),
        1 => c.among(&[
            29, 30, 31, 32, 33, 59, 60, 61, 62, 63, 64, 89, 90, 91, 92, 126, 127, 128,
        ]),
        _ => c.between(3, MOST_TAPS),
    };
    enough(taps, symmetry)
}

fn wild(c: &mut Chance) -> Request {
    let symmetry = symmetry(c);
    let taps = taps(c, symmetry);
    let bands = plan(c);
    with_settings(c, taps, symmetry, bands)
}

/// Takes away what refusal 7 asks for: moves a band's edge off the singular place, or makes the
/// value there zero.
fn realizable(c: &mut Chance, request: &mut Request) {
    let odd_taps = request.taps % 2 == 1;
    let (at_zero, at_half) = match request.symmetry {
        Symmetry::Even => (false, !odd_taps),
        Symmetry::Odd => (true, odd_taps),
    };
    let value_at = |bands: &[Band], f: f64| lookup(bands, |band| band.desired, f);
    let move_edge = c.one_in(2);
    let last = request.bands.len() - 1;
    if at_zero && request.bands[0].begin == 0.0 && value_at(&request.bands, 0.0) != 0.0 {
        let band = &mut request.bands[0];
        if move_edge {
            band.begin = (band.end / 2.0).min(0.02);
        } else {
            band.desired = Value::Linear(0.0, band.desired.ends().1);
        }
    }
    if at_half && request.bands[last].end == 0.5 && value_at(&request.bands, 0.5) != 0.0 {
        let band = &mut request.bands[last];
        if move_edge || last == 0 {
            band.end = ((band.begin + 0.5) / 2.0).max(0.48);
        } else {
            band.desired = Value::Linear(band.desired.ends().0, 0.0);
        }
    }
}

#[cfg(test)]
mod test {
    use super::edges::allowed_bands;
    use super::*;

    #[test]
    fn requests_keep_the_rules() {
        for index in 0..20_000 {
            let request = request(7, index);
            assert!(allowed_bands(&request.bands), "request {index}");
            assert!(request.taps <= MOST_TAPS);
            assert_eq!(request.taps, enough(request.taps, request.symmetry));
            assert!((2..=16).contains(&request.degree) && request.allowed <= MOST_ALLOWED);
            assert!((0.0..=1.0).contains(&request.threshold));
            for band in &request.bands {
                let (w0, w1) = band.weight.ends();
                let (d0, d1) = band.desired.ends();
                assert!(w0 > 0.0 && w1 > 0.0 && [w0, w1, d0, d1].iter().all(|v| v.is_finite()));
            }
        }
    }
}
