//! Cases for each leaf alone, answered by the function of pm-remez that the leaf comes from.
//!
//! A case is `leaf NAME`, its input lines, then the answer: `gives` and what it is, or `failed NAME`.

mod angle;
mod barycentric;
mod chebyshev;
pub mod colleague;
pub mod edges;
mod extrema;
mod fir_types;
mod known;

use crate::chance::Chance;
use crate::text::Page;

pub use angle::places;
pub use known::known;

/// Writes one case: the input lines and the answer. The index decides the length where lengths
/// matter, so that every limit comes up early.
type Write = fn(&mut Chance, usize, &mut Page);

/// The leaves in 01's order.
pub const LEAVES: [(&str, Write); 21] = [
    ("cosine", angle::cosine),
    ("sine", angle::sine),
    ("arccosine", angle::arccosine),
    ("lookup", fir_types::lookup),
    ("weights", barycentric::weights),
    ("delta", barycentric::delta),
    ("abscissas", barycentric::abscissas),
    ("response", barycentric::response),
    ("nodes", chebyshev::nodes),
    ("coefficients", chebyshev::coefficients),
    ("realizable", fir_types::realizable),
    ("edges", fir_types::edges),
    ("radians", fir_types::radians),
    ("adjusted_desired", fir_types::adjusted_desired),
    ("adjusted_weight", fir_types::adjusted_weight),
    ("taps", fir_types::taps),
    ("first", extrema::first),
    ("subdivide", extrema::subdivide),
    ("colleague", colleague::colleague),
    ("roots", colleague::roots),
    ("prune", extrema::prune),
];

/// Writes case `index` of a leaf under `seed`.
pub fn write(seed: u64, name: &str, write: Write, index: usize, page: &mut Page) {
    let mut chance = Chance::new(seed, name, index as u64);
    page.line(format_args!("leaf {name}"));
    write(&mut chance, index, page);
}

/// The length of case `index`: each limit once, then the limits and what lies between by chance.
fn length(c: &mut Chance, index: usize, limits: &[usize]) -> usize {
    match limits.get(index) {
        Some(&limit) => limit,
        None if c.one_in(2) => c.among(limits),
        None => c.between(limits[0], limits[limits.len() - 1]),
    }
}

/// Lengths of a list of points, weights or abscissas: 2 to 65, and where the stride changes.
const POINTS: [usize; 18] = [
    2, 3, 16, 17, 31, 32, 33, 64, 65, 4, 15, 18, 30, 46, 47, 48, 62, 63,
];

/// A list of numbers. In some lists only few of them differ; numbers from the far ends are only in
/// some, since one of them hides the others in a sum.
fn list(c: &mut Chance, length: usize) -> Vec<f64> {
    let shape = c.below(8);
    let pool = [c.common(), c.common(), c.any()];
    (0..length)
        .map(|_| match shape {
            0 | 1 => c.among(&pool),
            2 => c.any(),
            _ => c.common(),
        })
        .collect()
}

/// A list of positive numbers.
fn positive(c: &mut Chance, length: usize) -> Vec<f64> {
    let far = c.one_in(6);
    (0..length)
        .map(|_| {
            if far && c.one_in(4) {
                c.extreme()
            } else {
                c.plain()
            }
        })
        .collect()
}
