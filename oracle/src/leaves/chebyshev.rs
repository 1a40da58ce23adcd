//! chebyshev.rs: nodes and coefficients.

use pm_remez::function;

use super::{length, list};
use crate::chance::Chance;
use crate::number::{numbers, plain};
use crate::text::Page;

/// Degrees 2 to 16 one after another.
pub fn nodes(_: &mut Chance, index: usize, page: &mut Page) {
    let degree = 2 + index % 15;
    page.line(format_args!("degree {degree}"));
    page.numbers("gives", &plain(function::chebyshev_nodes(degree)));
}

pub fn coefficients(c: &mut Chance, index: usize, page: &mut Page) {
    let limits = [2, 3, 16, 17, 31, 32, 33, 63, 64, 4, 5, 9, 15, 48];
    let length = length(c, index, &limits);
    let values = list(c, length);
    page.numbers("values", &values);
    page.numbers(
        "gives",
        &plain(function::compute_cheby_coefficients(&numbers(&values))),
    );
}
