//! The cases that document 01 lists, "Cases", and the smallest of two differences (docs/DIFFERENCES.md), asked of the Rust.

use pm_remez::Symmetry;

use super::{barycentric, colleague, extrema, fir_types};
use crate::text::Page;

/// Writes the named cases for the leaves.
pub fn known(page: &mut Page) {
    let leaf = |page: &mut Page, name: &str| page.line(format_args!("leaf {name}"));

    leaf(page, "weights");
    barycentric::write_weights(page, &[1.0, -1.0]);
    leaf(page, "delta");
    barycentric::write_delta(page, &[0.25, -0.25], &[1.0, 0.0], &[1.0, 1.0]);
    leaf(page, "abscissas");
    barycentric::write_abscissas(page, 0.5, &[1.0, 0.0], &[1.0, 1.0]);
    leaf(page, "response");
    barycentric::write_response(page, &[1.0, -1.0], &[0.25, -0.25], &[0.5, 0.5], &[0.0]);

    let prunings: [(&[f64], usize); 8] = [
        (&[1.0], 0),
        (&[0.0, -0.0, 3.0], 1),
        (&[2.0, 2.0, -1.0], 2),
        (&[3.0, -1.0, 3.0], 2),
        (&[1.0, -1.0, 2.0], 2),
        (&[10.0, -1.0, 5.0, -6.0], 2),
        (&[4.0, 5.0, 6.0], 2),
        (&[], 0),
    ];
    for (errors, keep) in prunings {
        leaf(page, "prune");
        extrema::write_prune(page, errors, keep);
    }

    leaf(page, "subdivide");
    extrema::write_subdivide(
        page,
        &[1.0, 0.5, 0.25, -0.25, -1.0],
        &[(-1.0, -0.25), (0.25, 1.0)],
    );

    leaf(page, "taps");
    fir_types::write_taps(page, 4, Symmetry::Even, &[1.0, 2.0]);
    leaf(page, "taps");
    fir_types::write_taps(page, 4, Symmetry::Odd, &[1.0, 2.0]);
    leaf(page, "taps");
    fir_types::write_taps(page, 7, Symmetry::Odd, &[1.0, 2.0, 4.0]);

    // One coefficient is left; and a 65th pass.
    leaf(page, "colleague");
    colleague::write_colleague(page, &[1.0, 0.0]);
    leaf(page, "colleague");
    let mut far = [0.0; 13];
    far[8..11].fill(2f64.powi(1000));
    far[12] = 1.0;
    colleague::write_colleague(page, &far);
}
