//! extrema.rs: first points, subdivision, pruning.

use pm_remez::function;

use super::length;
use crate::chance::Chance;
use crate::design::caught;
use crate::generate;
use crate::number::{Number, numbers, plain};
use crate::plan;
use crate::text::Page;

/// Bands in radians, as the adjusted ones are.
pub fn first(c: &mut Chance, index: usize, page: &mut Page) {
    let limits = [2, 3, 16, 17, 31, 32, 33, 63, 64, 1, 4, 15, 48];
    let functions = length(c, index, &limits);
    let edges = plan::edges(&generate::plan(c)).expect("01's rules hold");
    let bands: Vec<_> = edges.iter().map(function::convert_to_radians).collect();
    let pairs: Vec<(f64, f64)> = bands.iter().map(|b| (b.begin().0, b.end().0)).collect();
    page.line(format_args!("functions {functions}"));
    page.pairs("bands", &pairs);
    page.numbers(
        "gives",
        &plain(function::initial_extremal_freqs(&bands, functions)),
    );
}

/// Bands in rising x and points in falling x; some points on the bands' ends, some outside all
/// bands, and in a few cases some out of order or equal.
pub fn subdivide(c: &mut Chance, index: usize, page: &mut Page) {
    let count = length(c, index, &[2, 65, 1, 3, 5, 8, 16, 33, 64]);
    let bands = c.between(1, generate::MOST_BANDS);
    let mut edges: Vec<f64> = (0..2 * bands).map(|_| c.within(-1.0, 1.0)).collect();
    edges.sort_by(f64::total_cmp);
    edges[0] = c.among(&[-1.0, edges[0]]);
    edges[2 * bands - 1] = c.among(&[1.0, edges[2 * bands - 1]]);
    let pairs: Vec<(f64, f64)> = edges.chunks(2).map(|pair| (pair[0], pair[1])).collect();
    let outside = c.one_in(3);
    let mut points: Vec<f64> = (0..count)
        .map(|_| {
            let (begin, end) = c.among(&pairs);
            match c.below(4) {
                0 => c.among(&[begin, end]),
                1 if outside => c.within(-1.0, 1.0),
                _ => c.within(begin, end),
            }
        })
        .collect();
    points.sort_by(|a, b| b.total_cmp(a));
    if !c.one_in(4) {
        points.dedup();
    }
    if c.one_in(5) {
        let (from, to) = (c.below(points.len()), c.below(points.len()));
        points.swap(from, to);
    }
    write_subdivide(page, &points, &pairs);
}

pub fn write_subdivide(page: &mut Page, points: &[f64], bands: &[(f64, f64)]) {
    page.numbers("points", points);
    page.pairs("bands", bands);
    let bands_x: Vec<_> = bands.iter().map(|&(a, b)| (Number(a), Number(b))).collect();
    let intervals: Vec<(f64, f64)> = function::subdivide(&numbers(points), &bands_x)
        .iter()
        .map(|&(begin, end)| (begin.0, end.0))
        .collect();
    page.pairs("gives", &intervals);
}

/// The runs of a list: neighbours that are all below zero or all not.
fn runs(errors: &[f64]) -> usize {
    1 + errors
        .windows(2)
        .filter(|pair| (pair[0] < 0.0) != (pair[1] < 0.0))
        .count()
}

/// Errors with many ties and zeros of both signs, and a count to keep that is near the runs'.
pub fn prune(c: &mut Chance, index: usize, page: &mut Page) {
    let limits = [1, 2, 3, 4, 5, 8, 17, 33, 66, 130, 1241];
    let length = match limits.get(index) {
        Some(&limit) => limit,
        None if c.one_in(20) => c.between(200, 1241),
        None => c.between(1, 100),
    };
    let shape = c.below(4);
    let errors: Vec<f64> = (0..length)
        .map(|j| match shape {
            // Whole numbers, so that ties are frequent.
            0 => {
                let whole = c.between(0, 3) as f64;
                c.signed(whole)
            }
            // Alternating, with small ripples of the wrong sign.
            1 => {
                let size = c.between(1, 9) as f64 / 8.0;
                let sign = if j % 2 == 0 { 1.0 } else { -1.0 };
                if c.one_in(6) {
                    -sign * size
                } else {
                    sign * size
                }
            }
            2 => c.any(),
            _ => c.within(-1.0, 1.0),
        })
        .collect();
    let runs = runs(&errors);
    let keep = match c.below(6) {
        0 => runs,
        1 => runs - 1,
        2 => runs.saturating_sub(2),
        3 => (runs + 1).min(65),
        4 => c.between(0, runs),
        _ => runs / 2,
    };
    write_prune(page, &errors, keep);
}

pub fn write_prune(page: &mut Page, errors: &[f64], keep: usize) {
    page.numbers("errors", errors);
    page.line(format_args!("keep {keep}"));
    match caught(|| function::prune_extrema_candidates(&numbers(errors), keep)) {
        Ok(kept) => page.wholes("gives", &kept),
        Err(name) => page.line(format_args!("failed {name}")),
    }
}
