//! barycentric.rs: weights, delta, abscissas, response.

use std::f64::consts::PI;

use pm_remez::function;

use super::{POINTS, length, list, positive};
use crate::angles;
use crate::chance::Chance;
use crate::number::{Number, numbers, plain};
use crate::text::Page;

/// Points as an exchange has them, falling from 1 to -1; or close together; or any numbers.
fn points(c: &mut Chance, length: usize) -> Vec<f64> {
    let mut points: Vec<f64> = match c.below(6) {
        0 => return list(c, length),
        1 => {
            let (middle, about) = (c.within(-0.9, 0.9), c.power(-40, -4));
            (0..length)
                .map(|_| middle + about * c.within(-1.0, 1.0))
                .collect()
        }
        2 => (0..length).map(|_| c.within(-1.0, 1.0)).collect(),
        _ => (0..length)
            .map(|j| {
                let place = (j as f64 + 0.8 * c.unit()) / length as f64;
                angles::cosine(PI * place).unwrap_or(0.0)
            })
            .collect(),
    };
    points.sort_by(|a, b| b.total_cmp(a));
    points
}

/// The weights of the points, or other numbers; mostly so where a weight is not finite.
fn weights_of(c: &mut Chance, points: &[f64]) -> Vec<f64> {
    let weights = plain(function::compute_barycentric_weights(&numbers(points)));
    let finite = weights.iter().all(|w| w.is_finite());
    let others = if finite { c.one_in(4) } else { !c.one_in(8) };
    if others {
        list(c, points.len())
    } else {
        weights
    }
}

pub fn weights(c: &mut Chance, index: usize, page: &mut Page) {
    let length = length(c, index, &POINTS);
    write_weights(page, &points(c, length));
}

pub fn write_weights(page: &mut Page, points: &[f64]) {
    page.numbers("points", points);
    let gives = function::compute_barycentric_weights(&numbers(points));
    page.numbers("gives", &plain(gives));
}

pub fn delta(c: &mut Chance, index: usize, page: &mut Page) {
    let length = length(c, index, &POINTS);
    let points = points(c, length);
    let weights = weights_of(c, &points);
    let desired = list(c, length);
    let band_weights = positive(c, length);
    write_delta(page, &weights, &desired, &band_weights);
}

pub fn write_delta(page: &mut Page, weights: &[f64], desired: &[f64], band_weights: &[f64]) {
    page.numbers("weights", weights);
    page.numbers("desired", desired);
    page.numbers("band_weights", band_weights);
    let delta =
        function::compute_delta(&numbers(weights), &numbers(desired), &numbers(band_weights));
    page.number("gives", delta.0);
}

pub fn abscissas(c: &mut Chance, index: usize, page: &mut Page) {
    let length = length(c, index, &POINTS);
    let delta = c.any();
    let desired = list(c, length);
    let band_weights = positive(c, length);
    write_abscissas(page, delta, &desired, &band_weights);
}

pub fn write_abscissas(page: &mut Page, delta: f64, desired: &[f64], band_weights: &[f64]) {
    page.number("delta", delta);
    page.numbers("desired", desired);
    page.numbers("band_weights", band_weights);
    let gives = function::compute_lagrange_abscisa(
        Number(delta),
        &numbers(desired),
        &numbers(band_weights),
    );
    page.numbers("gives", &plain(gives));
}

/// At nodes, beside nodes and elsewhere.
pub fn response(c: &mut Chance, index: usize, page: &mut Page) {
    let length = length(c, index, &POINTS);
    let mut points = points(c, length);
    if c.one_in(4) {
        // Equal nodes: the first one's y counts.
        let (from, to) = (c.below(length), c.below(length));
        points[to] = points[from];
    }
    let weights = weights_of(c, &points);
    let abscissas = list(c, length);
    let at: Vec<f64> = (0..8)
        .map(|_| match c.below(6) {
            0 | 1 => c.among(&points),
            2 => c.among(&points).next_up(),
            3 => c.any(),
            _ => c.within(-1.0, 1.0),
        })
        .collect();
    write_response(page, &points, &weights, &abscissas, &at);
}

pub fn write_response(
    page: &mut Page,
    points: &[f64],
    weights: &[f64],
    abscissas: &[f64],
    at: &[f64],
) {
    page.numbers("points", points);
    page.numbers("weights", weights);
    page.numbers("abscissas", abscissas);
    page.numbers("at", at);
    let (x, wk, yk) = (numbers(points), numbers(weights), numbers(abscissas));
    let gives: Vec<f64> = at
        .iter()
        .map(|&x0| function::compute_freq_response(Number(x0), &x, &wk, &yk).0)
        .collect();
    page.numbers("gives", &gives);
}
