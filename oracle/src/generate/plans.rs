//! Plans with any edges, values and weights.

use super::MOST_BANDS;
use super::edges::{edges_on_grid, grid, rising};
use super::filters::sensible_weight;
use crate::chance::Chance;
use crate::plan::{Band, Value};

/// 1 to 8 bands with any edges, values and weights.
pub fn plan(c: &mut Chance) -> Vec<Band> {
    let count = match c.below(4) {
        0 => 1,
        1 => c.among(&[2, 8]),
        _ => c.between(1, MOST_BANDS),
    };
    let mut edges: Vec<f64> = (0..2 * count).map(|_| c.within(0.0, 0.5)).collect();
    edges.sort_by(f64::total_cmp);
    let grid = grid(c);
    edges = edges_on_grid(edges, grid);
    if c.one_in(2) {
        edges[0] = 0.0;
    }
    if c.one_in(2) {
        edges[2 * count - 1] = 0.5;
    }
    if c.one_in(5) {
        narrowed(c, &mut edges);
    }
    if c.one_in(30) {
        edges[0] = 0.0;
        edges[1] = c.among(&[5e-5, 1e-4, 1.5e-4, f64::from_bits(1)]);
    }
    if c.one_in(30) {
        edges[2 * count - 2] = c.among(&[0.49995, 0.4999, 0.5 - 1e-4, 0.49985]);
        edges[2 * count - 1] = 0.5;
    }
    if !rising(&edges) {
        // Equal parts in place of edges that met.
        let parts = 4 * count;
        edges = (0..2 * count)
            .map(|j| (2 * j + 1) as f64 / (2 * parts) as f64)
            .collect();
    }
    let weights = c.below(4);
    edges
        .chunks(2)
        .map(|edge| Band {
            begin: edge[0],
            end: edge[1],
            desired: wild_value(c),
            weight: match weights {
                0 => Value::Constant(1.0),
                1 => Value::Linear(c.plain(), c.plain()),
                _ => sensible_weight(c),
            },
        })
        .collect()
}

/// Takes one band's end down to just above its begin.
fn narrowed(c: &mut Chance, edges: &mut [f64]) {
    let band = c.below(edges.len() / 2);
    let begin = edges[2 * band];
    edges[2 * band + 1] = match c.below(4) {
        0 => begin.next_up(),
        1 => begin + 1e-9,
        2 => begin + 1e-6,
        _ => begin + 1e-4,
    }
    .min(0.5);
}

fn wild_value(c: &mut Chance) -> Value {
    let number = |c: &mut Chance| match c.below(4) {
        0 => 0.0,
        1 => 1.0,
        2 => {
            let plain = c.plain();
            c.signed(plain)
        }
        _ => c.within(-1.0, 1.0),
    };
    if c.one_in(2) {
        Value::Constant(number(c))
    } else {
        Value::Linear(number(c), number(c))
    }
}

/// Numbers from the far ends in some bands' weights or values.
pub fn extremes(c: &mut Chance, bands: &mut [Band]) {
    let which = c.below(3);
    let far = c.extreme();
    for band in bands {
        if which != 1 {
            band.weight = match c.below(3) {
                0 => band.weight,
                1 => Value::Constant(far),
                _ => Value::Linear(far, c.extreme()),
            };
        }
        if which != 0 {
            band.desired = match c.below(3) {
                0 => band.desired,
                1 => Value::Constant(c.signed(far)),
                _ => {
                    let other = c.extreme();
                    Value::Linear(far, c.signed(other))
                }
            };
        }
    }
}
