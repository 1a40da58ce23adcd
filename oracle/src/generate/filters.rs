//! Filters that people ask for.

use std::f64::consts::PI;

use pm_remez::Symmetry;

use super::edges::{allowed_bands, edges_on_grid, grid, on_grid};
use super::{MOST_BANDS, MOST_TAPS, enough, taps, with_settings};
use crate::chance::Chance;
use crate::design::Request;
use crate::plan::{Band, Value};

/// A lowpass, highpass, bandpass, bandstop, differentiator, Hilbert transformer or several bands.
pub fn filter(c: &mut Chance) -> Request {
    match c.below(10) {
        0..=2 => gains(c, &[1.0, 0.0]),
        3 => gains(c, &[0.0, 1.0]),
        4 => gains(c, &[0.0, 1.0, 0.0]),
        5 => gains(c, &[1.0, 0.0, 1.0]),
        6 => differentiator(c),
        7 => hilbert(c),
        _ => {
            let bands = c.between(3, MOST_BANDS);
            let list: Vec<f64> = (0..bands)
                .map(|_| c.among(&[0.0, 0.0, 1.0, 1.0, 0.5, 2.0, -1.0]))
                .collect();
            gains(c, &list)
        }
    }
}

/// Bands from 0 to 0.5 with these values and gaps between them. The taps mostly suit the gaps.
fn gains(c: &mut Chance, list: &[f64]) -> Request {
    let narrow = c.within(0.05, 1.0);
    let widths: Vec<f64> = (0..2 * list.len() - 1)
        .map(|j| c.within(0.2, 1.0) * if j % 2 == 1 { narrow } else { 1.0 })
        .collect();
    let total: f64 = widths.iter().sum();
    let mut edges = vec![0.0];
    for width in &widths[..widths.len() - 1] {
        edges.push(edges[edges.len() - 1] + 0.5 * width / total);
    }
    edges.push(0.5);
    let grid = grid(c);
    let edges = edges_on_grid(edges, grid);
    let weighted = c.one_in(2);
    let bands: Vec<Band> = list
        .iter()
        .enumerate()
        .map(|(j, &gain)| Band {
            begin: edges[2 * j],
            end: edges[2 * j + 1],
            desired: Value::Constant(gain),
            weight: if weighted {
                sensible_weight(c)
            } else {
                Value::Constant(1.0)
            },
        })
        .collect();
    let symmetry = if c.one_in(6) {
        Symmetry::Odd
    } else {
        Symmetry::Even
    };
    let gap = edges[1..edges.len() - 1]
        .chunks(2)
        .map(|pair| pair[1] - pair[0])
        .fold(0.5, f64::min);
    let suited = (c.within(1.0, 5.0) / gap) as usize;
    let taps = if c.one_in(5) {
        taps(c, symmetry)
    } else {
        // Mostly odd: then the last value is free.
        let taps = suited.clamp(3, MOST_TAPS - 1);
        enough(if c.one_in(3) { taps } else { taps | 1 }, symmetry)
    };
    with_settings(c, taps, symmetry, bands)
}

pub fn sensible_weight(c: &mut Chance) -> Value {
    if c.one_in(5) {
        Value::Linear(c.plain(), c.plain())
    } else {
        Value::Constant(c.plain())
    }
}

/// Value f times 2 PI or so from 0 on; with even taps up to 0.5.
fn differentiator(c: &mut Chance) -> Request {
    let grid = grid(c);
    let taps = taps(c, Symmetry::Odd);
    let end = if taps % 2 == 0 && c.one_in(2) {
        0.5
    } else {
        on_grid(c.within(0.1, 0.49), grid)
    };
    let slope = c.among(&[1.0, 2.0, PI, 2.0 * PI, -1.0]);
    let mut bands = vec![Band {
        begin: 0.0,
        end,
        desired: Value::Linear(0.0, slope * end),
        weight: if c.one_in(2) {
            // As the error counts in proportion: more where the value is small.
            Value::Linear(c.within(5.0, 100.0), 1.0)
        } else {
            Value::Constant(1.0)
        },
    }];
    if end < 0.4 && c.one_in(2) {
        bands.push(Band {
            begin: on_grid(end + 0.04, grid),
            end: 0.49,
            desired: Value::Constant(0.0),
            weight: sensible_weight(c),
        });
    }
    if !allowed_bands(&bands) {
        bands.truncate(1);
    }
    with_settings(c, taps, Symmetry::Odd, bands)
}

/// Value 1 between a low edge and its mirror image, or 0.5 with even taps.
fn hilbert(c: &mut Chance) -> Request {
    let grid = grid(c);
    let taps = taps(c, Symmetry::Odd);
    let begin = on_grid(c.within(0.01, 0.12), grid).max(0.01);
    let end = if taps % 2 == 0 && c.one_in(2) {
        0.5
    } else {
        0.5 - begin
    };
    let bands = vec![Band {
        begin,
        end,
        desired: Value::Constant(c.among(&[1.0, -1.0])),
        weight: Value::Constant(1.0),
    }];
    with_settings(c, taps, Symmetry::Odd, bands)
}
