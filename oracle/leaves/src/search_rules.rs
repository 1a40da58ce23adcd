//! What document 01 says of first points, subdivision, the colleague matrix, roots, pruning and the sort.

use oracle::design::caught;
use oracle::leaves::{colleague, edges};
use oracle::number::{Number, numbers};
use pm_remez::function;

use crate::ask::{Derivative, Room};
use crate::rules::Outcome::Gave;
use crate::rules::{
    LISTS, MOST_BANDS, MOST_FUNCTIONS, MOST_POINTS, NOT_FINITE, Said, Told, bits, finite, needed,
    not_finite, refused,
};

// "Numbers that bound the work".
const MOST_ROWS: usize = 15;
const MOST_COEFFICIENTS: usize = 16;
const MOST_CANDIDATES: usize = 1241;
const MOST_PASSES: usize = 64;

// Refusal numbers.
const DERIVATIVE: u64 = 10;
const BALANCING: u64 = 11;
const ROOTS: u64 = 12;
const EXTREMA: u64 = 13;

fn told(counts: Vec<u64>, list: &[f64]) -> Said {
    Said {
        outcome: Gave(Told {
            counts,
            words: bits(list),
        }),
        difference: None,
    }
}

fn differs(said: Said, class: &'static str) -> Said {
    Said {
        difference: Some(class),
        ..said
    }
}

fn pairs(list: &[f64]) -> Vec<(f64, f64)> {
    list.chunks_exact(2)
        .map(|pair| (pair[0], pair[1]))
        .collect()
}

/// A begin without an end makes the list's length no band count.
fn are_bands(list: &[f64]) -> bool {
    list.len() % 2 == 0 && (1..=MOST_BANDS).contains(&(list.len() / 2))
}

pub fn first(bands: &[f64], functions: u64, room: usize) -> Said {
    let within = (1..=MOST_FUNCTIONS as u64).contains(&functions);
    if !are_bands(bands) || !within || (room as u64) <= functions {
        return refused(LISTS);
    }
    if !finite(bands) {
        return refused(NOT_FINITE);
    }
    let points = |min| edges::first_points(&pairs(bands), functions as usize, min);
    let said = needed(points(edges::second_on_tie));
    // A point is the band's end where it equals it.
    if said.difference.is_none() && said.outcome != needed(points(f64::min)).outcome {
        return differs(
            said,
            "of two zeros pm-remez takes the one that the host's `min` does",
        );
    }
    said
}

pub fn subdivide(points: &[f64], bands: &[f64], room: Room) -> Said {
    let most = 2 * (MOST_POINTS + MOST_BANDS);
    let sized = are_bands(bands) && (1..=MOST_POINTS).contains(&points.len());
    if room.counts < 1 || room.out < most || !sized {
        return refused(LISTS);
    }
    if !finite(points) || !finite(bands) {
        return refused(NOT_FINITE);
    }
    let bands: Vec<_> = pairs(bands)
        .iter()
        .map(|&(begin, end)| (Number(begin), Number(end)))
        .collect();
    let cut = function::subdivide(&numbers(points), &bands);
    let list: Vec<f64> = cut.iter().flat_map(|i| [i.0.0, i.1.0]).collect();
    told(vec![cut.len() as u64], &list)
}

/// The first column before balancing; every other entry is 1/2 or zero.
fn first_column(coefficients: &[f64]) -> Vec<f64> {
    let s = coefficients.len() - 1;
    let scale = -0.5 / coefficients[s];
    (0..s)
        .map(|j| coefficients[s - 1 - j] * scale + if j == 1 { 0.5 } else { 0.0 })
        .collect()
}

pub fn colleague(derivative: &Derivative, room: Room) -> Said {
    let coefficients = &derivative.coefficients;
    let sized = (1..=MOST_COEFFICIENTS).contains(&coefficients.len());
    if room.counts < 2 || room.out < MOST_ROWS * MOST_ROWS || !sized {
        return refused(LISTS);
    }
    if !finite(coefficients) {
        return refused(NOT_FINITE);
    }
    let Some(leading) = coefficients.iter().rposition(|&c| c != 0.0) else {
        // pm-remez has an error of its own here.
        assert!(
            colleague::balanced(&derivative.cosines).is_err_and(|why| why == "ProxyDerivativeZero")
        );
        return refused(DERIVATIVE);
    };
    let balanced = colleague::balanced(&derivative.cosines);
    if leading == 0 {
        // "a matrix of no rows, pass count 0, no roots and no refusal 15 (the Rust panics)"
        assert!(balanced.is_err_and(|why| why == "panic"));
        return differs(
            told(vec![0, 0], &[]),
            "a derivative of one coefficient: pm-remez panics",
        );
    }
    let Ok(balanced) = balanced else {
        panic!("pm-remez gives no matrix of {coefficients:?}");
    };
    if !finite(&first_column(&coefficients[..=leading])) {
        return not_finite();
    }
    if balanced.passes > MOST_PASSES {
        return differs(refused(BALANCING), "a 65th pass: pm-remez makes it");
    }
    let list = balanced.rows().concat();
    if finite(&list) {
        told(vec![leading as u64, balanced.passes as u64], &list)
    } else {
        not_finite()
    }
}

pub fn roots(matrix: &[f64], room: Room) -> Said {
    let Some(size) = (0..=MOST_ROWS).find(|s| s * s == matrix.len()) else {
        return refused(LISTS);
    };
    if room.counts < 1 || room.out < size {
        return refused(LISTS);
    }
    if !finite(matrix) {
        return refused(NOT_FINITE);
    }
    let rows: Vec<Vec<f64>> = matrix
        .chunks_exact(size.max(1))
        .map(<[f64]>::to_vec)
        .collect();
    match colleague::roots_of(&rows) {
        Ok(found) => told(vec![found.len() as u64], &found),
        Err(_) => refused(ROOTS),
    }
}

pub fn prune(errors: &[f64], keep: u64, room: usize) -> Said {
    if !(1..=MOST_CANDIDATES).contains(&errors.len()) || (room as u64) < keep {
        return refused(LISTS);
    }
    if !finite(errors) {
        return refused(NOT_FINITE);
    }
    match caught(|| function::prune_extrema_candidates(&numbers(errors), keep as usize)) {
        Ok(kept) => Said {
            outcome: Gave(Told {
                counts: vec![],
                words: kept.iter().map(|&place| place as u64).collect(),
            }),
            difference: None,
        },
        Err("NotEnoughExtrema") => refused(EXTREMA),
        Err(why) => panic!("pruning {errors:?} to {keep}: {why}"),
    }
}

/// "Candidates are sorted stably by x; the Rust's sort is unstable."
pub fn sort(words: &[u64], count: u64) -> Said {
    let mut candidates: Vec<[u64; 2]> = words.chunks_exact(2).map(|c| [c[0], c[1]]).collect();
    let count = (count as usize).min(candidates.len());
    let by_x = |a: &[u64; 2], b: &[u64; 2]| {
        let order = f64::from_bits(a[0]).partial_cmp(&f64::from_bits(b[0]));
        order.expect("no x is a NaN")
    };
    let mut unstable = candidates.clone();
    unstable[..count].sort_unstable_by(by_x);
    candidates[..count].sort_by(by_x);
    let mut sorted = candidates.concat();
    sorted.extend(&words[sorted.len()..]);
    Said {
        outcome: Gave(Told {
            counts: vec![],
            words: sorted,
        }),
        difference: (unstable != candidates).then_some("equal x: pm-remez's sort is unstable"),
    }
}
