//! Lists to compare on: case `index` of a leaf under a seed is a pure function of the three.
//!
//! Lengths stand at every limit and beyond it; numbers are zeros of both signs, ties, far ends, now and then not finite; plans
//! are whole or damaged; outputs are as long as they must be, longer, or one too short.

use std::f64::consts::PI;

use oracle::chance::Chance;
use oracle::generate;
use oracle::number::{numbers, plain};
use pm_remez::{Symmetry, function};

use crate::ask::{Ask, Kind, LEAVES, Parts, Room};
use crate::search_lists;

/// The limits, what lies beyond them, and where the stride of the weights changes.
const LENGTHS: [usize; 24] = [
    2, 16, 17, 31, 32, 33, 64, 65, 66, 0, 1, 3, 15, 18, 30, 46, 47, 48, 61, 62, 63, 67, 100, 128,
];

fn length(c: &mut Chance, index: usize) -> usize {
    match LENGTHS.get(index) {
        Some(&limit) => limit,
        None if c.one_in(3) => c.among(&LENGTHS),
        None => c.between(1, 65),
    }
}

pub fn list(c: &mut Chance, length: usize) -> Vec<f64> {
    let shape = c.below(8);
    let pool = [c.common(), c.common(), c.any()];
    (0..length)
        .map(|_| match shape {
            // Ties.
            0 | 1 => c.among(&pool),
            2 => c.any(),
            _ => c.common(),
        })
        .collect()
}

fn positive(c: &mut Chance, length: usize) -> Vec<f64> {
    let far = c.one_in(6);
    let number = |c: &mut Chance| {
        if far && c.one_in(4) {
            c.extreme()
        } else {
            c.plain()
        }
    };
    (0..length).map(|_| number(c)).collect()
}

/// Falling points as an exchange has them, points close together, or any numbers.
fn points(c: &mut Chance, length: usize) -> Vec<f64> {
    let mut points: Vec<f64> = match c.below(6) {
        0 => return list(c, length),
        1 => {
            let (middle, about) = (c.within(-0.9, 0.9), c.power(-40, -4));
            (0..length)
                .map(|_| middle + about * c.within(-1.0, 1.0))
                .collect()
        }
        2 => (0..length).map(|_| c.within(-1.0, 1.0)).collect(),
        _ => (0..length)
            .map(|j| (PI * (j as f64 + 0.8 * c.unit()) / length as f64).cos())
            .collect(),
    };
    points.sort_by(|a, b| b.total_cmp(a));
    if length > 1 && c.one_in(8) {
        // Equal nodes.
        let (from, to) = (c.below(length), c.below(length));
        points[to] = points[from];
    }
    points
}

/// The weights of the points where they have some, or other numbers.
fn weights(c: &mut Chance, points: &[f64]) -> Vec<f64> {
    if points.len() < 2 || c.one_in(3) {
        return list(c, points.len());
    }
    let weights = plain(function::compute_barycentric_weights(&numbers(points)));
    if weights.iter().all(|w| w.is_finite()) || c.one_in(8) {
        weights
    } else {
        list(c, points.len())
    }
}

/// A place: a node, beside a node, or any.
fn place(c: &mut Chance, points: &[f64]) -> f64 {
    match c.below(6) {
        0 | 1 if !points.is_empty() => c.among(points),
        2 if !points.is_empty() => c.among(points).next_up(),
        3 => c.any(),
        _ => c.within(-1.0, 1.0),
    }
}

const WRONG: [f64; 4] = [
    f64::NAN,
    f64::INFINITY,
    f64::NEG_INFINITY,
    f64::from_bits(0xfff0_0000_0000_0001),
];

/// Now and then a number that is not finite.
fn spoil(c: &mut Chance, number: &mut f64) {
    if c.one_in(24) {
        *number = c.among(&WRONG);
    }
}

/// Now and then one list longer or shorter, and now and then a number that is not finite.
pub fn spoil_lists(c: &mut Chance, lists: &mut [Vec<f64>]) {
    if c.one_in(16) {
        let which = c.below(lists.len());
        if c.one_in(2) {
            lists[which].pop();
        } else {
            lists[which].push(1.0);
        }
    }
    if c.one_in(16) {
        let which = c.below(lists.len());
        let length = lists[which].len();
        if length > 0 {
            let any = c.below(length);
            let at = c.among(&[0, length - 1, any]);
            lists[which][at] = c.among(&WRONG);
        }
    }
}

/// The length of an output that must have `most` places.
pub fn room(c: &mut Chance, most: usize) -> usize {
    match c.below(12) {
        0 => most.saturating_sub(1),
        1 => c.among(&[0, 1, most / 2]),
        2..=4 => most + c.between(1, 8),
        5 => 140,
        _ => most,
    }
}

fn kind(c: &mut Chance) -> Kind {
    Kind {
        symmetry: c.below(2) as u64,
        odd: c.below(2) as u64,
    }
}

fn spoiled(c: &mut Chance, kind: Kind) -> Kind {
    match c.below(40) {
        0 => Kind {
            symmetry: c.among(&[2, 255, u64::MAX]),
            ..kind
        },
        // Any number but 0 is odd.
        1 => Kind {
            odd: c.among(&[2, 1 << 63, u64::MAX]),
            ..kind
        },
        _ => kind,
    }
}

fn parts(c: &mut Chance) -> Parts {
    let mut bands = generate::plan(c);
    let last = bands.len() - 1;
    // Outer bands at the singular points, some so short that adjustment leaves little of them or nothing.
    let edge = 0.5 - 1e-4;
    if bands[0].end > 1e-3 && c.one_in(4) {
        bands[0].begin = 0.0;
        bands[0].end = c.among(&[5e-5, 1e-4, 1e-4f64.next_up(), 1e-4f64.next_down(), 2e-4]);
    }
    if last > 0 && bands[last - 1].end < 0.4998 && c.one_in(4) {
        bands[last].begin = c.among(&[0.49995, edge, edge.next_up(), edge.next_down(), 0.4999]);
        bands[last].end = 0.5;
    }
    if c.one_in(3) {
        bands[0].begin = c.among(&[0.0, 0.0, 0.0, -0.0]);
    }
    if c.one_in(3) {
        bands[last].end = 0.5;
    }
    let mut parts = Parts {
        kinds: vec![],
        numbers: vec![],
    };
    let far = c.one_in(8);
    for band in &bands {
        for value in [band.desired, band.weight] {
            parts.kinds.push(u64::from(value.kind()));
        }
        parts.numbers.extend([band.begin, band.end]);
        for value in [band.desired, band.weight] {
            let (v0, v1) = value.ends();
            // A constant's second number is not looked at.
            let v1 = if value.kind() == 0 && c.one_in(8) {
                c.among(&WRONG)
            } else {
                v1
            };
            parts.numbers.extend([v0, v1]);
        }
        if far {
            // Values whose difference is not finite, weights from the far ends.
            let values = parts.numbers.len() - 4;
            for j in 0..4 {
                let number = c.extreme();
                if c.one_in(2) {
                    parts.numbers[values + j] = if j < 2 { c.signed(number) } else { number };
                }
            }
        }
    }
    if c.one_in(6) {
        damage(c, &mut parts);
    }
    parts
}

fn damage(c: &mut Chance, parts: &mut Parts) {
    let band = c.below(parts.kinds.len() / 2);
    let at = 6 * band;
    match c.below(12) {
        // Out of order, touching, of no length.
        0 => parts.numbers.swap(at, at + 1),
        1 if at > 0 => parts.numbers[at] = parts.numbers[at - 5],
        1 => parts.numbers[at + 1] = parts.numbers[at],
        2 if at > 0 => parts.numbers.swap(at - 6, at),
        2 => parts.numbers[at] = -f64::from_bits(1),
        3 => parts.numbers[at + c.below(2)] = c.among(&WRONG),
        4 => parts.numbers[at + 1] = c.among(&[0.5f64.next_up(), 1.0, -0.5]),
        // Weights.
        5 => parts.numbers[at + 4] = c.among(&[0.0, -0.0, -1.0]),
        6 => {
            parts.kinds[2 * band + 1] = 1;
            parts.numbers[at + 5] = c.among(&[0.0, -0.0, -1.0, f64::INFINITY]);
        }
        7 => parts.numbers[at + 2 + c.below(4)] = c.among(&WRONG),
        // The lists.
        8 => parts.kinds[2 * band + c.below(2)] = c.among(&[2, 256, u64::MAX]),
        9 => {
            parts.numbers.pop();
        }
        10 => {
            parts.kinds.push(0);
            if c.one_in(2) {
                parts.numbers.extend([0.25; 3]);
            }
        }
        _ => {
            // No band, or a ninth.
            let bands = c.among(&[0, 9, 40]);
            parts.kinds = vec![0; 2 * bands];
            let number = |j: usize| (j / 6) as f64 / 100.0 + 0.004 * (j % 6) as f64;
            parts.numbers = (0..6 * bands).map(number).collect();
        }
    }
}

/// A frequency in cycles per sample: on, beside and between the edges.
fn cycles(c: &mut Chance, parts: &Parts) -> f64 {
    let bands = parts.numbers.len() / 6;
    let mut f = match c.below(6) {
        0..=2 if bands > 0 => {
            let edge = parts.numbers[6 * c.below(bands) + c.below(2)];
            c.among(&[edge, edge.next_up(), edge.next_down()])
        }
        3 => c.any(),
        _ => c.within(0.0, 0.5),
    };
    spoil(c, &mut f);
    f
}

/// In radians: at the ends of the angles' domains and beyond them too.
fn radians(c: &mut Chance, parts: &Parts) -> f64 {
    let mut f = match c.below(12) {
        0 => c.among(&[0.0, -0.0, PI, PI.next_up(), PI.next_down()]),
        1 => c.among(&[3.25, 3.25f64.next_up(), 6.5, 6.5f64.next_up(), -1e-300]),
        2 => c.power(-60, 1),
        3..=5 => cycles(c, parts) * (2.0 * PI),
        6 => c.any(),
        _ => c.within(0.0, PI),
    };
    spoil(c, &mut f);
    f
}

fn taps(c: &mut Chance, index: usize) -> (Ask, usize) {
    let symmetry = [Symmetry::Even, Symmetry::Odd][index % 2];
    let taps = match c.below(12) {
        // At the ends of the range and beyond them.
        0 => c.among(&[0, 1, 2, 3, 4, 5, 6, 7, 8]),
        1 => c.among(&[126, 127, 128, 129, 130, 131]),
        _ => generate::taps(c, symmetry),
    };
    let functions = taps / 2 + usize::from(symmetry == Symmetry::Even && taps % 2 == 1);
    let mut lists = [list(c, functions)];
    spoil_lists(c, &mut lists);
    let [list] = lists;
    let room = room(c, taps);
    let number = if c.one_in(40) {
        c.among(&[2, 3, u64::MAX])
    } else {
        u64::from(symmetry == Symmetry::Odd)
    };
    let taps = if c.one_in(60) {
        u64::MAX - c.below(3) as u64
    } else {
        taps as u64
    };
    (Ask::Taps(list, taps, number), room)
}

/// Case `index` of a leaf: what is asked, and how long the outputs are.
pub fn case(seed: u64, leaf: usize, index: usize) -> (Ask, Room) {
    let c = &mut Chance::new(seed, LEAVES[leaf], index as u64);
    if leaf < FIRST_SEARCH {
        let (ask, out) = of_arithmetic(c, leaf, index);
        (ask, Room { counts: 0, out })
    } else {
        search_lists::case(c, leaf - FIRST_SEARCH, index)
    }
}

/// The leaves from this one on are those of the search.
const FIRST_SEARCH: usize = 14;

fn of_arithmetic(c: &mut Chance, leaf: usize, index: usize) -> (Ask, usize) {
    match leaf {
        0 => {
            let length = length(c, index);
            let mut lists = [points(c, length)];
            spoil_lists(c, &mut lists);
            let [x] = lists;
            let room = room(c, x.len());
            (Ask::Weights(x), room)
        }
        1 => {
            let length = length(c, index);
            let x = points(c, length);
            let mut lists = [weights(c, &x), list(c, length), positive(c, length)];
            spoil_lists(c, &mut lists);
            (Ask::Delta(lists), room(c, 1))
        }
        2 => {
            let length = length(c, index);
            let mut delta = c.any();
            spoil(c, &mut delta);
            let mut lists = [list(c, length), positive(c, length)];
            if c.one_in(16) {
                lists[1] = list(c, length);
            }
            spoil_lists(c, &mut lists);
            let room = room(c, lists[0].len());
            (Ask::Abscissas(delta, lists), room)
        }
        3 => {
            let length = length(c, index);
            let x = points(c, length);
            let mut at = place(c, &x);
            spoil(c, &mut at);
            let mut lists = [x.clone(), weights(c, &x), list(c, length)];
            spoil_lists(c, &mut lists);
            (Ask::Response(at, lists), room(c, 1))
        }
        4 => {
            let length = length(c, index);
            let x = points(c, length);
            let places = if c.one_in(6) {
                c.among(&LENGTHS)
            } else {
                c.between(1, 20)
            };
            let at = (0..places).map(|_| place(c, &x)).collect();
            let mut lists = [x.clone(), weights(c, &x), list(c, length)];
            spoil_lists(c, &mut lists);
            let [x, w, y] = lists;
            let mut lists = [at];
            if c.one_in(4) {
                spoil_lists(c, &mut lists);
            }
            let [at] = lists;
            let room = room(c, at.len());
            (Ask::Responses([at, x, w, y]), room)
        }
        5 => {
            let degree = match c.below(8) {
                0 => c.among(&[0, 1, 17, 18, 64, u64::MAX, u64::MAX - 1]),
                _ => 2 + (index % 15) as u64,
            };
            let room = room(c, degree.min(140) as usize + 1);
            (Ask::Nodes(degree), room)
        }
        6 => {
            let length = length(c, index);
            let mut lists = [list(c, length)];
            spoil_lists(c, &mut lists);
            let [values] = lists;
            let room = room(c, values.len());
            (Ask::Coefficients(values), room)
        }
        7 => taps(c, index),
        8 | 9 => {
            let parts = parts(c);
            let f = cycles(c, &parts);
            let room = room(c, 1);
            if leaf == 8 {
                (Ask::Desired(parts, f), room)
            } else {
                (Ask::Weight(parts, f), room)
            }
        }
        10 => {
            let (parts, kind) = (parts(c), kind(c));
            (Ask::CheckResponse(parts, spoiled(c, kind)), 0)
        }
        11 => {
            let (parts, kind) = (parts(c), kind(c));
            let room = room(c, parts.kinds.len());
            (Ask::AdjustBands(parts, spoiled(c, kind)), room)
        }
        _ => {
            let (parts, kind) = (parts(c), kind(c));
            let kind = spoiled(c, kind);
            let f = radians(c, &parts);
            let room = room(c, 1);
            if leaf == 12 {
                (Ask::AdjustDesired(parts, kind, f), room)
            } else {
                (Ask::AdjustWeights(parts, kind, f), room)
            }
        }
    }
}
