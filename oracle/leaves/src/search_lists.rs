//! Lists for first points, subdivision, the colleague matrix, roots, pruning and the sort.

use std::f64::consts::TAU;

use oracle::chance::Chance;
use oracle::generate;
use oracle::leaves::colleague::{balanced, cosines, derivative, wanted};

use crate::ask::{Ask, Derivative, Room};
use crate::lists::{list, room, spoil_lists};

/// Case `index` of the search's leaf number `leaf`.
pub fn case(c: &mut Chance, leaf: usize, index: usize) -> (Ask, Room) {
    match leaf {
        0 => first(c, index),
        1 => subdivide(c, index),
        2 => colleague(c, index),
        3 => roots(c, index),
        4 => prune(c, index),
        _ => sort(c),
    }
}

/// Room for `most` counts, now and then one too few or more.
fn counts(c: &mut Chance, most: usize) -> usize {
    match c.below(24) {
        0 => most - 1,
        1 => 0,
        2 | 3 => most + c.between(1, 3),
        _ => most,
    }
}

/// Bands in radians as adjusted ones are, some without length or out of order; or any numbers.
fn bands_in_radians(c: &mut Chance) -> Vec<f64> {
    let mut edges: Vec<f64> = match c.below(6) {
        0 => {
            let bands = c.between(1, 8);
            list(c, 2 * bands)
        }
        _ => {
            let plan = generate::plan(c);
            let edges = plan.iter().flat_map(|band| [band.begin, band.end]);
            edges.map(|f| f * TAU).collect()
        }
    };
    let (from, to) = (c.below(edges.len()), c.below(edges.len()));
    match c.below(8) {
        0 => edges[to] = edges[from],
        1 => edges.swap(from, to),
        _ => (),
    }
    edges
}

/// Now and then no band, too many, or a begin without its end.
fn spoil_bands(c: &mut Chance, bands: &mut Vec<f64>) {
    match c.below(40) {
        0 => bands.clear(),
        1 => bands.resize(c.among(&[18, 20, 40]), 3.0),
        2 => {
            bands.pop();
        }
        _ => (),
    }
}

fn first(c: &mut Chance, index: usize) -> (Ask, Room) {
    let limits = [2, 3, 16, 17, 31, 32, 33, 63, 64, 1, 0, 65, u64::MAX];
    let functions = match limits.get(index) {
        Some(&limit) => limit,
        None if c.one_in(8) => c.among(&limits),
        None => c.between(1, 64) as u64,
    };
    let mut bands = bands_in_radians(c);
    spoil_bands(c, &mut bands);
    let mut lists = [bands];
    if c.one_in(4) {
        spoil_lists(c, &mut lists);
    }
    let [bands] = lists;
    let out = room(c, functions.min(140) as usize + 1);
    (Ask::First(bands, functions), Room { counts: 0, out })
}

/// Bands in rising x, some without length, and now and then not rising.
fn bands_in_x(c: &mut Chance) -> Vec<f64> {
    let bands = c.between(1, 8);
    let pool = [-1.0, -0.5, -0.0, 0.0, 0.25, 1.0];
    let few = c.one_in(4);
    let mut edges: Vec<f64> = (0..2 * bands)
        .map(|_| {
            if few {
                c.among(&pool)
            } else {
                c.within(-1.0, 1.0)
            }
        })
        .collect();
    edges.sort_by(|a, b| a.partial_cmp(b).expect("no NaN"));
    edges[0] = c.among(&[-1.0, edges[0]]);
    edges[2 * bands - 1] = c.among(&[1.0, edges[2 * bands - 1]]);
    if c.one_in(16) {
        let (from, to) = (c.below(edges.len()), c.below(edges.len()));
        edges.swap(from, to);
    }
    edges
}

/// Points in falling x: on the bands' ends, inside, outside; equal ones; now and then some out of order, which make backward
/// intervals.
fn subdivide(c: &mut Chance, index: usize) -> (Ask, Room) {
    let mut bands = bands_in_x(c);
    let limits = [2, 65, 1, 3, 5, 8, 16, 33, 64, 66, 0, 100];
    let count = match limits.get(index) {
        Some(&limit) => limit,
        None if c.one_in(6) => c.among(&limits),
        None => c.between(1, 65),
    };
    let (outside, few) = (c.one_in(3), c.one_in(4));
    let mut points: Vec<f64> = (0..count)
        .map(|_| {
            let at = 2 * c.below(bands.len() / 2);
            match c.below(4) {
                0 => bands[at + c.below(2)],
                1 if outside => c.within(-1.1, 1.1),
                2 if few => c.among(&[-1.0, -0.5, 0.0, -0.0, 0.25, 1.0]),
                _ => c.within(bands[at], bands[at + 1]),
            }
        })
        .collect();
    points.sort_by(|a, b| b.partial_cmp(a).expect("no NaN"));
    if !c.one_in(3) {
        points.dedup();
    }
    if points.len() > 1 && c.one_in(4) {
        let (from, to) = (c.below(points.len()), c.below(points.len()));
        points.swap(from, to);
    }
    if c.one_in(16) {
        points = list(c, count);
    }
    spoil_bands(c, &mut bands);
    let mut lists = [points, bands];
    if c.one_in(4) {
        spoil_lists(c, &mut lists);
    }
    let room = Room {
        counts: counts(c, 1),
        out: if c.one_in(24) {
            c.among(&[0, 1, 145])
        } else {
            146 + c.below(4)
        },
    };
    (Ask::Subdivide(lists), room)
}

/// Coefficients that pm-remez can be made to come by, of a proxy of this degree.
fn fed(c: &mut Chance, degree: usize) -> Derivative {
    let mut list = wanted(c, degree);
    match c.below(8) {
        // All zeros, and all but the first.
        0 => list.fill(c.among(&[0.0, -0.0])),
        1 if degree > 1 => list[1..].fill(0.0),
        2 => {
            let (from, to) = (c.below(degree), c.below(degree));
            list[to] = list[from];
        }
        _ => (),
    }
    let cosines = cosines(&list);
    Derivative {
        coefficients: derivative(&cosines),
        cosines,
    }
}

fn colleague(c: &mut Chance, index: usize) -> (Ask, Room) {
    let degree = if c.one_in(40) {
        1
    } else {
        2 + (14 + index) % 15
    };
    let mut asked = fed(c, degree);
    if c.one_in(24) {
        // pm-remez is not asked what is refused before it would be.
        let mut lists = [asked.coefficients];
        match c.below(4) {
            0 => lists[0].clear(),
            1 => lists[0].resize(c.among(&[17, 18, 64]), 1.0),
            _ => lists[0][c.below(asked.cosines.len() - 1)] = c.among(&[f64::NAN, f64::INFINITY]),
        }
        let [coefficients] = lists;
        asked.coefficients = coefficients;
    }
    let room = Room {
        counts: counts(c, 2),
        out: if c.one_in(24) {
            c.among(&[0, 1, 224])
        } else {
            225 + c.below(4)
        },
    };
    (Ask::Colleague(asked), room)
}

/// A matrix whose residual is a polynomial with roots on or beside the cells' ends, twofold ones too.
fn of_roots(c: &mut Chance) -> Vec<f64> {
    let end = |c: &mut Chance| {
        let end = c.between(0, 64) as f64 / 32.0 - 1.0;
        c.among(&[end, end, end, end.next_up(), end + 1.0 / 64.0])
    };
    let first = end(c);
    match c.below(3) {
        0 => vec![first],
        1 => vec![first + first, 1.0, -first * first, 0.0],
        _ => {
            let second = end(c);
            vec![first + second, 1.0, -first * second, 0.0]
        }
    }
}

/// Any entries where the recurrence reads them, and some elsewhere.
fn of_entries(c: &mut Chance, size: usize) -> Vec<f64> {
    let mut matrix = vec![0.0; size * size];
    let far = c.one_in(4);
    let entry = |c: &mut Chance| if far { c.any() } else { c.within(-1.0, 1.0) };
    for j in 0..size {
        matrix[j * size] = entry(c);
        if j + 1 < size {
            matrix[j * size + j + 1] = c.among(&[0.5, 0.5, 0.5, -0.5, 1.0, 0.0]);
        }
        if j > 1 {
            matrix[j * size + j - 1] = c.among(&[0.5, 0.5, 0.25, -0.5]);
        }
        if c.one_in(8) {
            matrix[j * size + c.below(size)] = entry(c);
        }
    }
    matrix
}

fn roots(c: &mut Chance, index: usize) -> (Ask, Room) {
    let degree = 2 + (14 + index) % 15;
    let mut matrix = match c.below(8) {
        0 => of_roots(c),
        1 | 2 => {
            let size = c.between(1, 15);
            of_entries(c, size)
        }
        _ => match balanced(&fed(c, degree).cosines) {
            Ok(balanced) => balanced.rows().concat(),
            Err(_) => Vec::new(),
        },
    };
    match c.below(40) {
        // Not square, or of 16 rows.
        0 => matrix.push(0.5),
        1 => matrix.resize(c.among(&[2, 8, 224, 226, 256, 400]), 0.5),
        2 if !matrix.is_empty() => {
            let at = c.below(matrix.len());
            matrix[at] = c.among(&[f64::NAN, f64::INFINITY, f64::NEG_INFINITY]);
        }
        _ => (),
    }
    let rows = matrix.len().isqrt();
    let room = Room {
        counts: counts(c, 1),
        out: room(c, rows),
    };
    (Ask::Roots(matrix), room)
}

/// The runs of a list: neighbours that are all below zero or all not.
fn runs(errors: &[f64]) -> usize {
    let turns = errors
        .windows(2)
        .filter(|pair| (pair[0] < 0.0) != (pair[1] < 0.0));
    usize::from(!errors.is_empty()) + turns.count()
}

/// Errors with ties and zeros of both signs, and a count to keep that is near the runs'.
fn prune(c: &mut Chance, index: usize) -> (Ask, Room) {
    let limits = [1, 2, 3, 4, 5, 8, 17, 33, 66, 130, 1241, 0, 1242, 1300];
    let length = match limits.get(index) {
        Some(&limit) => limit,
        None if c.one_in(100) => c.among(&[0, 1240, 1241, 1242]),
        None if c.one_in(60) => c.between(200, 1241),
        None => c.between(1, 100),
    };
    let shape = c.below(5);
    let errors: Vec<f64> = (0..length)
        .map(|j| match shape {
            0 => {
                let whole = c.between(0, 3) as f64;
                c.signed(whole)
            }
            1 => {
                let size = c.between(1, 9) as f64 / 8.0;
                let sign = if (j % 2 == 0) != c.one_in(6) {
                    1.0
                } else {
                    -1.0
                };
                sign * size
            }
            2 => c.any(),
            3 => c.among(&[0.0, -0.0, 1.0, -1.0]),
            _ => c.within(-1.0, 1.0),
        })
        .collect();
    let runs = runs(&errors);
    let keep = match c.below(8) {
        0 => runs,
        1 => runs.saturating_sub(1),
        2 => runs.saturating_sub(2),
        3 => runs + 1,
        4 => c.between(0, runs),
        5 => runs / 2,
        6 => c.among(&[0, 1, 2, 65]),
        _ => runs.min(65),
    } as u64;
    let mut lists = [errors];
    if c.one_in(8) {
        spoil_lists(c, &mut lists);
    }
    let [errors] = lists;
    let out = room(c, keep as usize);
    let keep = if c.one_in(100) {
        u64::MAX - c.below(3) as u64
    } else {
        keep
    };
    (Ask::Prune(errors, keep), Room { counts: 0, out })
}

/// Candidates with equal x and zeros of both signs; errors are any words. In rising, falling or any order.
fn sort(c: &mut Chance) -> (Ask, Room) {
    let length = match c.below(100) {
        0 => c.between(100, 1241),
        1..=30 => c.between(20, 80),
        _ => c.between(0, 20),
    };
    let ties = c.below(3);
    let mut xs: Vec<f64> = (0..length)
        .map(|_| match ties {
            0 => c.within(-1.0, 1.0),
            1 => c.between(0, 16) as f64 / 8.0 - 1.0,
            _ => c.among(&[0.0, -0.0, 1.0, -1.0, 0.5]),
        })
        .collect();
    match c.below(6) {
        0 => xs.sort_by(f64::total_cmp),
        1 => xs.sort_by(|a, b| b.total_cmp(a)),
        2 if length > 0 => xs[c.below(length)] = c.among(&[f64::INFINITY, f64::MAX, -5e-324]),
        _ => (),
    }
    let mut words: Vec<u64> = xs.iter().flat_map(|x| [x.to_bits(), c.bits()]).collect();
    if c.one_in(8) {
        words.push(c.bits());
    }
    let count = match c.below(6) {
        0 => c.between(0, length) as u64,
        1 => c.among(&[length as u64 + 1, u64::MAX]),
        _ => length as u64,
    };
    let out = words.len();
    (Ask::Sort(words, count), Room { counts: 0, out })
}
