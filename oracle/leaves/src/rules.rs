//! What document 01 says that a leaf gives: its refusals in their order, and else the numbers of pm-remez. Written from the
//! document alone.

use oracle::design::caught;
use oracle::number::{Number, numbers, plain};
use oracle::plan::{self, Band, Value};
use pm_remez::error::Error;
use pm_remez::{Symmetry, function};

use crate::ask::{Ask, Kind, Parts, Room};
use crate::search_rules;

/// What is written: counts where a leaf has them, and the words of its numbers.
#[derive(Debug, Clone, Default, PartialEq)]
pub struct Told {
    pub counts: Vec<u64>,
    pub words: Vec<u64>,
}

/// Numbers, or the number of a refusal.
#[derive(Debug, Clone, PartialEq)]
pub enum Outcome {
    Gave(Told),
    Refused(u64),
}
use Outcome::{Gave, Refused};

/// What document 01 says, and the class of difference (docs/DIFFERENCES.md) where pm-remez does something else.
pub struct Said {
    pub outcome: Outcome,
    pub difference: Option<&'static str>,
}

// "Numbers that bound the work".
pub const MOST_POINTS: usize = 65;
const MOST_VALUES: usize = 64;
pub const MOST_FUNCTIONS: usize = 64;
const MOST_TAPS: u64 = 128;
pub const MOST_BANDS: usize = 8;

// Refusal numbers.
const REQUEST: u64 = 5;
const BANDS: u64 = 6;
const RESPONSE: u64 = 7;
const EDGES: u64 = 8;
pub const NOT_FINITE: u64 = 9;
pub const LISTS: u64 = 15;

pub fn finite(list: &[f64]) -> bool {
    list.iter().all(|x| x.is_finite())
}

pub fn refused(number: u64) -> Said {
    Said {
        outcome: Refused(number),
        difference: None,
    }
}

pub fn bits(list: &[f64]) -> Vec<u64> {
    list.iter().map(|x| x.to_bits()).collect()
}

/// Numbers alone.
fn gave(list: &[f64]) -> Outcome {
    Gave(Told {
        counts: vec![],
        words: bits(list),
    })
}

/// 9: the Rust goes on with a number that is not finite.
pub fn not_finite() -> Said {
    Said {
        outcome: Refused(NOT_FINITE),
        difference: Some("pm-remez goes on with a number that is not finite"),
    }
}

/// 9: "each finished .. weight, delta, abscissa .. tap".
pub fn needed(list: Vec<f64>) -> Said {
    if finite(&list) {
        Said {
            outcome: gave(&list),
            difference: None,
        }
    } else {
        not_finite()
    }
}

/// Lists of one length, "empty, unequal or over the limits" refused.
fn alike(lists: &[Vec<f64>]) -> bool {
    let length = lists[0].len();
    (1..=MOST_POINTS).contains(&length) && lists.iter().all(|list| list.len() == length)
}

/// "taps / 2, plus 1 for even symmetry with odd taps"
fn functions(taps: u64, symmetry: Symmetry) -> u64 {
    match symmetry {
        Symmetry::Even if taps % 2 == 1 => taps / 2 + 1,
        _ => taps / 2,
    }
}

/// "Taps up to 128, and at least 3 (even symmetry, odd taps), 4 (even taps), 7 (odd symmetry, odd taps)."
fn taps_in_range(taps: u64, symmetry: Symmetry) -> bool {
    let least = match (taps % 2 == 1, symmetry) {
        (true, Symmetry::Even) => 3,
        (true, Symmetry::Odd) => 7,
        (false, _) => 4,
    };
    least <= taps && taps <= MOST_TAPS
}

/// A symmetry byte: 0 even, 1 odd.
fn symmetry(number: u64) -> Option<Symmetry> {
    match number {
        0 => Some(Symmetry::Even),
        1 => Some(Symmetry::Odd),
        _ => None,
    }
}

/// The bands of a plan's parts, where these are whole: a kind byte is 0 or 1.
fn bands_of(parts: &Parts) -> Option<Vec<Band>> {
    let count = parts.kinds.len() / 2;
    if parts.kinds.len() != 2 * count || parts.numbers.len() != 6 * count || count > MOST_BANDS {
        return None;
    }
    let value = |kind: u64, v: &[f64]| match kind {
        0 => Some(Value::Constant(v[0])),
        1 => Some(Value::Linear(v[0], v[1])),
        _ => None,
    };
    let band = |(k, v): (&[u64], &[f64])| {
        Some(Band {
            begin: v[0],
            end: v[1],
            desired: value(k[0], &v[2..4])?,
            weight: value(k[1], &v[4..6])?,
        })
    };
    let parts = parts.kinds.chunks(2).zip(parts.numbers.chunks(6));
    parts.map(band).collect()
}

/// "A band has begin and end .. 0 <= begin < end <= 0.5, each end below the next begin. .. all finite, weights positive."
fn allowed(bands: &[Band]) -> bool {
    let each = bands.iter().all(|band| {
        let ((d0, d1), (w0, w1)) = (band.desired.ends(), band.weight.ends());
        let placed = 0.0 <= band.begin && band.begin < band.end && band.end <= 0.5;
        placed && finite(&[d0, d1, w0, w1]) && w0 > 0.0 && w1 > 0.0
    });
    (1..=MOST_BANDS).contains(&bands.len())
        && each
        && bands.windows(2).all(|pair| pair[0].end < pair[1].begin)
}

fn plan(parts: &Parts) -> Option<Vec<Band>> {
    bands_of(parts).filter(|bands| allowed(bands))
}

pub fn says(ask: &Ask, lengths: Room) -> Said {
    let room = lengths.out;
    match ask {
        Ask::Weights(x) => {
            if !(2..=MOST_POINTS).contains(&x.len()) || room < x.len() {
                return refused(LISTS);
            }
            if !finite(x) {
                return refused(NOT_FINITE);
            }
            needed(plain(function::compute_barycentric_weights(&numbers(x))))
        }
        Ask::Delta(lists) => {
            if !alike(lists) || room < 1 {
                return refused(LISTS);
            }
            if !lists.iter().all(|list| finite(list)) {
                return refused(NOT_FINITE);
            }
            let [w, d, v] = lists;
            needed(vec![
                function::compute_delta(&numbers(w), &numbers(d), &numbers(v)).0,
            ])
        }
        Ask::Abscissas(delta, lists) => {
            if !alike(lists) || room < lists[0].len() {
                return refused(LISTS);
            }
            if !delta.is_finite() || !lists.iter().all(|list| finite(list)) {
                return refused(NOT_FINITE);
            }
            let [d, v] = lists;
            needed(plain(function::compute_lagrange_abscisa(
                Number(*delta),
                &numbers(d),
                &numbers(v),
            )))
        }
        Ask::Response(at, lists) => {
            if !alike(lists) || room < 1 {
                return refused(LISTS);
            }
            responses(&[*at], lists)
        }
        Ask::Responses([at, x, w, y]) => {
            let lists = [x.clone(), w.clone(), y.clone()];
            if !(1..=MOST_POINTS).contains(&at.len()) || !alike(&lists) || room < at.len() {
                return refused(LISTS);
            }
            responses(at, &lists)
        }
        Ask::Nodes(degree) => {
            if room as u64 <= *degree {
                return refused(LISTS);
            }
            if !(2..=16).contains(degree) {
                return refused(REQUEST);
            }
            needed(plain(function::chebyshev_nodes(*degree as usize)))
        }
        Ask::Coefficients(values) => {
            if !(2..=MOST_VALUES).contains(&values.len()) || room < values.len() {
                return refused(LISTS);
            }
            if !finite(values) {
                return refused(NOT_FINITE);
            }
            needed(plain(function::compute_cheby_coefficients(&numbers(
                values,
            ))))
        }
        Ask::Taps(list, taps, number) => {
            // Without a symmetry there is no right length.
            let Some(symmetry) = symmetry(*number) else {
                return refused(REQUEST);
            };
            let fits = list.len() as u64 == functions(*taps, symmetry);
            if !fits || list.is_empty() || list.len() > MOST_FUNCTIONS || (room as u64) < *taps {
                return refused(LISTS);
            }
            if !taps_in_range(*taps, symmetry) {
                return refused(REQUEST);
            }
            if !finite(list) {
                return refused(NOT_FINITE);
            }
            let taps = *taps as usize;
            needed(plain(function::h_from_ak(
                &numbers(list),
                taps,
                symmetry,
                taps % 2 == 1,
            )))
        }
        Ask::Desired(parts, f) => looked_up(parts, |band| band.desired, *f, room),
        Ask::Weight(parts, f) => looked_up(parts, |band| band.weight, *f, room),
        Ask::CheckResponse(parts, kind) => check_response(parts, *kind),
        Ask::AdjustBands(parts, kind) => adjust_bands(parts, *kind, room),
        Ask::AdjustDesired(parts, kind, f) => adjusted(parts, *kind, *f, room, true),
        Ask::AdjustWeights(parts, kind, f) => adjusted(parts, *kind, *f, room, false),
        Ask::First(bands, functions) => search_rules::first(bands, *functions, room),
        Ask::Subdivide([points, bands]) => search_rules::subdivide(points, bands, lengths),
        Ask::Colleague(derivative) => search_rules::colleague(derivative, lengths),
        Ask::Roots(matrix) => search_rules::roots(matrix, lengths),
        Ask::Prune(errors, keep) => search_rules::prune(errors, *keep, room),
        Ask::Sort(words, count) => search_rules::sort(words, *count),
    }
}

fn responses(at: &[f64], lists: &[Vec<f64>; 3]) -> Said {
    if !finite(at) || !lists.iter().all(|list| finite(list)) {
        return refused(NOT_FINITE);
    }
    let [x, w, y] = lists.each_ref().map(|list| numbers(list));
    let one = |&x0: &f64| function::compute_freq_response(Number(x0), &x, &w, &y).0;
    needed(at.iter().map(one).collect())
}

fn looked_up(parts: &Parts, which: fn(&Band) -> Value, f: f64, room: usize) -> Said {
    if room < 1 {
        return refused(LISTS);
    }
    let Some(bands) = plan(parts) else {
        return refused(BANDS);
    };
    if !f.is_finite() {
        return refused(NOT_FINITE);
    }
    needed(vec![plan::lookup(&bands, which, f)])
}

fn check_response(parts: &Parts, kind: Kind) -> Said {
    let Some(symmetry) = symmetry(kind.symmetry) else {
        return refused(REQUEST);
    };
    let Some(bands) = plan(parts) else {
        return refused(BANDS);
    };
    let edges = plan::edges(&bands).expect("01's rules hold");
    match function::check_response(&edges, plan::desired(&bands), symmetry, kind.odd != 0) {
        Ok(()) => needed(vec![]),
        Err(Error::InvalidResponse(_)) => refused(RESPONSE),
        Err(_) => unreachable!("check_response has no other error"),
    }
}

fn adjust_bands(parts: &Parts, kind: Kind, room: usize) -> Said {
    // Room for as many bands as the plan has, whatever is left of them.
    if bands_of(parts).is_some_and(|bands| room < 2 * bands.len()) {
        return refused(LISTS);
    }
    let Some(symmetry) = symmetry(kind.symmetry) else {
        return refused(REQUEST);
    };
    let Some(bands) = plan(parts) else {
        return refused(BANDS);
    };
    let edges = plan::edges(&bands).expect("01's rules hold");
    let Ok(left) = caught(|| Ok(function::adjust_bands(&edges, symmetry, kind.odd != 0))) else {
        return Said {
            outcome: Refused(EDGES),
            difference: Some("no band is left: pm-remez panics"),
        };
    };
    // "A band left without positive length is removed (the Rust's Band::new may differ)."
    let long = left.iter().filter(|band| band.begin().0 < band.end().0);
    let pairs: Vec<f64> = long.flat_map(|b| [b.begin().0, b.end().0]).collect();
    let difference = if left.is_empty() {
        Some("no band is left: pm-remez answers none")
    } else if pairs.len() < 2 * left.len() {
        Some("a band of zero length: pm-remez keeps it")
    } else {
        None
    };
    let outcome = if pairs.is_empty() {
        Refused(EDGES)
    } else {
        gave(&pairs)
    };
    Said {
        outcome,
        difference,
    }
}

fn adjusted(parts: &Parts, kind: Kind, f: f64, room: usize, desired: bool) -> Said {
    if room < 1 {
        return refused(LISTS);
    }
    let Some(symmetry) = symmetry(kind.symmetry) else {
        return refused(REQUEST);
    };
    let Some(bands) = plan(parts) else {
        return refused(BANDS);
    };
    if !f.is_finite() {
        return refused(NOT_FINITE);
    }
    // Outside an angle's domain the oracle's number type gives a NaN, so 9 follows.
    let odd = kind.odd != 0;
    needed(vec![if desired {
        function::adjust_desired(plan::desired(&bands), symmetry, odd, Number(f)).0
    } else {
        function::adjust_weights(plan::weight(&bands), symmetry, odd, Number(f)).0
    }])
}
