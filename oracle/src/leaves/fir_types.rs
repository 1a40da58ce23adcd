//! fir_types.rs: response check, edge adjustment, adjusted value and weight, taps. Beside them the
//! lookup in a plan, which is ours, and the bands in radians of types.rs.

use std::f64::consts::PI;

use pm_remez::error::{Error, InvalidResponse};
use pm_remez::{Symmetry, function};

use super::list;
use crate::chance::Chance;
use crate::design::{caught, functions};
use crate::generate;
use crate::number::{Number, numbers, plain};
use crate::plan::{self, Band};
use crate::text::{Page, symmetry_digit};

/// The four types one after another: even and odd taps, even and odd symmetry.
fn filter(c: &mut Chance, index: usize) -> (usize, Symmetry) {
    let symmetry = [Symmetry::Even, Symmetry::Odd][index % 2];
    let odd = (index / 2) % 2;
    let taps = generate::taps(c, symmetry);
    let taps = if taps % 2 == odd { taps } else { taps - 1 };
    (generate::enough(taps, symmetry), symmetry)
}

fn write_filter(page: &mut Page, taps: usize, symmetry: Symmetry, bands: &[Band]) {
    page.line(format_args!(
        "filter {taps} {} {}",
        symmetry_digit(symmetry),
        bands.len()
    ));
    page.bands(bands);
}

/// A plan whose outer edges are often 0 and 0.5, some of its outer bands so short that adjustment
/// leaves them little length or none.
fn plan_to_the_edges(c: &mut Chance) -> Vec<Band> {
    let mut bands = generate::plan(c);
    let last = bands.len() - 1;
    if bands[0].end > 1e-3 && c.one_in(4) {
        bands[0].begin = 0.0;
        bands[0].end = c.among(&[5e-5, 1e-4, 1e-4f64.next_up(), 1e-4f64.next_down(), 2e-4]);
    }
    if last > 0 && bands[last - 1].end < 0.4998 && c.one_in(4) {
        let edge = 0.5 - 1e-4;
        bands[last].begin = c.among(&[0.49995, edge, edge.next_up(), edge.next_down(), 0.4999]);
        bands[last].end = 0.5;
    }
    if !c.one_in(4) {
        bands[0].begin = c.among(&[0.0, 0.0, 0.0, -0.0]);
    }
    if !c.one_in(4) {
        bands[last].end = 0.5;
    }
    bands
}

fn pairs(bands: &[pm_remez::Band<Number>]) -> Vec<(f64, f64)> {
    bands.iter().map(|b| (b.begin().0, b.end().0)).collect()
}

/// The desired value at frequencies in cycles per sample, on, beside and between the edges.
pub fn lookup(c: &mut Chance, _: usize, page: &mut Page) {
    let bands = generate::plan(c);
    let at: Vec<f64> = (0..8)
        .map(|_| {
            let band = c.among(&bands);
            let edge = c.among(&[band.begin, band.end]);
            match c.below(5) {
                0 => edge,
                1 => edge.next_up(),
                2 => edge.next_down().max(0.0),
                3 => c.within(band.begin, band.end),
                _ => c.within(0.0, 0.5),
            }
        })
        .collect();
    page.line(format_args!("plan {}", bands.len()));
    page.bands(&bands);
    page.numbers("at", &at);
    let gives: Vec<f64> = at
        .iter()
        .map(|&f| plan::lookup(&bands, |band| band.desired, f))
        .collect();
    page.numbers("gives", &gives);
}

pub fn realizable(c: &mut Chance, index: usize, page: &mut Page) {
    let (taps, symmetry) = filter(c, index);
    let bands = plan_to_the_edges(c);
    write_filter(page, taps, symmetry, &bands);
    let edges = plan::edges(&bands).expect("01's rules hold");
    let answer = function::check_response(&edges, plan::desired(&bands), symmetry, taps % 2 == 1);
    let word = match answer {
        Ok(()) => "realizable",
        Err(Error::InvalidResponse(place)) => match place {
            InvalidResponse::EvenSymmEvenLengthNyquist => "EvenSymmEvenLengthNyquist",
            InvalidResponse::OddSymmEvenLengthDC => "OddSymmEvenLengthDC",
            InvalidResponse::OddSymmOddLengthDC => "OddSymmOddLengthDC",
            InvalidResponse::OddSymmOddLengthNyquist => "OddSymmOddLengthNyquist",
        },
        Err(_) => unreachable!("check_response has no other error"),
    };
    page.line(format_args!("gives {word}"));
}

/// The Rust panics where both ends are taken and no band is left in between.
pub fn edges(c: &mut Chance, index: usize, page: &mut Page) {
    let (taps, symmetry) = filter(c, index);
    let bands = plan_to_the_edges(c);
    write_filter(page, taps, symmetry, &bands);
    let edges = plan::edges(&bands).expect("01's rules hold");
    match caught(|| Ok(function::adjust_bands(&edges, symmetry, taps % 2 == 1))) {
        Ok(adjusted) => page.pairs("gives", &pairs(&adjusted)),
        Err(name) => page.line(format_args!("failed {name}")),
    }
}

pub fn radians(c: &mut Chance, _: usize, page: &mut Page) {
    let edges = plan::edges(&plan_to_the_edges(c)).expect("01's rules hold");
    let turned: Vec<_> = edges.iter().map(function::convert_to_radians).collect();
    page.pairs("bands", &pairs(&edges));
    page.pairs("gives", &pairs(&turned));
}

/// Frequencies in radians: at the ends, at the bands' edges and elsewhere.
fn frequencies(c: &mut Chance, bands: &[Band]) -> Vec<f64> {
    (0..8)
        .map(|_| match c.below(8) {
            0 => c.among(&[0.0, PI, 1e-4 * (2.0 * PI), 3.25]),
            1 => c.power(-60, 1),
            2 | 3 => {
                let band = c.among(bands);
                c.among(&[band.begin, band.end]) * (2.0 * PI)
            }
            _ => c.within(0.0, PI),
        })
        .collect()
}

pub fn adjusted_desired(c: &mut Chance, index: usize, page: &mut Page) {
    let (taps, symmetry) = filter(c, index);
    let bands = generate::plan(c);
    let at = frequencies(c, &bands);
    write_filter(page, taps, symmetry, &bands);
    page.numbers("at", &at);
    let gives: Vec<f64> = at
        .iter()
        .map(|&f| {
            let desired = plan::desired(&bands);
            function::adjust_desired(desired, symmetry, taps % 2 == 1, Number(f)).0
        })
        .collect();
    page.numbers("gives", &gives);
}

pub fn adjusted_weight(c: &mut Chance, index: usize, page: &mut Page) {
    let (taps, symmetry) = filter(c, index);
    let bands = generate::plan(c);
    let at = frequencies(c, &bands);
    write_filter(page, taps, symmetry, &bands);
    page.numbers("at", &at);
    let gives: Vec<f64> = at
        .iter()
        .map(|&f| {
            let weight = plan::weight(&bands);
            function::adjust_weights(weight, symmetry, taps % 2 == 1, Number(f)).0
        })
        .collect();
    page.numbers("gives", &gives);
}

pub fn taps(c: &mut Chance, index: usize, page: &mut Page) {
    let (by_chance, symmetry) = filter(c, index);
    // The fewest and the most taps of each type come first.
    let taps = match (index / 4, by_chance % 2, symmetry) {
        (0, 1, Symmetry::Even) => 3,
        (0, 1, Symmetry::Odd) => 7,
        (0, _, _) => 4,
        (1, 1, _) => 127,
        (1, _, _) => 128,
        _ => by_chance,
    };
    let coefficients = list(c, functions(taps, symmetry));
    write_taps(page, taps, symmetry, &coefficients);
}

pub fn write_taps(page: &mut Page, taps: usize, symmetry: Symmetry, coefficients: &[f64]) {
    page.line(format_args!("filter {taps} {}", symmetry_digit(symmetry)));
    page.numbers("coefficients", coefficients);
    let gives = function::h_from_ak(&numbers(coefficients), taps, symmetry, taps % 2 == 1);
    page.numbers("gives", &plain(gives));
}
