//! A whole design in plain Rust: document 01 read straight, with the loops of bench/plain.rs and no checks beyond those that end the search.

use std::f64::consts::{PI, TAU};

use oracle::angles::{arccosine, cosine, sine};
use oracle::design::{self, Request};
use oracle::plan;
use pm_remez::Symmetry::{Even, Odd};

use crate::plain;

/// What an exchange works from: the points, their frequencies, weights and abscissas.
struct Interpolation {
    x: Vec<f64>,
    weights: Vec<f64>,
    abscissas: Vec<f64>,
}

fn adjusted(request: &Request, f: f64) -> (f64, f64) {
    let at = f / TAU;
    let (d, w) = (plan::lookup(&request.bands, |b| b.desired, at), plan::lookup(&request.bands, |b| b.weight, at));
    let factor = match (request.symmetry, request.taps % 2) {
        (Even, 1) => return (d, w),
        (Even, _) => cosine(0.5 * f),
        (Odd, 1) => sine(f),
        (Odd, _) => sine(0.5 * f),
    };
    let c = factor.expect("an angle");
    (d / c, w * c)
}

/// The bands' edges in radians, moved away from the singular points.
fn edges(request: &Request) -> Vec<(f64, f64)> {
    let (odd, singular) = (request.symmetry == Odd, (request.symmetry == Even) != (request.taps % 2 == 1));
    let moved = |b: &plan::Band| {
        let begin = if odd && b.begin == 0.0 { 1e-4 } else { b.begin };
        let end = if singular && b.end == 0.5 { 0.5 - 1e-4 } else { b.end };
        (begin, end)
    };
    request.bands.iter().map(moved).filter(|(b, e)| b < e).map(|(b, e)| (b * TAU, e * TAU)).collect()
}

fn first_points(edges: &[(f64, f64)], functions: usize) -> Vec<f64> {
    let total = edges.iter().fold(0.0, |t, (b, e)| t + (e - b));
    let spacing = total / functions as f64;
    let (mut band, mut consumed) = (0, 0.0);
    let point = |j: usize| {
        let s = j as f64 * spacing;
        while s - consumed > edges[band].1 - edges[band].0 && band + 1 < edges.len() {
            consumed = consumed + (edges[band].1 - edges[band].0);
            band += 1;
        }
        (edges[band].0 + (s - consumed)).min(edges[band].1)
    };
    (0..=functions).map(point).collect()
}

fn interpolation(request: &Request, f: &[f64], x: Vec<f64>) -> Interpolation {
    let weights: Vec<f64> = (0..x.len()).map(|k| plain::weight(&x, k)).collect();
    let values: Vec<(f64, f64)> = f.iter().map(|&f| adjusted(request, f)).collect();
    let (mut numer, mut denom) = (0.0, 0.0);
    for (i, (w, (d, v))) in weights.iter().zip(&values).enumerate() {
        numer = numer + w * d;
        denom = if i % 2 == 0 { denom + w / v } else { denom - w / v };
    }
    let delta: f64 = numer / denom;
    let abscissa = |(k, (d, v)): (usize, &(f64, f64))| if k % 2 == 0 { d - delta / v } else { d + delta / v };
    let abscissas = values.iter().enumerate().map(abscissa).collect();
    Interpolation { x, weights, abscissas }
}

/// Rising bands in x cut by rising points.
fn subdivide(bands: &[(f64, f64)], falling: &[f64]) -> Vec<(f64, f64)> {
    let mut points = falling.iter().rev().copied().peekable();
    let mut made = Vec::with_capacity(73);
    for &(mut begin, end) in bands {
        while let Some(&a) = points.peek() {
            if end < a {
                break;
            }
            points.next();
            if a == end {
                break;
            }
            if begin != a {
                made.push((begin, a));
                begin = a;
            }
        }
        made.push((begin, end));
    }
    made
}

fn error(request: &Request, i: &Interpolation, x0: f64) -> f64 {
    let h = plain::response(x0, &i.x, &i.weights, &i.abscissas);
    let (d, w) = adjusted(request, arccosine(x0).expect("a place"));
    w * (d - h)
}

fn roots(a: &plain::Matrix, s: usize) -> Vec<f64> {
    let mut g = [0.0; 65];
    plain::grid(a, s, &mut g);
    let mut found = Vec::with_capacity(s);
    for j in 0..64 {
        if g[j] == 0.0 {
            found.push(plain::cell_end(j));
        } else if plain::opposite(g[j], g[j + 1]) {
            found.extend(plain::halve(a, s, g[j], plain::cell_end(j), plain::cell_end(j + 1)));
        }
    }
    if g[64] == 0.0 {
        found.push(1.0);
    }
    found
}

/// One exchange: the new points, falling, and the flatness.
fn exchange(request: &Request, bands: &[(f64, f64)], i: &Interpolation, nodes: &[f64]) -> (Vec<f64>, f64) {
    let intervals = subdivide(bands, &i.x);
    let mut words = Vec::with_capacity(2482);
    let put = |words: &mut Vec<u64>, x0: f64| words.extend([x0.to_bits(), error(request, i, x0).to_bits()]);
    for &(begin, end) in &intervals {
        put(&mut words, begin);
        put(&mut words, end);
    }
    for &(begin, end) in &intervals {
        let scale = 0.5 * (end - begin);
        let onto = |x0: f64| (x0 + 1.0) * scale + begin;
        let values: Vec<f64> = nodes.iter().map(|&x0| error(request, i, onto(x0))).collect();
        let mut a = vec![0.0; values.len()];
        plain::coefficients(&values, &mut a);
        let mut c: Vec<f64> = a.iter().enumerate().skip(1).map(|(k, a)| k as f64 * a).collect();
        while c.last() == Some(&0.0) {
            c.pop();
        }
        let s = c.len() - 1;
        let mut matrix = plain::colleague(&c);
        plain::balance(&mut matrix, s);
        roots(&matrix, s).into_iter().for_each(|x0| put(&mut words, onto(x0)));
    }
    plain::sort(&mut words);
    let errors: Vec<f64> = words.chunks_exact(2).map(|w| f64::from_bits(w[1])).collect();
    let mut places = vec![0; i.x.len()];
    plain::prune(&errors, places.len(), &mut places);
    let sizes = || places.iter().map(|&p| errors[p as usize].abs());
    let (most, least) = (sizes().fold(0.0, f64::max), sizes().fold(f64::INFINITY, f64::min));
    (places.iter().rev().map(|&p| f64::from_bits(words[2 * p as usize])).collect(), (most - least) / most)
}

/// From the request to the taps.
pub fn taps(request: &Request) -> Vec<f64> {
    let n = design::functions(request.taps, request.symmetry);
    let edges = edges(request);
    let cosines = |f: &[f64]| f.iter().map(|&f| cosine(f).expect("an angle")).collect::<Vec<f64>>();
    let bands: Vec<(f64, f64)> = edges.iter().rev().map(|(b, e)| (cosines(&[*e])[0], cosines(&[*b])[0])).collect();
    let angles: Vec<f64> = (0..=request.degree).map(|j| j as f64 * (PI / request.degree as f64)).collect();
    let nodes = cosines(&angles);
    let first = first_points(&edges, n);
    let mut i = interpolation(request, &first, cosines(&first));
    for _ in 0..request.allowed {
        let (x, flatness) = exchange(request, &bands, &i, &nodes);
        let f: Vec<f64> = x.iter().map(|&x| arccosine(x).expect("a place")).collect();
        i = interpolation(request, &f, x);
        if flatness <= request.threshold {
            break;
        }
    }
    let samples: Vec<f64> = (0..n).map(|j| j as f64 * (PI / (n - 1) as f64)).collect();
    let values: Vec<f64> = cosines(&samples).iter().map(|&x0| plain::response(x0, &i.x, &i.weights, &i.abscissas)).collect();
    let mut a = vec![0.0; n];
    plain::coefficients(&values, &mut a);
    mirrored(request, &a)
}

/// The taps of the coefficients: the left side from the outside in, and its mirror image.
fn mirrored(request: &Request, a: &[f64]) -> Vec<f64> {
    let (n, taps, odd) = (a.len(), request.taps, request.taps % 2 == 1);
    let side = |j: usize| match (request.symmetry, odd) {
        (Even, true) => a[n - 1 - j] * 0.5,
        (Odd, true) if j < 2 => a[n - 1 - j] * 0.25,
        (_, false) if j == 0 => a[n - 1] * 0.25,
        (Even, false) if j == n - 1 => a[0] * 0.5 + a[1] * 0.25,
        (Even, false) => 0.25 * (a[n - 1 - j] + a[n - j]),
        (Odd, true) if j == n - 1 => a[0] * 0.5 - a[2] * 0.25,
        (Odd, true) => 0.25 * (a[n - 1 - j] - a[n + 1 - j]),
        (Odd, false) if j == n - 1 => a[0] * 0.5 - a[1] * 0.25,
        (Odd, false) => 0.25 * (a[n - 1 - j] - a[n - j]),
    };
    let turned = |t: f64| if request.symmetry == Odd { -t } else { t };
    let at = |i: usize| match (request.symmetry, i) {
        (_, i) if i < taps / 2 => side(i),
        (Even, i) if odd && i == taps / 2 => a[0],
        (Odd, i) if odd && i == taps / 2 => 0.0,
        _ => turned(side(taps - 1 - i)),
    };
    (0..taps).map(at).collect()
}
