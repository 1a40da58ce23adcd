//! Whole designs: the proved exchange against pm-remez, a plain reading of document 01, scipy's remez and liquid's firdespm, which are
//! asked for the same six filters. Without words, the proved taps are compared with pm-remez's and the plain ones bit for bit, and times
//! and ripples are printed. `rows` names the designs; NAME WHO COUNT makes that many designs and says nothing; `stack` says how deep the
//! proved calls go.

use std::hint::black_box;
use std::io::{BufRead, BufReader, Write};
use std::process::{Child, ChildStdin, ChildStdout, Command, Stdio};
use std::time::Instant;

use oracle::angles;
use oracle::design::{self, Request};
use oracle::plan::{self, Band, Value};
use pm_remez::Symmetry;

#[path = "plain.rs"]
mod plain;
#[path = "plain_design.rs"]
mod plain_design;
#[path = "proved.rs"]
mod proved;

use proved::Proved;

fn flat(begin: f64, end: f64, gain: f64, weight: f64) -> Band {
    Band { begin, end, desired: Value::Constant(gain), weight: Value::Constant(weight) }
}

fn usual(taps: usize, symmetry: Symmetry, bands: &[Band]) -> Request {
    Request { taps, symmetry, degree: 8, allowed: 100, threshold: 1e-3, bands: bands.to_vec() }
}

fn designs() -> Vec<(&'static str, Request)> {
    use Symmetry::{Even, Odd};
    let lowpass = [flat(0.0, 0.18, 1.0, 1.0), flat(0.22, 0.5, 0.0, 1.0)];
    let bandpass = [flat(0.0, 0.1, 0.0, 1.0), flat(0.15, 0.25, 1.0, 1.0), flat(0.3, 0.5, 0.0, 1.0)];
    let five = [
        flat(0.0, 0.08, 0.0, 10.0),
        flat(0.1, 0.15, 1.0, 1.0),
        flat(0.18, 0.22, 0.0, 10.0),
        flat(0.25, 0.28, 1.0, 1.0),
        flat(0.3, 0.5, 0.0, 10.0),
    ];
    let slope = Band { desired: Value::Linear(0.0, 1.0), ..flat(0.0, 0.5, 0.0, 1.0) };
    vec![
        ("lowpass 35", usual(35, Even, &lowpass)),
        ("lowpass 64", usual(64, Even, &lowpass)),
        ("lowpass 127", usual(127, Even, &lowpass)),
        ("bandpass 101", usual(101, Even, &bandpass)),
        ("differentiator 64", usual(64, Odd, &[slope])),
        ("five bands 128", usual(128, Even, &five)),
    ]
}

/// pm-remez as the oracle has it.
fn rust(request: &Request) -> Vec<f64> {
    design::run(request, request.allowed).expect("a design").taps
}

#[cfg(liquid)]
mod liquid {
    use super::{Request, Symmetry};

    #[link(name = "liquid")]
    unsafe extern "C" {
        #[rustfmt::skip]
        fn firdespm_run(
            taps: u32,
            bands: u32,
            edges: *const f32,
            desired: *const f32,
            weights: *const f32,
            weight_kinds: *const u32,
            kind: u32,
            out: *mut f32,
        ) -> i32;
    }

    /// Its differentiator has no line from 0 to 1, so it is not asked for one.
    pub fn taps(request: &Request) -> Option<Vec<f64>> {
        if request.symmetry == Symmetry::Odd {
            return None;
        }
        let edges: Vec<f32> = request.bands.iter().flat_map(|b| [b.begin as f32, b.end as f32]).collect();
        let desired: Vec<f32> = request.bands.iter().map(|b| b.desired.ends().0 as f32).collect();
        let weights: Vec<f32> = request.bands.iter().map(|b| b.weight.ends().0 as f32).collect();
        let (kinds, mut out) = ([0; 8], vec![0f32; request.taps]);
        let (n, count) = (request.taps as u32, request.bands.len() as u32);
        let (e, d, w) = (edges.as_ptr(), desired.as_ptr(), weights.as_ptr());
        unsafe { firdespm_run(n, count, e, d, w, kinds.as_ptr(), 0, out.as_mut_ptr()) };
        Some(out.into_iter().map(f64::from).collect())
    }
}

#[cfg(not(liquid))]
mod liquid {
    pub fn taps(_: &super::Request) -> Option<Vec<f64>> {
        None
    }
}

/// scipy in a process of its own, which times itself.
struct Scipy(Child, ChildStdin, BufReader<ChildStdout>);

impl Scipy {
    /// Of the words that start bench/designs.py; none where scipy is not there.
    fn new(words: &str) -> Option<Scipy> {
        let words: Vec<&str> = words.split_whitespace().collect();
        let (first, rest) = words.split_first()?;
        let mut child = Command::new(first).args(rest).stdin(Stdio::piped()).stdout(Stdio::piped()).spawn().expect("python");
        let (to, from) = (child.stdin.take().expect("a pipe"), child.stdout.take().expect("a pipe"));
        Some(Scipy(child, to, BufReader::new(from)))
    }

    /// Nanoseconds and taps. A differentiator is asked for by its slope; scipy weights it by 1 / f.
    fn ask(&mut self, request: &Request, grid: usize, count: usize) -> (f64, Vec<f64>) {
        let kind = if request.symmetry == Symmetry::Odd { "differentiator" } else { "bandpass" };
        let gain = |b: &Band| match b.desired {
            Value::Constant(v) => v,
            Value::Linear(low, high) => (high - low) / (b.end - b.begin),
        };
        let band = |b: &Band| format!(" {} {} {} {}", b.begin, b.end, gain(b), b.weight.ends().0);
        let bands: String = request.bands.iter().map(band).collect();
        writeln!(self.1, "{count} {grid} {} {kind}{bands}", request.taps).expect("scipy takes it");
        let mut line = String::new();
        self.2.read_line(&mut line).expect("scipy answers");
        let words: Vec<f64> = line.split_whitespace().map(|word| word.parse().expect("a number")).collect();
        (words[0], words[1..].to_vec())
    }
}

impl Drop for Scipy {
    fn drop(&mut self) {
        let _ = self.0.kill();
        let _ = self.0.wait();
    }
}

const POINTS: f64 = 20_000.0;

/// The largest weighted error at 20,000 places of the bands, their edges among them.
fn ripple(request: &Request, taps: &[f64]) -> f64 {
    let middle = (taps.len() - 1) as f64 / 2.0;
    let odd = request.symmetry == Symmetry::Odd;
    let response = |f: f64| {
        let angle = |k: usize| std::f64::consts::TAU * f * (middle - k as f64);
        let term = |k: usize| if odd { angle(k).sin() } else { angle(k).cos() };
        taps.iter().enumerate().map(|(k, h)| h * term(k)).sum::<f64>()
    };
    let length: f64 = request.bands.iter().map(|b| b.end - b.begin).sum();
    let places = |b: &Band| {
        let (begin, end) = (b.begin, b.end);
        let count = (POINTS * (end - begin) / length) as usize;
        (0..count).map(move |i| begin + (end - begin) * i as f64 / (count - 1) as f64)
    };
    let error = |sign: f64| {
        let at = |f: f64| {
            let (d, w) = (plan::lookup(&request.bands, |b| b.desired, f), plan::lookup(&request.bands, |b| b.weight, f));
            (w * (d - sign * response(f))).abs()
        };
        request.bands.iter().flat_map(places).map(at).fold(0.0, f64::max)
    };
    // The sign of an odd filter is a matter of taste.
    if odd { error(1.0).min(error(-1.0)) } else { error(1.0) }
}

fn microseconds(mut work: impl FnMut()) -> f64 {
    let began = Instant::now();
    work();
    began.elapsed().as_nanos() as f64 / 1e3
}

const ROUNDS: usize = 200;

/// The best of many rounds of each in turns, in microseconds: what else the host does only adds.
fn times(request: &Request, proved: &mut Proved, scipy: &mut Option<Scipy>) -> [f64; 6] {
    let mut best = [f64::INFINITY; 6];
    for _ in 0..ROUNDS {
        let mut round = [f64::INFINITY; 6];
        round[0] = microseconds(|| drop(black_box(proved.taps(request))));
        round[1] = microseconds(|| drop(black_box(rust(request))));
        if let Some(scipy) = scipy {
            round[2] = scipy.ask(request, 16, 1).0 / 1e3;
            round[3] = scipy.ask(request, 64, 1).0 / 1e3;
        }
        round[4] = microseconds(|| drop(black_box(liquid::taps(request))));
        round[5] = microseconds(|| drop(black_box(plain_design::taps(request))));
        best.iter_mut().zip(round).for_each(|(b, r)| *b = b.min(r));
    }
    best
}

fn bits(taps: &[f64]) -> Vec<u64> {
    taps.iter().map(|x| x.to_bits()).collect()
}

fn shown(x: Option<f64>, digits: usize) -> String {
    x.map_or("-".to_string(), |x| if digits == 0 { format!("{x:.0}") } else { format!("{x:.digits$e}") })
}

/// The times and the ripples of all designs.
fn tables(mut scipy: Option<Scipy>) {
    let mut proved = Proved::new();
    let mut ripples = Vec::new();
    println!("microseconds a design  exchanges   proved pm-remez  ratio    plain  ratio  scipy 16  scipy 64   liquid");
    for (name, request) in designs() {
        let taps = proved.taps(&request);
        assert_eq!(bits(&taps), bits(&rust(&request)), "{name}: other taps than pm-remez");
        assert_eq!(bits(&taps), bits(&plain_design::taps(&request)), "{name}: other taps than the plain ones");
        let mut others = vec![liquid::taps(&request)];
        if let Some(scipy) = &mut scipy {
            others.extend([16, 64].map(|grid| Some(scipy.ask(&request, grid, 1).1)));
        }
        let others: Vec<Option<f64>> = others.iter().map(|taps| taps.as_ref().map(|taps| ripple(&request, taps))).collect();
        ripples.push((name, ripple(&request, &taps), others));
        let [a, b, narrow, wide, c, plain] = times(&request, &mut proved, &mut scipy);
        let there = |x: f64| shown(scipy.as_ref().map(|_| x), 0);
        let c = shown(liquid::taps(&request).map(|_| c), 0);
        print!("  {name:20} {:9} {a:8.0} {b:8.0} {:6.2} {plain:8.0} {:6.2}", proved.exchanges(), a / b, a / plain);
        println!(" {:>9} {:>9} {c:>8}", there(narrow), there(wide));
    }
    println!("proved, pm-remez and plain: the same bits in every tap");
    println!("largest weighted error, 20,000 places        proved    scipy 16    scipy 64      liquid");
    for (name, own, others) in ripples {
        let at = |i: usize| shown(others.get(i).copied().flatten(), 4);
        println!("  {name:38} {:>10} {:>11} {:>11} {:>11}", shown(Some(own), 4), at(1), at(2), at(0));
    }
}

fn main() {
    let words: Vec<String> = std::env::args().skip(1).collect();
    let words: Vec<&str> = words.iter().map(String::as_str).collect();
    match words[..] {
        ["rows"] => designs().iter().for_each(|(name, _)| println!("{name}")),
        ["stack"] => designs().iter().for_each(|(name, request)| println!("  {name}: {}", Proved::new().stack(request))),
        [name, who, count] => {
            let all = designs();
            let (_, request) = all.iter().find(|row| row.0 == name).expect("a design's name");
            let mut proved = Proved::new();
            for _ in 0..count.parse::<usize>().expect("a count") {
                match who {
                    "proved" => drop(black_box(proved.taps(request))),
                    "pm-remez" => drop(black_box(rust(request))),
                    "plain" => drop(black_box(plain_design::taps(request))),
                    _ => drop(black_box(liquid::taps(request))),
                }
            }
        }
        [] => tables(Scipy::new(&std::env::var("SCIPY").unwrap_or_default())),
        _ => panic!("designs [rows | stack | NAME proved|pm-remez|plain|liquid COUNT]"),
    }
}
