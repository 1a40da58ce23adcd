//! The proved leaves against the same loops in plain Rust (plain.rs). Both must give the same bits. Without words, times; with a row's
//! name, `proved` or `plain`, and a count, that many calls of one of them.

use std::hint::black_box;
use std::time::Instant;

#[path = "../oracle/src/angles.rs"]
#[allow(dead_code)]
mod angles;
mod plain;

use plain::Matrix;

/// How many passes balancing made, behind what tells whether there is a number.
#[repr(C)]
struct Passes(u8, u64);

extern "C" {
    fn stepsheaf_weights(x: *const f64, n: usize, out: *mut f64, room: usize) -> u64;
    #[rustfmt::skip]
    fn stepsheaf_responses(
        places: *const f64,
        m: usize,
        x: *const f64,
        n: usize,
        w: *const f64,
        wn: usize,
        y: *const f64,
        yn: usize,
        out: *mut f64,
        room: usize,
    ) -> u64;
    fn stepsheaf_coefficients(values: *const f64, n: usize, out: *mut f64, room: usize) -> u64;
    fn stepsheaf_sort_candidates(words: *mut u64, room: usize, n: usize);
    fn stepsheaf_prune(errors: *const f64, n: usize, keep: usize, out: *mut u64, room: usize) -> u64;
    // Private ones, which bench/leaves gives a name: what they answer comes first, where two registers do not hold it.
    fn bench_cell_residuals(a: *const Matrix, s: usize, g: *mut f64, cells: usize);
    fn bench_halve(answer: *mut [f64; 2], a: *const Matrix, s: usize, p: f64, low: f64, high: f64);
    fn bench_balance_matrix(a: *mut Matrix, n: usize) -> Passes;
}

/// A matrix and what is asked of it.
struct Square {
    size: usize,
    built: Matrix,
    balanced: Matrix,
    passes: u64,
    /// The ends of a cell that holds a root, and the residual at its lower end.
    cell: (f64, f64, f64),
}

/// As many roots as a row halves: of a few, the host soon knows by heart in which half each lies each time.
const ROOTS: usize = 1024;

impl Square {
    /// Of a derivative as a smooth error has one, its coefficients falling quickly; none where no cell holds a root.
    fn new(degree: usize, i: usize) -> Option<Square> {
        let c: Vec<f64> = (0..degree).map(|k| (0.1 + 2.0 * k as f64 + 0.37 * i as f64).sin() * 0.4f64.powi(k as i32)).collect();
        let size = degree - 1;
        let built = plain::colleague(&c);
        let mut balanced = built;
        let passes = plain::balance(&mut balanced, size);
        let at = |j: usize| plain::residual(&balanced, size, plain::cell_end(j));
        let j = (0..64).find(|&j| plain::opposite(at(j), at(j + 1)))?;
        Some(Square { size, built, balanced, passes, cell: (at(j), plain::cell_end(j), plain::cell_end(j + 1)) })
    }

    fn some(degree: usize) -> Vec<Square> {
        (0..).filter_map(|i| Square::new(degree, i)).take(ROOTS).collect()
    }
}

/// Candidates as an exchange has them: the ends of the subintervals, rising, and then what lies inside each, rising. Their errors change
/// sign from point to point.
struct Candidates {
    words: Vec<u64>,
    errors: Vec<f64>,
    keep: usize,
}

impl Candidates {
    fn new(intervals: usize, inside: usize, keep: usize) -> Candidates {
        let end = |i: usize| -1.0 + 2.0 * i as f64 / intervals as f64;
        let within = |i: usize, j: usize| end(i) + (end(i + 1) - end(i)) * (j as f64 + 1.0) / (inside as f64 + 1.0);
        let ends = (0..intervals).flat_map(|i| [end(i), end(i + 1)]);
        let all: Vec<f64> = ends.chain((0..intervals).flat_map(|i| (0..inside).map(move |j| within(i, j)))).collect();
        let error = |x: &f64| (x * 1.75 * keep as f64).sin() * (1.0 + 0.2 * (9.0 * x).cos());
        let words = all.iter().flat_map(|x| [x.to_bits(), error(x).to_bits()]).collect();
        let mut sorted = all;
        sorted.sort_by(f64::total_cmp);
        Candidates { words, errors: sorted.iter().map(error).collect(), keep }
    }
}

/// What is worked on, and room for the answers.
struct Bench {
    points: Vec<f64>,
    weights: Vec<f64>,
    abscissas: Vec<f64>,
    places: Vec<f64>,
    values: Vec<f64>,
    squares: [Vec<Square>; 2],
    candidates: [Candidates; 2],
    out: Vec<f64>,
    words: Vec<u64>,
    matrix: Matrix,
}

impl Bench {
    fn new() -> Bench {
        let points: Vec<f64> = (0..65).map(|i| (std::f64::consts::PI * i as f64 / 64.0).cos()).collect();
        Bench {
            weights: (0..65).map(|k| plain::weight(&points, k)).collect(),
            points,
            abscissas: (0..65).map(|i| if i % 2 == 0 { 1.01 } else { 0.99 }).collect(),
            places: (0..64).map(|i| 0.301 + 0.0021 * i as f64).collect(),
            values: (0..64).map(|i| (i as f64 * 0.37).sin()).collect(),
            squares: [Square::some(8), Square::some(16)],
            candidates: [Candidates::new(50, 1, 51), Candidates::new(53, 17, 65)],
            out: vec![0.0; ROOTS],
            words: vec![0; 2 * 1241],
            matrix: [[0.0; 15]; 15],
        }
    }

    fn weights(&mut self, proved: bool) {
        let (x, out) = (&self.points, &mut self.out);
        if proved {
            let r = unsafe { stepsheaf_weights(x.as_ptr(), x.len(), out.as_mut_ptr(), out.len()) };
            assert_eq!(r, 0);
        } else {
            (0..x.len()).for_each(|k| out[k] = plain::weight(x, k));
        }
    }

    fn responses(&mut self, proved: bool, places: usize) {
        let (p, x, w, y, out) = (&self.places[..places], &self.points, &self.weights, &self.abscissas, &mut self.out);
        if proved {
            let (m, n, room) = (p.len(), x.len(), out.len());
            let (p, x, w, y) = (p.as_ptr(), x.as_ptr(), w.as_ptr(), y.as_ptr());
            let r = unsafe { stepsheaf_responses(p, m, x, n, w, n, y, n, out.as_mut_ptr(), room) };
            assert_eq!(r, 0);
        } else {
            for (place, o) in p.iter().zip(out) {
                *o = plain::response(*place, x, w, y);
            }
        }
    }

    fn coefficients(&mut self, proved: bool) {
        let (v, out) = (&self.values, &mut self.out);
        if proved {
            let r = unsafe { stepsheaf_coefficients(v.as_ptr(), v.len(), out.as_mut_ptr(), out.len()) };
            assert_eq!(r, 0);
        } else {
            plain::coefficients(v, out);
        }
    }

    fn grid(&mut self, proved: bool, which: usize) {
        let Square { size, balanced, .. } = &self.squares[which][0];
        if proved {
            unsafe { bench_cell_residuals(balanced, *size, self.out.as_mut_ptr(), 65) };
        } else {
            plain::grid(balanced, *size, &mut self.out);
        }
    }

    fn halving(&mut self, proved: bool, which: usize) {
        for (square, out) in self.squares[which].iter().zip(&mut self.out) {
            let Square { size, balanced, cell: (p, low, high), .. } = square;
            *out = if proved {
                // The number stands behind what tells whether there is one.
                let mut answer = [0.0; 2];
                unsafe { bench_halve(&mut answer, balanced, *size, *p, *low, *high) };
                answer[1]
            } else {
                plain::halve(balanced, *size, *p, *low, *high).expect("a root")
            };
        }
    }

    fn balancing(&mut self, proved: bool, which: usize) {
        let Square { size, built, .. } = &self.squares[which][0];
        self.matrix = *built;
        self.words[0] = if proved {
            unsafe { bench_balance_matrix(&mut self.matrix, *size) }.1
        } else {
            plain::balance(&mut self.matrix, *size)
        };
    }

    fn sort(&mut self, proved: bool, which: usize) {
        let from = &self.candidates[which].words;
        let words = &mut self.words[..from.len()];
        words.copy_from_slice(from);
        if proved {
            unsafe { stepsheaf_sort_candidates(words.as_mut_ptr(), words.len(), words.len() / 2) };
        } else {
            plain::sort(words);
        }
    }

    fn prune(&mut self, proved: bool, which: usize) {
        let Candidates { errors, keep, .. } = &self.candidates[which];
        if proved {
            let (words, room) = (self.words.as_mut_ptr(), self.words.len());
            let r = unsafe { stepsheaf_prune(errors.as_ptr(), errors.len(), *keep, words, room) };
            assert_eq!(r, 0);
        } else {
            plain::prune(errors, *keep, &mut self.words);
        }
    }

    /// Every bit of the outputs.
    fn bits(&self) -> Vec<u64> {
        let numbers = self.out.iter().chain(self.matrix.as_flattened());
        numbers.map(|x| x.to_bits()).chain(self.words.iter().copied()).collect()
    }
}

type Row = (&'static str, fn(&mut Bench, bool));

const ROWS: [Row; 17] = [
    ("weights of 65 points", |b, p| b.weights(p)),
    ("responses at 1 place", |b, p| b.responses(p, 1)),
    ("responses at 2 places", |b, p| b.responses(p, 2)),
    ("responses at 9 places", |b, p| b.responses(p, 9)),
    ("responses at 17 places", |b, p| b.responses(p, 17)),
    ("responses at 64 places", |b, p| b.responses(p, 64)),
    ("coefficients of 64 values", |b, p| b.coefficients(p)),
    ("residual grid, 7 rows", |b, p| b.grid(p, 0)),
    ("residual grid, 15 rows", |b, p| b.grid(p, 1)),
    ("halving of 1,024 roots, 7 rows", |b, p| b.halving(p, 0)),
    ("halving of 1,024 roots, 15 rows", |b, p| b.halving(p, 1)),
    ("balancing, degree 8", |b, p| b.balancing(p, 0)),
    ("balancing, degree 16", |b, p| b.balancing(p, 1)),
    ("sort of 150", |b, p| b.sort(p, 0)),
    ("sort of 1,007", |b, p| b.sort(p, 1)),
    ("pruning of 150 to 51", |b, p| b.prune(p, 0)),
    ("pruning of 1,007 to 65", |b, p| b.prune(p, 1)),
];

/// Nanoseconds a call, proved and plain in turns, the best of some rounds of each: what else the host does only adds.
fn times(bench: &mut Bench, call: fn(&mut Bench, bool)) -> [f64; 2] {
    let mut once = |proved: bool, count: u32| {
        let began = Instant::now();
        for _ in 0..count {
            call(black_box(bench), proved);
        }
        began.elapsed().as_nanos() as f64 / f64::from(count)
    };
    // Many short rounds: a busy host leaves some of them alone.
    let count = (3e5 / once(false, 50)).max(5.0) as u32;
    let mut best = [f64::INFINITY; 2];
    for _ in 0..600 {
        for (i, proved) in [true, false].into_iter().enumerate() {
            best[i] = best[i].min(once(proved, count));
        }
    }
    best
}

fn main() {
    let words: Vec<String> = std::env::args().skip(1).collect();
    let mut bench = Bench::new();
    match &words[..] {
        [] => (),
        [word] if word == "rows" => {
            ROWS.iter().for_each(|(name, _)| println!("{name}"));
            return;
        }
        [name, who, count] => {
            let (_, call) = ROWS.iter().find(|row| row.0 == name).expect("a row's name");
            let count: usize = count.parse().expect("a count of calls");
            (0..count).for_each(|_| call(black_box(&mut bench), who == "proved"));
            return;
        }
        _ => panic!("leaves [rows | NAME proved|plain COUNT]"),
    }
    for squares in &bench.squares {
        println!("{} rows: balanced in {} passes", squares[0].size, squares[0].passes);
    }
    println!("nanoseconds a call                 proved    plain  ratio");
    for (name, call) in ROWS {
        call(&mut bench, true);
        let proved = bench.bits();
        call(&mut bench, false);
        assert_eq!(proved, bench.bits(), "{name}: other bits");
        let [a, b] = times(&mut bench, call);
        println!("  {name:30} {a:9.0} {b:8.0} {:6.2}", a / b);
    }
}
