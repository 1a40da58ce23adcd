//! The proved exchange as its module has it: the records laid out as the compiled functions hand them to each other. That the layout is
//! the right one shows in the taps, which bench/designs.rs compares.

use std::hint::black_box;

use oracle::design::Request;
use oracle::plan::{self, Band};
use pm_remez::Symmetry;

#[repr(C)]
#[derive(Clone, Copy)]
struct Value(u8, [f64; 2]);

#[repr(C)]
#[derive(Clone, Copy)]
struct PlanBand(f64, f64, Value, Value);

#[repr(C)]
#[derive(Clone, Copy)]
struct Plan([PlanBand; 8], usize);

/// A tag, and the refusal where it has one.
type Tagged = [u8; 2];

#[repr(C)]
#[derive(Clone, Copy)]
struct Asked {
    taps: usize,
    symmetry: u8,
    degree: usize,
    exchanges: usize,
    threshold: f64,
    plan: Plan,
}

#[repr(C)]
#[derive(Clone, Copy)]
struct Job {
    request: Asked,
    made: usize,
    flatness: f64,
    points: [f64; 65],
    state: Tagged,
}

/// What `Request::new`, `Job::open` and `Job::step` answer: a record and a verdict.
#[repr(C)]
#[derive(Clone, Copy)]
struct Answer<A>(A, Tagged);

#[repr(C)]
#[derive(Clone, Copy)]
struct Report {
    error: f64,
    flatness: f64,
    iterations: usize,
    verdict: Tagged,
}

// The names that bench/designs gives to functions of the module. What is answered comes first.
#[allow(improper_ctypes)]
unsafe extern "C" {
    #[rustfmt::skip]
    fn bench_request(
        answer: *mut Answer<Asked>,
        taps: usize,
        symmetry: u8,
        degree: usize,
        exchanges: usize,
        threshold: f64,
        plan: *const Plan,
    );
    fn bench_open(answer: *mut Answer<Job>, request: *const Asked);
    fn bench_step(answer: *mut Answer<Job>, job: *const Job, scratch: *mut u64, words: usize);
    #[rustfmt::skip]
    fn bench_read(
        answer: *mut Report,
        job: *const Job,
        taps: *mut f64,
        tap_room: usize,
        freqs: *mut f64,
        freq_room: usize,
    );
}

const RUNNING: u8 = 0;

/// Room for what is lent and answered.
pub struct Proved {
    asked: Answer<Asked>,
    now: Answer<Job>,
    next: Answer<Job>,
    report: Report,
    scratch: Vec<u64>,
    taps: [f64; 128],
    freqs: [f64; 65],
}

fn value(v: plan::Value) -> Value {
    Value(v.kind(), v.ends().into())
}

fn band(b: &Band) -> PlanBand {
    PlanBand(b.begin, b.end, value(b.desired), value(b.weight))
}

impl Proved {
    pub fn new() -> Proved {
        // Numbers and tags alone: zeros are of every type here.
        let (asked, now, next, report) = unsafe { std::mem::zeroed() };
        Proved { asked, now, next, report, scratch: vec![0; 8192], taps: [0.0; 128], freqs: [0.0; 65] }
    }

    fn open(&mut self, request: &Request) {
        let none = PlanBand(0.0, 0.0, Value(0, [0.0; 2]), Value(0, [0.0; 2]));
        let mut plan = Plan([none; 8], request.bands.len());
        plan.0.iter_mut().zip(&request.bands).for_each(|(to, from)| *to = band(from));
        let symmetry = u8::from(request.symmetry == Symmetry::Odd);
        let (taps, degree, allowed, threshold) = (request.taps, request.degree, request.allowed, request.threshold);
        unsafe { bench_request(&mut self.asked, taps, symmetry, degree, allowed, threshold, &plan) };
        assert_eq!(self.asked.1[0], 0, "the request is refused");
        unsafe { bench_open(&mut self.now, &self.asked.0) };
        assert_eq!(self.now.1[0], 0, "opening is refused");
    }

    fn step(&mut self) {
        let (scratch, words) = (self.scratch.as_mut_ptr(), self.scratch.len());
        unsafe { bench_step(&mut self.next, &self.now.0, scratch, words) };
        assert_eq!(self.next.1[0], 0, "a step is refused");
        std::mem::swap(&mut self.now, &mut self.next);
    }

    fn read(&mut self) {
        let (taps, freqs) = (self.taps.as_mut_ptr(), self.freqs.as_mut_ptr());
        unsafe { bench_read(&mut self.report, &self.now.0, taps, 128, freqs, 65) };
        assert_eq!(self.report.verdict[0], 0, "the design is refused");
    }

    /// A whole design.
    pub fn taps(&mut self, request: &Request) -> Vec<f64> {
        self.open(request);
        while self.now.0.state[0] == RUNNING {
            self.step();
        }
        self.read();
        self.taps[..request.taps].to_vec()
    }

    /// How many exchanges the last design made.
    pub fn exchanges(&self) -> usize {
        self.report.iterations
    }

    /// How many bytes of stack opening, the first step and the design take.
    pub fn stack(&mut self, request: &Request) -> String {
        let open = depth(|| self.open(request));
        let step = depth(|| self.step());
        while self.now.0.state[0] == RUNNING {
            self.step();
        }
        let read = depth(|| self.read());
        format!("open {open}, step {step}, read {read}")
    }
}

const PAINTED: usize = 1 << 15;
const PAINT: u64 = 0x5a5a_5a5a_5a5a_5a5a;

/// How many bytes of stack a call takes: what lies below is painted before, and what is painted no more is counted. The callers' own
/// frames, some hundred bytes, count too.
#[inline(never)]
fn depth(call: impl FnOnce()) -> usize {
    let mut here = 0u64;
    // A pointer that the compiler knows nothing of: what it points to is beyond any variable.
    let top = black_box(&raw mut here);
    // Some words are left alone for the painting itself.
    let below = |i: usize| unsafe { top.sub(64 + i) };
    (0..PAINTED).for_each(|i| unsafe { below(i).write_volatile(PAINT) });
    call();
    let left = (0..PAINTED).rev().take_while(|&i| unsafe { below(i).read_volatile() } == PAINT).count();
    (64 + PAINTED - left) * 8
}
