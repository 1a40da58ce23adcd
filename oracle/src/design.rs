//! One request through the unchanged `pm_remez_with_backend`.

use std::cell::Cell;
use std::panic::{AssertUnwindSafe, catch_unwind};

use pm_remez::error::Error;
use pm_remez::{DesignParameters, Setting, Symmetry, pm_remez_with_backend};

use crate::number::{Number, plain};
use crate::plan::{self, Band};
use crate::roots;

/// A request, in 01's words.
#[derive(Debug, Clone, PartialEq)]
pub struct Request {
    pub taps: usize,
    pub symmetry: Symmetry,
    pub degree: usize,
    pub allowed: usize,
    pub threshold: f64,
    pub bands: Vec<Band>,
}

/// The number of functions of a filter. 01: taps / 2, plus 1 for even symmetry with odd taps.
pub fn functions(taps: usize, symmetry: Symmetry) -> usize {
    taps / 2 + usize::from(symmetry == Symmetry::Even && taps % 2 == 1)
}

/// A design that pm-remez made.
#[derive(Debug, Clone, PartialEq)]
pub struct Design {
    pub iterations: usize,
    pub flatness: f64,
    pub error: f64,
    pub taps: Vec<f64>,
    pub frequencies: Vec<f64>,
}

impl Design {
    /// Whether every number of it is finite.
    pub fn is_finite(&self) -> bool {
        let lists = self.taps.iter().chain(&self.frequencies);
        lists
            .chain([&self.flatness, &self.error])
            .all(|x| x.is_finite())
    }
}

/// How pm-remez failed, and in which exchange (0: before the first).
#[derive(Debug, Clone, Copy, PartialEq, Eq)]
pub struct Failure {
    pub name: &'static str,
    pub exchange: usize,
}

/// The name of an error of pm-remez.
pub fn name(error: &Error) -> &'static str {
    match error {
        Error::BandsEmpty => "BandsEmpty",
        Error::BandLimitsWrongOrder => "BandLimitsWrongOrder",
        Error::BandLimitsOutOfBounds => "BandLimitsOutOfBounds",
        Error::BandsOverlap => "BandsOverlap",
        Error::ProxyDerivativeZero => "ProxyDerivativeZero",
        Error::EigenvaluesError(_) => "EigenvaluesError",
        Error::InvalidResponse(_) => "InvalidResponse",
        Error::NotEnoughExtrema => "NotEnoughExtrema",
    }
}

thread_local! {
    /// Whether the Rust is being run, so that a panic has a name and is not printed.
    static RUNNING: Cell<bool> = const { Cell::new(false) };
}

/// What a run of the Rust gives, with a panic named like an error.
pub fn caught<A>(run: impl FnOnce() -> Result<A, Error>) -> Result<A, &'static str> {
    RUNNING.set(true);
    let end = catch_unwind(AssertUnwindSafe(run));
    RUNNING.set(false);
    match end {
        Ok(Ok(answer)) => Ok(answer),
        Ok(Err(error)) => Err(name(&error)),
        Err(_) => Err("panic"),
    }
}

/// Keeps the panics that [`caught`] names from being printed; all others still are.
pub fn quiet_panics() {
    let print = std::panic::take_hook();
    std::panic::set_hook(Box::new(move |panic| {
        if !RUNNING.get() {
            print(panic);
        }
    }));
}

/// A request as pm-remez asks for it, with a budget in place of the exchanges allowed.
struct Parameters<'a> {
    request: &'a Request,
    budget: usize,
    edges: Vec<pm_remez::Band<Number>>,
    /// pm-remez asks for the degree once before its loop and once in each turn of it, so this
    /// counts the exchanges begun.
    asked: Cell<usize>,
}

impl DesignParameters<Number> for Parameters<'_> {
    fn num_taps(&self) -> usize {
        self.request.taps
    }
    fn bands(&self) -> &[pm_remez::Band<Number>] {
        &self.edges
    }
    fn symmetry(&self) -> Symmetry {
        self.request.symmetry
    }
    fn desired_response(&self) -> impl Fn(Number) -> Number {
        plan::desired(&self.request.bands)
    }
    fn weights(&self) -> impl Fn(Number) -> Number {
        plan::weight(&self.request.bands)
    }
    fn chebyshev_proxy_degree(&self) -> usize {
        self.asked.set(self.asked.get() + 1);
        self.request.degree
    }
    fn max_iterations(&self) -> usize {
        self.budget
    }
    fn flatness_threshold(&self) -> Number {
        Number(self.request.threshold)
    }
}

/// Runs a request with at most `budget` exchanges: with fewer than its run makes, the answer is
/// the design as it stands after that many.
pub fn run(request: &Request, budget: usize) -> Result<Design, Failure> {
    let edges = plan::edges(&request.bands).map_err(|error| Failure {
        name: name(&error),
        exchange: 0,
    })?;
    let parameters = Parameters {
        request,
        budget,
        edges,
        asked: Cell::new(0),
    };
    let finder = Setting(|matrix| {
        roots::roots(&matrix)
            .map(|found| found.into_iter().map(Number).collect())
            .map_err(|why| why.name().to_string())
    });
    match caught(|| pm_remez_with_backend(&parameters, &finder)) {
        Ok(design) => Ok(Design {
            iterations: design.num_iterations,
            flatness: design.flatness.0,
            error: design.weighted_error.0,
            taps: plain(design.impulse_response),
            frequencies: plain(design.extremal_freqs),
        }),
        Err(name) => Err(Failure {
            name,
            exchange: parameters.asked.get().saturating_sub(1),
        }),
    }
}
