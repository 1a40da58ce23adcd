//! Requests that are asked by name: filters that show the method, and the smallest inputs that
//! show where the Rust and document 01 differ.

use pm_remez::Symmetry;

use crate::design::Request;
use crate::plan::{Band, Value};

fn band(begin: f64, end: f64, desired: Value, weight: f64) -> Band {
    Band {
        begin,
        end,
        desired,
        weight: Value::Constant(weight),
    }
}

fn flat(begin: f64, end: f64, gain: f64, weight: f64) -> Band {
    band(begin, end, Value::Constant(gain), weight)
}

/// A request with pm-remez's own settings: degree 8, 100 exchanges, threshold 1e-3.
fn usual(taps: usize, symmetry: Symmetry, bands: &[Band]) -> Request {
    Request {
        taps,
        symmetry,
        degree: 8,
        allowed: 100,
        threshold: 1e-3,
        bands: bands.to_vec(),
    }
}

/// The requests, each with what it is.
pub fn requests() -> Vec<(&'static str, Request)> {
    use Symmetry::{Even, Odd};
    let lowpass = [flat(0.0, 0.18, 1.0, 1.0), flat(0.22, 0.5, 0.0, 1.0)];
    let bandpass = [
        flat(0.0, 0.1, 0.0, 1.0),
        flat(0.15, 0.25, 1.0, 1.0),
        flat(0.3, 0.5, 0.0, 1.0),
    ];
    let five = [
        flat(0.0, 0.08, 1.0, 1.0),
        flat(0.1, 0.15, 0.0, 10.0),
        flat(0.18, 0.22, 1.0, 1.0),
        flat(0.25, 0.28, 0.0, 10.0),
        flat(0.3, 0.5, 1.0, 1.0),
    ];
    let differentiator = [band(0.0, 0.5, Value::Linear(0.0, 1.0), 1.0)];
    let none_allowed = |request: Request| Request {
        allowed: 0,
        ..request
    };
    vec![
        ("lowpass, 35 taps", usual(35, Even, &lowpass)),
        ("lowpass, 64 taps", usual(64, Even, &lowpass)),
        ("lowpass, 127 taps", usual(127, Even, &lowpass)),
        ("lowpass, 128 taps, the most", usual(128, Even, &lowpass)),
        ("bandpass, 101 taps", usual(101, Even, &bandpass)),
        ("differentiator, 64 taps", usual(64, Odd, &differentiator)),
        (
            "Hilbert, 31 taps",
            usual(31, Odd, &[flat(0.05, 0.45, 1.0, 1.0)]),
        ),
        ("five bands, 127 taps", usual(127, Even, &five)),
        (
            "lookup takes the wrong band at 0.05",
            usual(
                35,
                Even,
                &[flat(0.0, 0.05, 1.0, 1.0), flat(0.1, 0.5, 0.0, 1.0)],
            ),
        ),
        (
            "a band without length at 0 is kept by the Rust",
            none_allowed(usual(
                4,
                Odd,
                &[flat(0.0, 1e-4, 0.0, 1.0), flat(0.1, 0.4, 1.0, 1.0)],
            )),
        ),
        (
            "a band without length at 0.5 is kept by the Rust",
            Request {
                allowed: 1,
                ..usual(
                    7,
                    Odd,
                    &[flat(0.1, 0.4, 1.0, 1.0), flat(0.4999, 0.5, 0.0, 1.0)],
                )
            },
        ),
        (
            "no band is left: the Rust panics",
            none_allowed(usual(4, Odd, &[flat(0.0, 5e-5, 0.0, 1.0)])),
        ),
        (
            "a derivative of one coefficient: the Rust panics",
            Request {
                degree: 2,
                allowed: 1,
                ..usual(
                    3,
                    Even,
                    &[
                        flat(0.125, 1.0 / 6.0, 2.0, 2.0),
                        band(0.25, 0.375, Value::Linear(-1.0, 0.5), 1.0),
                    ],
                )
            },
        ),
        (
            "all values zero",
            usual(
                35,
                Even,
                &[flat(0.0, 0.18, 0.0, 1.0), flat(0.22, 0.5, 0.0, 1.0)],
            ),
        ),
        (
            "not realizable: even symmetry, even taps, value 1 at 0.5",
            usual(
                64,
                Even,
                &[flat(0.0, 0.18, 0.0, 1.0), flat(0.22, 0.5, 1.0, 1.0)],
            ),
        ),
        (
            "not realizable: odd symmetry, value 1 at 0",
            usual(64, Odd, &[flat(0.0, 0.18, 1.0, 1.0)]),
        ),
    ]
}
