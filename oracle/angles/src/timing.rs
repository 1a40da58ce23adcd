//! Nanoseconds a call: throughput where no call waits for another, latency where each waits for the one before.
//! The best of some rounds counts: what else the host does only adds.

use std::hint::black_box;
use std::time::Instant;

const ROUNDS: usize = 8;
const TURNS: usize = 32;

pub fn time(places: &[f64], function: impl Fn(f64) -> f64) -> (f64, f64) {
    let calls = (TURNS * places.len()) as f64;
    let mut values = vec![0.0; places.len()];
    let mut best = (f64::INFINITY, f64::INFINITY);
    for _ in 0..ROUNDS {
        let began = Instant::now();
        for _ in 0..TURNS {
            for (value, place) in values.iter_mut().zip(black_box(places)) {
                *value = function(*place);
            }
            black_box(&values);
        }
        best.0 = began.elapsed().as_secs_f64().min(best.0);
        let mask = black_box(0u64);
        let mut last = 0.0f64;
        let began = Instant::now();
        for _ in 0..TURNS {
            for place in black_box(places) {
                // the place waits for the last value, of which it takes no bit
                last = function(f64::from_bits(place.to_bits() ^ (last.to_bits() & mask)));
            }
        }
        black_box(last);
        best.1 = began.elapsed().as_secs_f64().min(best.1);
    }
    (best.0 * 1e9 / calls, best.1 * 1e9 / calls)
}
