//! The judgement of the angles: proved code against port, bit for bit, and both against the host's library.

use crate::function::{FUNCTIONS, Function};
use crate::places::{Mixed, special, swept};
use crate::proved::{BLOCK, Proved};
use crate::timing::time;

/// Places of a dense sweep, for each function.
const DENSE: u64 = 8_000_000;
/// The goal: 2^-50. Document 01 asks for 2^-40.
const NEAR: f64 = 8.881784197001252e-16;

struct Judged {
    function: Function,
    places: u64,
    refused: u64,
    same: u64,
    farthest: f64,
    at: f64,
}

impl Judged {
    fn judge(&mut self, place: f64, proved: f64) -> Result<(), String> {
        let name = self.function.name();
        let shown = format!("{name} of {place:e} ({:016x})", place.to_bits());
        self.places += 1;
        let port = self.function.port(place);
        if self.function.takes(place) == proved.is_nan() {
            let done = if proved.is_nan() {
                "refused"
            } else {
                "answered"
            };
            return Err(format!("{shown} is {done} by the proved code"));
        }
        if port.is_none() != proved.is_nan() {
            return Err(format!(
                "{shown}: the port and the proved code differ on the domain"
            ));
        }
        let Some(port) = port else {
            self.refused += 1;
            return Ok(());
        };
        if port.to_bits() != proved.to_bits() {
            let (a, b) = (port.to_bits(), proved.to_bits());
            return Err(format!(
                "{shown}: the port gives {a:016x}, the proved code {b:016x}"
            ));
        }
        let host = self.function.host(place);
        self.same += (host.to_bits() == proved.to_bits()) as u64;
        let apart = (host - proved).abs();
        if apart > self.farthest {
            (self.farthest, self.at) = (apart, place);
        }
        if apart <= NEAR {
            Ok(())
        } else {
            Err(format!(
                "{shown} is {apart:e} from the host's: more than 2^-50"
            ))
        }
    }

    fn print(&self, swept: u64) {
        let (first, last) = self.function.domain();
        let answered = self.places - self.refused;
        println!("{}", self.function.name());
        println!(
            "  places                 {swept} swept, {} special",
            self.places - swept
        );
        println!(
            "  refused                {}: exactly those outside {first} to {last}",
            self.refused
        );
        println!("  proved code and port   the same bits at all {answered} others");
        println!(
            "  from the host's        at most {:.3e} = 2^{:.2}, at {:e} ({:016x})",
            self.farthest,
            self.farthest.log2(),
            self.at,
            self.at.to_bits()
        );
        println!(
            "  the host's very bits   {:.2} %",
            100.0 * self.same as f64 / answered as f64
        );
    }
}

fn times(command: &[String]) -> Result<(), String> {
    println!("nanoseconds a call     throughput  latency");
    for function in FUNCTIONS {
        let (first, last) = function.domain();
        let mut mixed = Mixed(0);
        let places: Vec<f64> = (0..BLOCK)
            .map(|_| first + (last - first) * mixed.part())
            .collect();
        let (proved, port, host) = (
            Proved::time(command, function, &places)?,
            match function {
                Function::Cosine => time(&places, |x| crate::angles::cosine(x).unwrap_or(f64::NAN)),
                Function::Sine => time(&places, |x| crate::angles::sine(x).unwrap_or(f64::NAN)),
                Function::Arccosine => {
                    time(&places, |x| crate::angles::arccosine(x).unwrap_or(f64::NAN))
                }
            },
            match function {
                Function::Cosine => time(&places, f64::cos),
                Function::Sine => time(&places, f64::sin),
                Function::Arccosine => time(&places, f64::acos),
            },
        );
        let name = function.name();
        for (whose, (throughput, latency)) in [("proved", proved), ("port", port), ("host's", host)]
        {
            println!("  {name:<10} {whose:<8} {throughput:>11.1} {latency:>8.1}");
        }
    }
    if cfg!(not(target_arch = "x86_64")) {
        println!(
            "  (this host is no x86-64: the proved code ran in an emulator, and its times say nothing)"
        );
    }
    Ok(())
}

pub fn sweep(command: &[String]) -> Result<(), String> {
    let special = special();
    let mut proved = Proved::start(command, &[])?;
    for function in FUNCTIONS {
        let mut judged = Judged {
            function,
            places: 0,
            refused: 0,
            same: 0,
            farthest: 0.0,
            at: 0.0,
        };
        let mut block = Vec::with_capacity(BLOCK);
        let dense = (0..DENSE).map(|number| swept(function, number, DENSE));
        let mut places = special.iter().copied().chain(dense).peekable();
        while places.peek().is_some() {
            block.clear();
            block.extend(places.by_ref().take(BLOCK));
            for (place, value) in block.iter().zip(proved.values(function, &block)?) {
                judged.judge(*place, value)?;
            }
        }
        judged.print(DENSE);
    }
    proved.end()?;
    times(command)
}
