//! The text format, as it is written. oracle/README.md says what each line means.

use std::fmt::Write;

use pm_remez::Symmetry;

use crate::design::{Design, Failure, Request};
use crate::plan::{Band, Value};

/// An f64 as the 16 hex digits of its bits; every NaN is the same one.
pub fn hex(x: f64) -> String {
    let bits = if x.is_nan() {
        0x7ff8000000000000
    } else {
        x.to_bits()
    };
    format!("{bits:016x}")
}

/// 0 even, 1 odd.
pub fn symmetry_digit(symmetry: Symmetry) -> u8 {
    match symmetry {
        Symmetry::Even => 0,
        Symmetry::Odd => 1,
    }
}

/// A text that grows line by line.
#[derive(Default)]
pub struct Page(pub String);

impl Page {
    /// A line of words.
    pub fn line(&mut self, words: std::fmt::Arguments) {
        self.0.write_fmt(words).expect("a text can grow");
        self.0.push('\n');
    }

    /// `KEYWORD` and one number.
    pub fn number(&mut self, keyword: &str, x: f64) {
        self.line(format_args!("{keyword} {}", hex(x)));
    }

    /// `KEYWORD N` and N numbers.
    pub fn numbers(&mut self, keyword: &str, list: &[f64]) {
        self.0.push_str(keyword);
        write!(self.0, " {}", list.len()).expect("a text can grow");
        for &x in list {
            self.0.push(' ');
            self.0.push_str(&hex(x));
        }
        self.0.push('\n');
    }

    /// `KEYWORD N` and N pairs of numbers.
    pub fn pairs(&mut self, keyword: &str, list: &[(f64, f64)]) {
        self.0.push_str(keyword);
        write!(self.0, " {}", list.len()).expect("a text can grow");
        for &(a, b) in list {
            write!(self.0, " {} {}", hex(a), hex(b)).expect("a text can grow");
        }
        self.0.push('\n');
    }

    /// `KEYWORD N` and N whole numbers.
    pub fn wholes(&mut self, keyword: &str, list: &[usize]) {
        self.0.push_str(keyword);
        write!(self.0, " {}", list.len()).expect("a text can grow");
        for n in list {
            write!(self.0, " {n}").expect("a text can grow");
        }
        self.0.push('\n');
    }

    /// The band lines of a plan.
    pub fn bands(&mut self, bands: &[Band]) {
        for band in bands {
            let both = |value: Value| {
                let (v0, v1) = value.ends();
                format!("{} {}", hex(v0), hex(v1))
            };
            self.line(format_args!(
                "band {} {} {} {} {} {}",
                band.desired.kind(),
                band.weight.kind(),
                hex(band.begin),
                hex(band.end),
                both(band.desired),
                both(band.weight),
            ));
        }
    }

    /// A request: its line and its band lines.
    pub fn request(&mut self, request: &Request) {
        self.line(format_args!(
            "request {} {} {} {} {} {}",
            request.taps,
            symmetry_digit(request.symmetry),
            request.degree,
            request.allowed,
            hex(request.threshold),
            request.bands.len(),
        ));
        self.bands(&request.bands);
    }

    /// What pm-remez answers. Where it failed, a comment says in which exchange.
    pub fn answer(&mut self, answer: &Result<Design, Failure>) {
        match answer {
            Ok(design) => {
                self.line(format_args!(
                    "answer design {} {} {}",
                    design.iterations,
                    hex(design.flatness),
                    hex(design.error),
                ));
                self.numbers("taps", &design.taps);
                self.numbers("frequencies", &design.frequencies);
            }
            Err(failure) => {
                self.line(format_args!("answer failed {}", failure.name));
                self.line(format_args!("# in exchange {}", failure.exchange));
            }
        }
    }
}
