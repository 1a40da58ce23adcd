//! Bands with their desired values and weights, and the lookup in them: document 01, "Numbers that
//! bound the work".

use crate::number::Number;

/// A desired value or a weight over one band.
#[derive(Debug, Clone, Copy, PartialEq)]
pub enum Value {
    Constant(f64),
    /// The numbers at the band's begin and at its end.
    Linear(f64, f64),
}

impl Value {
    /// 0 constant, 1 linear.
    pub fn kind(self) -> u8 {
        match self {
            Value::Constant(_) => 0,
            Value::Linear(..) => 1,
        }
    }

    /// Both numbers; a constant repeats its own.
    pub fn ends(self) -> (f64, f64) {
        match self {
            Value::Constant(v) => (v, v),
            Value::Linear(v0, v1) => (v0, v1),
        }
    }
}

/// A band in cycles per sample.
#[derive(Debug, Clone, Copy, PartialEq)]
pub struct Band {
    pub begin: f64,
    pub end: f64,
    pub desired: Value,
    pub weight: Value,
}

/// The band that a frequency belongs to: the first whose end is not below it, else the last.
fn band_at(bands: &[Band], f: f64) -> &Band {
    bands
        .iter()
        // Not `end >= f`, which differs where f is NaN.
        .find(|band| !(band.end < f))
        .unwrap_or(&bands[bands.len() - 1])
}

/// The value at a frequency, clamped to its band. `which` takes the desired value or the weight.
pub fn lookup(bands: &[Band], which: fn(&Band) -> Value, f: f64) -> f64 {
    let band = band_at(bands, f);
    match which(band) {
        Value::Constant(v) => v,
        Value::Linear(v0, v1) => {
            let f = if f < band.begin {
                band.begin
            } else if f > band.end {
                band.end
            } else {
                f
            };
            v0 + (v1 - v0) * ((f - band.begin) / (band.end - band.begin))
        }
    }
}

/// The desired value as the closure that pm-remez asks for.
pub fn desired(bands: &[Band]) -> impl Fn(Number) -> Number + '_ {
    |f| Number(lookup(bands, |band| band.desired, f.0))
}

/// The weight as the closure that pm-remez asks for.
pub fn weight(bands: &[Band]) -> impl Fn(Number) -> Number + '_ {
    |f| Number(lookup(bands, |band| band.weight, f.0))
}

/// The bands' edges as pm-remez takes them; its own error where it does not.
pub fn edges(bands: &[Band]) -> Result<Vec<pm_remez::Band<Number>>, pm_remez::error::Error> {
    bands
        .iter()
        .map(|band| pm_remez::Band::new(Number(band.begin), Number(band.end)))
        .collect()
}
