//! The three functions: the port of ours, the host's, and where they are defined.

use crate::angles;

#[derive(Clone, Copy, PartialEq)]
pub enum Function {
    Cosine,
    Sine,
    Arccosine,
}

pub const FUNCTIONS: [Function; 3] = [Function::Cosine, Function::Sine, Function::Arccosine];

impl Function {
    pub fn name(self) -> &'static str {
        match self {
            Function::Cosine => "cosine",
            Function::Sine => "sine",
            Function::Arccosine => "arccosine",
        }
    }

    /// The first and the last number that is taken (document 01, item 1).
    pub fn domain(self) -> (f64, f64) {
        match self {
            Function::Cosine | Function::Sine => (0.0, 3.25),
            Function::Arccosine => (-1.0, 1.0),
        }
    }

    pub fn takes(self, x: f64) -> bool {
        let (first, last) = self.domain();
        first <= x && x <= last
    }

    pub fn port(self, x: f64) -> Option<f64> {
        match self {
            Function::Cosine => angles::cosine(x),
            Function::Sine => angles::sine(x),
            Function::Arccosine => angles::arccosine(x),
        }
    }

    pub fn host(self, x: f64) -> f64 {
        match self {
            Function::Cosine => x.cos(),
            Function::Sine => x.sin(),
            Function::Arccosine => x.acos(),
        }
    }
}
