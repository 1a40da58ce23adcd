//! A stream of chosen numbers that is a pure function of a seed, a subject and an index.

/// splitmix64: the state walks by a fixed odd step, and each number is a mix of the state.
pub struct Chance(u64);

fn mixed(z: u64) -> u64 {
    let z = (z ^ (z >> 30)).wrapping_mul(0xbf58476d1ce4e5b9);
    let z = (z ^ (z >> 27)).wrapping_mul(0x94d049bb133111eb);
    z ^ (z >> 31)
}

impl Chance {
    /// The stream of case `index` of `subject` under `seed`.
    pub fn new(seed: u64, subject: &str, index: u64) -> Chance {
        let start = subject
            .bytes()
            .fold(mixed(seed ^ 0x9e3779b97f4a7c15), |z, byte| {
                mixed(z ^ u64::from(byte))
            });
        Chance(mixed(start ^ mixed(index.wrapping_add(0xd1b54a32d192ed03))))
    }

    /// The next 64 bits.
    pub fn bits(&mut self) -> u64 {
        self.0 = self.0.wrapping_add(0x9e3779b97f4a7c15);
        mixed(self.0)
    }

    /// A whole number from 0 to `n` - 1.
    pub fn below(&mut self, n: usize) -> usize {
        ((u128::from(self.bits()) * n as u128) >> 64) as usize
    }

    /// A whole number from `low` to `high`, both included.
    pub fn between(&mut self, low: usize, high: usize) -> usize {
        low + self.below(high - low + 1)
    }

    /// True once in `n` times.
    pub fn one_in(&mut self, n: usize) -> bool {
        self.below(n) == 0
    }

    /// One of a list.
    pub fn among<A: Copy>(&mut self, list: &[A]) -> A {
        list[self.below(list.len())]
    }

    /// 0 up to, not including, 1.
    pub fn unit(&mut self) -> f64 {
        (self.bits() >> 11) as f64 / (1u64 << 53) as f64
    }

    /// From `low` up to about `high`.
    pub fn within(&mut self, low: f64, high: f64) -> f64 {
        low + (high - low) * self.unit()
    }

    /// A power of two with an exponent from `low` to `high`; below -1022 it is subnormal.
    pub fn power(&mut self, low: i32, high: i32) -> f64 {
        let exponent = low + self.below((high - low + 1) as usize) as i32;
        if exponent < -1022 {
            f64::from_bits(1 << (exponent + 1074))
        } else {
            f64::from_bits(((exponent + 1023) as u64) << 52)
        }
    }

    /// A number as people write them: small, whole or with few decimals.
    pub fn plain(&mut self) -> f64 {
        match self.below(6) {
            0 => 1.0,
            1 => self.between(1, 10) as f64,
            2 => self.between(1, 1000) as f64 / 100.0,
            3 => self.power(-6, 6),
            4 => self.among(&[1e-3, 1e-2, 1e-1, 1e1, 1e2, 1e3]),
            _ => self.within(0.01, 3.0),
        }
    }

    /// A positive number from the far ends: tiny, huge, subnormal, the very least and greatest.
    pub fn extreme(&mut self) -> f64 {
        match self.below(8) {
            0 => f64::MIN_POSITIVE,
            1 => f64::from_bits(1),
            2 => f64::MAX,
            3 => f64::from_bits(self.bits() >> 12 | 1),
            4 => self.power(-1074, -900),
            5 => self.power(900, 1023),
            6 => self.within(1.0, 2.0) * self.power(-300, -30),
            _ => self.within(1.0, 2.0) * self.power(30, 300),
        }
    }

    /// The same number, negative half of the time.
    pub fn signed(&mut self, x: f64) -> f64 {
        if self.one_in(2) { -x } else { x }
    }

    /// A number as lists hold them: zeros of both signs, small whole numbers, plain ones, parts of 1.
    pub fn common(&mut self) -> f64 {
        match self.below(16) {
            0 => 0.0,
            1 => -0.0,
            2 | 3 => {
                let whole = self.between(1, 3) as f64;
                self.signed(whole)
            }
            4..=7 => {
                let plain = self.plain();
                self.signed(plain)
            }
            _ => self.within(-1.0, 1.0),
        }
    }

    /// Any finite number: a common one, now and then one from the far ends.
    pub fn any(&mut self) -> f64 {
        if self.one_in(12) {
            let far = self.extreme();
            self.signed(far)
        } else {
            self.common()
        }
    }
}
