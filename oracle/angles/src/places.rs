//! Where the functions are asked. Every place follows from its number: no clock, no chance.

use crate::function::Function;

/// The splitmix64 generator.
pub struct Mixed(pub u64);

impl Mixed {
    pub fn word(&mut self) -> u64 {
        self.0 = self.0.wrapping_add(0x9e37_79b9_7f4a_7c15);
        let mut z = self.0;
        z = (z ^ (z >> 30)).wrapping_mul(0xbf58_476d_1ce4_e5b9);
        z = (z ^ (z >> 27)).wrapping_mul(0x94d0_49bb_1331_11eb);
        z ^ (z >> 31)
    }

    /// 0 to below 1.
    pub fn part(&mut self) -> f64 {
        (self.word() >> 11) as f64 / (1u64 << 53) as f64
    }
}

/// The place of a number in the order of all numbers, 0.0 and -0.0 both at 0.
fn rank(x: f64) -> i64 {
    let bits = x.to_bits() as i64;
    if bits < 0 { i64::MIN - bits } else { bits }
}

fn ranked(rank: i64) -> f64 {
    if rank < 0 {
        f64::from_bits((i64::MIN - rank) as u64)
    } else {
        f64::from_bits(rank as u64)
    }
}

/// A number and as many neighbours on each side.
pub fn around(x: f64, count: i64) -> impl Iterator<Item = f64> {
    let middle = rank(x);
    (-count..=count).map(move |k| ranked(middle + k))
}

pub fn power_of_two(exponent: i32) -> f64 {
    if exponent < -1022 {
        f64::from_bits(1 << (exponent + 1074))
    } else {
        f64::from_bits(((exponent + 1023) as u64) << 52)
    }
}

/// Where something changes: the ends of the domains, the folds, and 0.
pub const TURNS: [f64; 8] = [
    0.0,
    0.5,
    std::f64::consts::FRAC_PI_4,
    1.0,
    std::f64::consts::FRAC_PI_2,
    2.356194490192345,
    std::f64::consts::PI,
    3.25,
];

/// The special places, the same for every function: most of them lie outside some domain.
pub fn special() -> Vec<f64> {
    let mut places = vec![0.0, -0.0];
    for turn in TURNS {
        places.extend(around(turn, 1000));
        places.extend(around(-turn, 1000));
    }
    for exponent in -1074..=1023 {
        let x = power_of_two(exponent);
        places.extend(around(x, 1));
        places.extend(around(-x, 1));
    }
    for bit in 0..52 {
        // subnormals of all lengths
        let ones = f64::from_bits((1 << bit) | ((1 << bit) - 1));
        places.extend([ones, -ones]);
    }
    let infinity = f64::INFINITY.to_bits();
    for tail in [0, 1, 1 << 51, (1 << 52) - 1] {
        // the infinities and a NaN of each kind
        let x = f64::from_bits(infinity | tail);
        places.extend([x, -x]);
    }
    places.extend([f64::MAX, f64::MIN, 3.5, 4.0, 6.5, 1e22, -1e22]);
    places
}

/// One of a dense sweep's places: half evenly spread, a quarter of every size, a quarter close to a turn.
pub fn swept(function: Function, number: u64, count: u64) -> f64 {
    let mut mixed = Mixed(number ^ 0x5eed);
    let (first, last) = function.domain();
    let spread = first + (last - first) * ((number as f64 + mixed.part()) / count as f64);
    let signed = |x: f64, word: u64| if first < 0.0 && word & 1 == 1 { -x } else { x };
    let place = match number % 4 {
        0 => {
            let top = rank(last) as u64;
            let x = ranked((mixed.word() % (top + 1)) as i64);
            signed(x, mixed.word())
        }
        1 => {
            let turn = TURNS[(mixed.word() % TURNS.len() as u64) as usize];
            let apart = mixed.part() * power_of_two(-((mixed.word() % 54) as i32));
            let x = if mixed.word() & 1 == 1 {
                turn - apart
            } else {
                turn + apart
            };
            signed(x, mixed.word())
        }
        _ => spread,
    };
    if function.takes(place) {
        place
    } else {
        spread.min(last)
    }
}
