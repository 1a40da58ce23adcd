//! The angle functions of document 01, item 1: ordered `+ - * /` on f64.
//!
//! A port of `crates/angles`, operation for operation and name for name; a refused call is none.

const PI: f64 = std::f64::consts::PI;
const PI_TAIL: f64 = 1.2246467991473532e-16;
const HALF_PI: f64 = std::f64::consts::FRAC_PI_2;
const HALF_PI_TAIL: f64 = 6.123233995736766e-17;
const QUARTER_PI: f64 = std::f64::consts::FRAC_PI_4;
const THREE_QUARTERS_PI: f64 = 2.356194490192345;

fn magnitude(x: f64) -> f64 {
    if x <= 0.0 {
        0.0 - x
    } else {
        x
    }
}

fn clamped(x: f64, low: f64, high: f64) -> f64 {
    if x <= high {
        if low <= x {
            x
        } else {
            low
        }
    } else {
        high
    }
}

fn by_cubic(w: f64, a: f64, b: f64, c: f64, d: f64) -> f64 {
    a + w * (b + w * (c + w * d))
}

fn by_square(w: f64, a: f64, b: f64, c: f64) -> f64 {
    a + w * (b + w * c)
}

/// Sine by its series: meant for -PI / 4 to PI / 4.
fn sine_part(r: f64) -> f64 {
    let z = r * r;
    let w = z * z;
    let even = by_cubic(
        w,
        0.008333333333333333,
        2.7557319223985893e-06,
        1.6059043836821613e-10,
        2.8114572543455206e-15,
    );
    let odd = by_cubic(
        w,
        0.16666666666666666,
        0.0001984126984126984,
        2.505210838544172e-08,
        7.647163731819816e-13,
    );
    r + r * (z * (z * even - odd))
}

/// Cosine by its series: meant for -PI / 4 to PI / 4.
fn cosine_part(r: f64) -> f64 {
    let z = r * r;
    let w = z * z;
    let even = by_cubic(
        w,
        0.041666666666666664,
        2.48015873015873e-05,
        2.08767569878681e-09,
        4.779477332387385e-14,
    );
    let odd = by_square(w, 0.001388888888888889, 2.755731922398589e-07, 1.1470745597729725e-11);
    1.0 - (0.5 * z - w * (even - z * odd))
}

fn is_taken(x: f64) -> bool {
    (0.0..=3.25).contains(&x)
}

fn folded_cosine(x: f64) -> f64 {
    if x <= QUARTER_PI {
        return cosine_part(x);
    }
    if x <= THREE_QUARTERS_PI {
        return sine_part((HALF_PI - x) + HALF_PI_TAIL);
    }
    0.0 - cosine_part((PI - x) + PI_TAIL)
}

fn folded_sine(x: f64) -> f64 {
    if x <= QUARTER_PI {
        return sine_part(x);
    }
    if x <= THREE_QUARTERS_PI {
        return cosine_part((HALF_PI - x) + HALF_PI_TAIL);
    }
    sine_part((PI - x) + PI_TAIL)
}

/// The cosine of an angle from 0 to 3.25.
pub fn cosine(x: f64) -> Option<f64> {
    is_taken(x).then(|| clamped(folded_cosine(x), -1.0, 1.0))
}

/// The sine of an angle from 0 to 3.25.
pub fn sine(x: f64) -> Option<f64> {
    is_taken(x).then(|| clamped(folded_sine(x), -1.0, 1.0))
}

/// A number scaled by powers of four, and what its root is multiplied by in the end.
#[derive(Clone, Copy)]
struct Scaled {
    square: f64,
    unit: f64,
}

fn raised(bound: f64, up: f64, down: f64, s: Scaled) -> Scaled {
    if s.square < bound {
        Scaled {
            square: s.square * up,
            unit: s.unit * down,
        }
    } else {
        s
    }
}

/// Into 2^-10 to 2^-2.
fn lifted(s: Scaled) -> Scaled {
    if s.square < 0.0009765625 {
        let a = raised(3.725290298461914e-09, 67108864.0, 0.0001220703125, s);
        let b = raised(1.52587890625e-05, 16384.0, 0.0078125, a);
        raised(0.0009765625, 256.0, 0.0625, b)
    } else {
        s
    }
}

/// Into 2^-4 to 2^-2.
fn settled(s: Scaled) -> Scaled {
    if s.square < 0.0625 {
        let a = raised(0.015625, 16.0, 0.25, s);
        raised(0.0625, 4.0, 0.5, a)
    } else {
        s
    }
}

fn heron_step(z: f64, y: f64) -> f64 {
    0.5 * (y + z / y)
}

fn root_in(s: Scaled) -> f64 {
    let z = s.square;
    let a = 0.136 + z * (2.0 - 2.2 * z);
    let b = heron_step(z, a);
    let c = heron_step(z, b);
    let y = heron_step(z, c);
    y * s.unit
}

/// The square root: meant for 0 and for 2^-54 to 1/4.
fn root(z: f64) -> f64 {
    if z == 0.0 {
        return 0.0;
    }
    let s = Scaled { square: z, unit: 1.0 };
    let t = lifted(s);
    let u = settled(t);
    root_in(u)
}

fn even_terms(w: f64) -> f64 {
    0.16666666666666669
        + w * (0.04464285714635543
            + w * (0.02237217294214989
                + w * (0.013971212973552933 + w * (0.01032281435018578 + w * (0.01740087944269402 + w * 0.028757851367421566)))))
}

fn odd_terms(w: f64) -> f64 {
    0.07499999999998433
        + w * (0.030381944138531247
            + w * (0.017352392720869973 + w * (0.011479177415184906 + w * (0.005457506718640358 - w * 0.014851887071247204))))
}

fn arcsine_part(z: f64) -> f64 {
    let w = z * z;
    even_terms(w) + z * odd_terms(w)
}

fn arcsine_of(s: f64, z: f64) -> f64 {
    s + s * (z * arcsine_part(z))
}

fn near(x: f64) -> f64 {
    let a = magnitude(x);
    let t = arcsine_of(a, a * a);
    if x <= 0.0 {
        HALF_PI + (t + HALF_PI_TAIL)
    } else {
        HALF_PI - (t - HALF_PI_TAIL)
    }
}

fn far(x: f64) -> f64 {
    let a = magnitude(x);
    let z = 0.5 * (1.0 - a);
    let t = arcsine_of(root(z), z);
    if x <= 0.0 {
        PI - (2.0 * t - PI_TAIL)
    } else {
        2.0 * t
    }
}

fn is_in_unit(x: f64) -> bool {
    (-1.0..=1.0).contains(&x)
}

fn folded_arccosine(x: f64) -> f64 {
    if magnitude(x) <= 0.5 {
        near(x)
    } else {
        far(x)
    }
}

/// The arccosine of a number from -1 to 1.
pub fn arccosine(x: f64) -> Option<f64> {
    is_in_unit(x).then(|| clamped(folded_arccosine(x), 0.0, PI))
}
