//! Cosine, sine and arccosine. These are our definitions: there is nothing of pm-remez in them.

use std::f64::consts::PI;

use crate::angles;
use crate::chance::Chance;
use crate::text::Page;

fn write(page: &mut Page, angle: fn(f64) -> Option<f64>, at: &[f64]) {
    page.numbers("at", at);
    let gives: Vec<f64> = at.iter().map(|&x| angle(x).unwrap_or(f64::NAN)).collect();
    page.numbers("gives", &gives);
}

/// Up to three steps below and above a number.
fn about(x: f64) -> Vec<f64> {
    let (mut low, mut high) = (x, x);
    let mut list = vec![x];
    for _ in 0..3 {
        low = low.next_down();
        high = high.next_up();
        list.extend([low, high]);
    }
    list
}

/// Eight places in 0 to 3.25, now and then outside.
fn turns(c: &mut Chance) -> Vec<f64> {
    (0..8)
        .map(|_| match c.below(12) {
            0 => {
                let (part, parts) = (c.between(0, 64), c.between(1, 64));
                (part.min(parts) as f64 * PI) / parts as f64
            }
            1 => c.power(-1074, 1),
            2 => {
                let near = c.among(&[0.0, PI / 4.0, PI / 2.0, 0.75 * PI, PI, 3.25]);
                c.among(&about(near))
            }
            3 => c.any(),
            _ => c.within(0.0, 3.25),
        })
        .collect()
}

pub fn cosine(c: &mut Chance, _: usize, page: &mut Page) {
    write(page, angles::cosine, &turns(c));
}

pub fn sine(c: &mut Chance, _: usize, page: &mut Page) {
    write(page, angles::sine, &turns(c));
}

pub fn arccosine(c: &mut Chance, _: usize, page: &mut Page) {
    let at: Vec<f64> = (0..8)
        .map(|_| match c.below(12) {
            0 => {
                let near = c.among(&[-1.0, -0.5, -0.0, 0.0, 0.5, 1.0]);
                c.among(&about(near))
            }
            1 => {
                let small = c.power(-1074, 0);
                c.signed(small)
            }
            2 => {
                let off = c.power(-53, 0);
                c.signed(1.0 - off)
            }
            3 => c.any(),
            _ => c.within(-1.0, 1.0),
        })
        .collect();
    write(page, angles::arccosine, &at);
}

/// The places where an angle's definition could go wrong, one leaf case for each group of them.
pub fn places(page: &mut Page) {
    let mut turns: Vec<Vec<f64>> = [0.0, -0.0, PI / 4.0, PI / 2.0, 0.75 * PI, PI, 3.0, 3.25]
        .iter()
        .map(|&x| about(x))
        .collect();
    // The angles of nodes, of coefficients and of the last response samples (01, item 3).
    for n in 1..=64 {
        let n = n as f64;
        turns.push((0..=n as usize).map(|j| j as f64 * (PI / n)).collect());
        turns.push((0..=n as usize).map(|j| (j as f64 * PI) / n).collect());
    }
    turns.push(
        (0..=1000)
            .map(|j| f64::from(j) / 2000.0 * (2.0 * PI))
            .collect(),
    );
    turns.push(
        (1..=1074)
            .map(|e| f64::from_bits(subnormal_power(e)))
            .collect(),
    );
    turns.push((0..=3250).map(|j| f64::from(j) / 1000.0).collect());
    turns.push(vec![
        f64::NAN,
        f64::INFINITY,
        f64::NEG_INFINITY,
        -1.0,
        4.0,
        f64::MAX,
    ]);
    let mut lengths: Vec<Vec<f64>> = [-1.0, -0.5, -0.0, 0.0, 0.5, 1.0]
        .iter()
        .map(|&x| about(x))
        .collect();
    lengths.push((0..=64).map(|j| -1.0 + f64::from(j) / 32.0).collect());
    lengths.push((0..=2000).map(|j| f64::from(j - 1000) / 1000.0).collect());
    for sign in [1.0, -1.0] {
        let powers = (1..=1074).map(|e| f64::from_bits(subnormal_power(e)));
        lengths.push(powers.clone().map(|small| sign * small).collect());
        lengths.push(powers.take(53).map(|small| sign * (1.0 - small)).collect());
    }
    lengths.push(
        turns
            .iter()
            .flatten()
            .filter_map(|&x| angles::cosine(x))
            .collect(),
    );
    lengths.push(vec![
        f64::NAN,
        f64::INFINITY,
        f64::NEG_INFINITY,
        -2.0,
        2.0,
        f64::MAX,
    ]);
    for group in &turns {
        page.line(format_args!("leaf cosine"));
        write(page, angles::cosine, group);
        page.line(format_args!("leaf sine"));
        write(page, angles::sine, group);
    }
    for group in &lengths {
        page.line(format_args!("leaf arccosine"));
        write(page, angles::arccosine, group);
    }
}

/// The bits of 2 to the power -e, for e from 1 to 1074.
fn subnormal_power(e: u64) -> u64 {
    if e > 1022 {
        1 << (1074 - e)
    } else {
        (1023 - e) << 52
    }
}
