//! The same loops in plain Rust, as pm-remez and document 01 have them.

pub type Matrix = [[f64; 15]; 15];

pub fn weight(x: &[f64], k: usize) -> f64 {
    let stride = (x.len() - 2) / 15 + 1;
    let mut product = 1.0;
    for a in 0..stride {
        for j in (a..x.len()).step_by(stride) {
            if j != k {
                product = product * ((x[k] - x[j]) * 2.0);
            }
        }
    }
    1.0 / product
}

pub fn response(x0: f64, x: &[f64], w: &[f64], y: &[f64]) -> f64 {
    let (mut numer, mut denom) = (0.0, 0.0);
    for ((&xk, &wk), &yk) in x.iter().zip(w).zip(y) {
        if x0 == xk {
            return yk;
        }
        let z = wk / (x0 - xk);
        numer = numer + z * yk;
        denom = denom + z;
    }
    numer / denom
}

fn clenshaw(a: &[f64], x: f64) -> f64 {
    let (mut b1, mut b2) = (a[a.len() - 1], 0.0);
    for &ak in a[1..a.len() - 1].iter().rev() {
        (b1, b2) = (2.0 * x * b1 - b2 + ak, b1);
    }
    x * b1 - b2 + a[0]
}

pub fn coefficients(values: &[f64], out: &mut [f64]) {
    let mut d = values.to_vec();
    let n = d.len() - 1;
    d[0] *= 0.5;
    d[n] *= 0.5;
    for j in 0..=n {
        let x = crate::angles::cosine(j as f64 * std::f64::consts::PI / n as f64).unwrap();
        out[j] = clenshaw(&d, x) * (2.0 / n as f64);
    }
    out[0] *= 0.5;
    out[n] *= 0.5;
}

/// The colleague matrix of s + 1 coefficients, not balanced.
pub fn colleague(c: &[f64]) -> Matrix {
    let s = c.len() - 1;
    let mut a = [[0.0; 15]; 15];
    for j in 0..s - 1 {
        a[j][j + 1] = 0.5;
    }
    for j in 2..s {
        a[j][j - 1] = 0.5;
    }
    let scale = -0.5 / c[s];
    for j in 0..s {
        let first = c[s - 1 - j] * scale;
        a[j][0] = if j == 1 { first + 0.5 } else { first };
    }
    a
}

/// Balances the first n rows and columns, and answers the passes.
pub fn balance(a: &mut Matrix, n: usize) -> u64 {
    let mut passes = 0;
    loop {
        passes += 1;
        let mut converged = true;
        for j in 0..n {
            let (mut row_norm, mut col_norm) = (0.0, 0.0);
            for k in 0..n {
                if k != j {
                    row_norm = row_norm + a[j][k].abs();
                    col_norm = col_norm + a[k][j].abs();
                }
            }
            if row_norm == 0.0 || col_norm == 0.0 {
                continue;
            }
            let norm_sum = row_norm + col_norm;
            let mut f = 1.0;
            while col_norm.is_normal() && col_norm <= row_norm * 0.5 {
                f = f * 2.0;
                col_norm = col_norm * 4.0;
            }
            while col_norm.is_normal() && col_norm > row_norm * 2.0 {
                f = f / 2.0;
                col_norm = col_norm / 4.0;
            }
            if !col_norm.is_normal() {
                return passes;
            }
            if row_norm + col_norm < 0.95 * norm_sum * f {
                converged = false;
                let f_recip = 1.0 / f;
                for k in 0..n {
                    if k != j {
                        a[j][k] = a[j][k] * f_recip;
                        a[k][j] = a[k][j] * f;
                    }
                }
            }
        }
        if converged {
            return passes;
        }
    }
}

pub fn residual(a: &Matrix, s: usize, x: f64) -> f64 {
    let mut n = x - a[0][0];
    let mut v = 1.0;
    for j in 1..s {
        let before = v;
        v = n / a[j - 1][j];
        n = if j == 1 {
            x * v - a[1][0]
        } else {
            (x * v - a[j][0]) - a[j][j - 1] * before
        };
    }
    n
}

pub fn cell_end(j: usize) -> f64 {
    -1.0 + j as f64 / 32.0
}

pub fn grid(a: &Matrix, s: usize, out: &mut [f64]) {
    for j in 0..65 {
        out[j] = residual(a, s, cell_end(j));
    }
}

pub fn opposite(a: f64, b: f64) -> bool {
    (a < 0.0 && b > 0.0) || (a > 0.0 && b < 0.0)
}

pub fn halve(a: &Matrix, s: usize, below: f64, mut low: f64, mut high: f64) -> Option<f64> {
    for _ in 0..40 {
        let middle = (low + high) * 0.5;
        let here = residual(a, s, middle);
        if !here.is_finite() {
            return None;
        }
        if here == 0.0 {
            return Some(middle);
        }
        if opposite(below, here) {
            high = middle;
        } else {
            low = middle;
        }
    }
    Some(low)
}

/// Insertion of each candidate, x and error as words, before the first that it is below.
pub fn sort(words: &mut [u64]) {
    for i in 0..words.len() / 2 {
        let (x, error) = (words[2 * i], words[2 * i + 1]);
        let mut k = i;
        while k > 0 && f64::from_bits(x) < f64::from_bits(words[2 * k - 2]) {
            words[2 * k] = words[2 * k - 2];
            words[2 * k + 1] = words[2 * k - 1];
            k -= 1;
        }
        words[2 * k] = x;
        words[2 * k + 1] = error;
    }
}

/// The places that pruning to n keeps, which are enough.
pub fn prune(errors: &[f64], n: usize, out: &mut [u64]) {
    let mut kept: Vec<usize> = Vec::with_capacity(errors.len());
    let mut b = 0;
    for a in 1..errors.len() {
        let turned = (errors[a] < 0.0) != (errors[b] < 0.0);
        if turned {
            kept.push(b);
        }
        if turned || errors[a].abs() > errors[b].abs() {
            b = a;
        }
    }
    kept.push(b);
    if (kept.len() - n) % 2 == 1 {
        if errors[kept[0]].abs() >= errors[kept[kept.len() - 1]].abs() {
            kept.pop();
        } else {
            kept.remove(0);
        }
    }
    while kept.len() > n {
        let weaker = |k: usize| errors[kept[k]].abs().min(errors[kept[k + 1]].abs());
        let (mut best, mut least) = (0, weaker(0));
        for k in 1..kept.len() - 1 {
            let v = weaker(k);
            if v < least {
                (best, least) = (k, v);
            }
        }
        kept.drain(best..best + 2);
    }
    for (place, o) in kept.iter().zip(out) {
        *o = *place as u64;
    }
}
