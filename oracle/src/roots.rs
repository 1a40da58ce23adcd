//! The root finder that takes the place of pm-remez's eigenvalues: document 01, "Roots".

use ndarray::Array2;

use crate::number::Number;

/// Why there are no roots to hand out (refusal 12).
#[derive(Debug, Clone, Copy, PartialEq, Eq)]
pub enum NoRoots {
    NotFinite,
    TooMany,
}

impl NoRoots {
    pub fn name(self) -> &'static str {
        match self {
            NoRoots::NotFinite => "ResidualNotFinite",
            NoRoots::TooMany => "MoreRootsThanRows",
        }
    }
}

const CELLS: usize = 64;
const HALVINGS: usize = 40;

/// n(s-1) of 01's recurrence at `x`, which is zero at a root; an error where it is not finite.
fn residual(a: &Array2<Number>, x: f64) -> Result<f64, NoRoots> {
    let a_at = |row: usize, column: usize| a[(row, column)].0;
    let s = a.nrows();
    let mut n = x - a_at(0, 0);
    let mut v = 1.0;
    for j in 1..s {
        let before = v;
        v = n / a_at(j - 1, j);
        n = if j == 1 {
            x * v - a_at(1, 0)
        } else {
            (x * v - a_at(j, 0)) - a_at(j, j - 1) * before
        };
    }
    if n.is_finite() {
        Ok(n)
    } else {
        Err(NoRoots::NotFinite)
    }
}

fn opposite(a: f64, b: f64) -> bool {
    (a < 0.0 && b > 0.0) || (a > 0.0 && b < 0.0)
}

/// The root of a cell whose end residuals have opposite signs. `below` is the lower end's.
fn halved(a: &Array2<Number>, mut low: f64, mut high: f64, below: f64) -> Result<f64, NoRoots> {
    for _ in 0..HALVINGS {
        let middle = (low + high) * 0.5;
        let here = residual(a, middle)?;
        if here == 0.0 {
            return Ok(middle);
        }
        // The half that is kept has ends that differ in sign; the lower end's sign never changes.
        if opposite(below, here) {
            high = middle;
        } else {
            low = middle;
        }
    }
    Ok(low)
}

/// The roots in -1 to 1 that the search sees, in rising order.
pub fn roots(a: &Array2<Number>) -> Result<Vec<f64>, NoRoots> {
    if a.nrows() == 0 {
        return Ok(Vec::new());
    }
    let ends: Vec<f64> = (0..=CELLS).map(|j| -1.0 + j as f64 / 32.0).collect();
    let residuals = ends
        .iter()
        .map(|&x| residual(a, x))
        .collect::<Result<Vec<f64>, NoRoots>>()?;
    let mut found = Vec::new();
    for j in 0..CELLS {
        if residuals[j] == 0.0 {
            found.push(ends[j]);
        } else if opposite(residuals[j], residuals[j + 1]) {
            found.push(halved(a, ends[j], ends[j + 1], residuals[j])?);
        }
    }
    if residuals[CELLS] == 0.0 {
        found.push(ends[CELLS]);
    }
    if found.len() > a.nrows() {
        return Err(NoRoots::TooMany);
    }
    Ok(found)
}
