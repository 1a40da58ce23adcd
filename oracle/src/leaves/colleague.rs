//! extrema.rs: from the derivative's coefficients to the balanced matrix; and our root finder.
//!
//! Building and balancing the matrix are private to extrema.rs and lie inside
//! `find_extrema_in_subinterval`, which begins with the values at the nodes. The coefficients are
//! fed through it by a number type of its own. Its cosines are handed out from a list: with the
//! values 0, 1, 0, .., 0 at the nodes, a coefficient is the cosine it is made with, scaled. And its
//! magnitudes are counted: balancing takes 2 s (s - 1) of them in a pass over s rows, so their
//! number tells the passes begun. The backend that is called next keeps the matrix.

use std::cell::{Cell, RefCell};

use ndarray::Array2;
use pm_remez::{Setting, function};

use crate::chance::Chance;
use crate::design::caught;
use crate::number::{Number, numbers, plain};
use crate::number_type;
use crate::roots::NoRoots;
use crate::text::Page;

thread_local! {
    /// The cosines to hand out, last first.
    static COSINES: RefCell<Vec<f64>> = const { RefCell::new(Vec::new()) };
    static MAGNITUDES: Cell<usize> = const { Cell::new(0) };
}

fn next_cosine(_: f64) -> f64 {
    COSINES.with_borrow_mut(|list| list.pop().expect("one cosine for each coefficient"))
}

fn counted_magnitude(x: f64) -> f64 {
    MAGNITUDES.set(MAGNITUDES.get() + 1);
    x.abs()
}

number_type!(
    /// An `f64` whose cosines are handed out and whose magnitudes are counted.
    Fed,
    cos: next_cosine,
    sin: |_| f64::NAN,
    acos: |_| f64::NAN,
    abs: counted_magnitude,
    order: |a: f64, b: f64| a.partial_cmp(&b),
    min: f64::min,
);

/// The balanced matrix and the passes begun.
pub struct Balanced {
    matrix: Array2<Fed>,
    pub passes: usize,
}

impl Balanced {
    /// The entries, row after row.
    pub fn rows(&self) -> Vec<Vec<f64>> {
        let s = self.matrix.nrows();
        (0..s)
            .map(|j| (0..s).map(|k| self.matrix[(j, k)].0).collect())
            .collect()
    }
}

fn hand_out(cosines: &[f64]) {
    COSINES.set(cosines.iter().rev().copied().collect());
}

/// The values at the nodes of a degree that make each coefficient its cosine, scaled.
fn values(degree: usize) -> Vec<Fed> {
    (0..=degree)
        .map(|j| Fed(if j == 1 { 1.0 } else { 0.0 }))
        .collect()
}

/// The derivative's coefficients that these cosines give.
pub fn derivative(cosines: &[f64]) -> Vec<f64> {
    hand_out(cosines);
    function::compute_cheby_coefficients(&values(cosines.len() - 1))
        .iter()
        .enumerate()
        .skip(1)
        .map(|(k, a)| k as f64 * a.0)
        .collect()
}

/// Runs the Rust from the values at the nodes to the backend.
pub fn balanced(cosines: &[f64]) -> Result<Balanced, &'static str> {
    hand_out(cosines);
    MAGNITUDES.set(0);
    let values = values(cosines.len() - 1);
    let kept = Cell::new(None);
    let backend = Setting(|matrix: Array2<Fed>| {
        let s = matrix.nrows();
        // With one row there is nothing to take the magnitude of, and one pass.
        let in_a_pass = 2 * s * (s - 1);
        let passes = match in_a_pass {
            0 => 1,
            _ => MAGNITUDES.get().div_ceil(in_a_pass),
        };
        kept.set(Some(Balanced { matrix, passes }));
        Ok(Vec::new())
    });
    let asked = Cell::new(0);
    let in_call_order = |_| {
        let value = values[asked.get()];
        asked.set(asked.get() + 1);
        value
    };
    // One point with y = 0 and a positive denominator: the response is +0 and the error the value.
    let nodes = vec![Fed(0.0); values.len()];
    let point = (&[Fed(-2.0)][..], &[Fed(1.0)][..], &[Fed(0.0)][..]);
    caught(|| {
        function::find_extrema_in_subinterval(
            (Fed(-1.0), Fed(1.0)),
            &nodes,
            point,
            in_call_order,
            |_| Fed(1.0),
            &backend,
        )
    })?;
    Ok(kept.take().expect("the backend was called"))
}

/// Wanted derivative's coefficients; what is fed is as close to them as the scaling leaves it.
pub fn wanted(c: &mut Chance, degree: usize) -> Vec<f64> {
    let shape = c.below(8);
    let ratio = c.within(0.05, 0.9);
    let mut size = 1.0;
    let mut list: Vec<f64> = (0..degree)
        .map(|_| match shape {
            0 => c.within(-1.0, 1.0),
            // As of a smooth error: falling quickly.
            1 | 2 => {
                size *= ratio;
                size * c.within(-1.0, 1.0)
            }
            // Many zeros and equal numbers.
            3 => c.among(&[0.0, 0.0, 1.0, -1.0, 2.0]),
            4 => c.any().clamp(-1e300, 1e300),
            // Far apart, so that many passes are needed.
            5 => {
                let (far, unit) = (c.power(-300, 300), c.within(-1.0, 1.0));
                far * unit
            }
            6 => {
                let (far, unit) = (c.power(-40, 40), c.within(-1.0, 1.0));
                far * unit
            }
            // Of any values at the nodes.
            _ => 0.0,
        })
        .collect();
    if shape == 7 {
        let values: Vec<f64> = (0..=degree).map(|_| c.within(-1.0, 1.0)).collect();
        let a = plain(function::compute_cheby_coefficients(&numbers(&values)));
        list = (1..=degree).map(|k| k as f64 * a[k]).collect();
    }
    match c.below(10) {
        0 => {
            let keep = c.between(0, degree);
            list[keep..].fill(0.0);
        }
        1 => list[degree - 1] = c.power(-1060, -20),
        _ => (),
    }
    list
}

/// The cosines that feed wanted coefficients.
pub fn cosines(wanted: &[f64]) -> Vec<f64> {
    let degree = wanted.len();
    let scale = 2.0 / degree as f64;
    let mut cosines = vec![0.0];
    cosines.extend((1..=degree).map(|k| wanted[k - 1] / k as f64 / scale));
    cosines[degree] *= 2.0;
    cosines
}

fn write_rows(page: &mut Page, rows: &[Vec<f64>]) {
    for row in rows {
        page.numbers("row", row);
    }
}

/// Degrees 16, then 2 to 15 one after another. The Rust panics where one coefficient is left.
pub fn colleague(c: &mut Chance, index: usize, page: &mut Page) {
    let degree = 2 + (14 + index) % 15;
    write_colleague(page, &wanted(c, degree));
}

/// Wanted coefficients as close as they can be fed, and the matrix.
pub fn write_colleague(page: &mut Page, wanted: &[f64]) {
    let cosines = cosines(wanted);
    page.numbers("coefficients", &derivative(&cosines));
    match balanced(&cosines) {
        Ok(balanced) => {
            let rows = balanced.rows();
            page.line(format_args!("gives {} {}", balanced.passes, rows.len()));
            write_rows(page, &rows);
        }
        Err(name) => page.line(format_args!("failed {name}")),
    }
}

/// The roots that our search sees of a matrix.
pub fn roots_of(rows: &[Vec<f64>]) -> Result<Vec<f64>, NoRoots> {
    let mut matrix = Array2::zeros((rows.len(), rows.len()));
    for (j, row) in rows.iter().enumerate() {
        for (k, &entry) in row.iter().enumerate() {
            matrix[(j, k)] = Number(entry);
        }
    }
    crate::roots::roots(&matrix)
}

/// The roots that our search sees of such a matrix, or of one number on or beside a cell's end.
pub fn roots(c: &mut Chance, index: usize, page: &mut Page) {
    let degree = 2 + (14 + index) % 15;
    let rows = if degree == 2 || c.one_in(8) {
        let end = c.between(0, 64) as f64 / 32.0 - 1.0;
        let any = c.any();
        vec![vec![c.among(&[end, end, end.next_up(), 1.0, any])]]
    } else {
        match balanced(&cosines(&wanted(c, degree))) {
            Ok(balanced) => balanced.rows(),
            Err(_) => Vec::new(),
        }
    };
    page.line(format_args!("matrix {}", rows.len()));
    write_rows(page, &rows);
    match roots_of(&rows) {
        Ok(found) => page.numbers("gives", &found),
        Err(why) => page.line(format_args!("failed {}", why.name())),
    }
}
