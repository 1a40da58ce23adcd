//! The edges of plans: how they are written, and what document 01 asks of them.

use crate::chance::Chance;
use crate::plan::Band;

/// How the edges of a plan are written.
#[derive(Clone, Copy)]
pub enum Grid {
    Hundredths,
    Thousandths,
    Sixtyfourths,
    Any,
}

pub fn grid(c: &mut Chance) -> Grid {
    c.among(&[
        Grid::Hundredths,
        Grid::Thousandths,
        Grid::Sixtyfourths,
        Grid::Any,
    ])
}

pub fn on_grid(f: f64, grid: Grid) -> f64 {
    match grid {
        Grid::Hundredths => (f * 100.0).round() / 100.0,
        Grid::Thousandths => (f * 1000.0).round() / 1000.0,
        Grid::Sixtyfourths => (f * 64.0).round() / 64.0,
        Grid::Any => f,
    }
}

pub fn rising(edges: &[f64]) -> bool {
    edges.windows(2).all(|pair| pair[0] < pair[1])
}

/// Edges brought onto the grid, unless two of them would meet there.
pub fn edges_on_grid(edges: Vec<f64>, grid: Grid) -> Vec<f64> {
    let rounded: Vec<f64> = edges.iter().map(|&f| on_grid(f, grid)).collect();
    if rising(&rounded) { rounded } else { edges }
}

/// 01's rules on edges.
pub fn allowed_bands(bands: &[Band]) -> bool {
    let edges: Vec<f64> = bands.iter().flat_map(|b| [b.begin, b.end]).collect();
    rising(&edges) && edges[0] >= 0.0 && edges[edges.len() - 1] <= 0.5
}
