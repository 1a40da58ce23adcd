//! A stand-in for pm-remez's `requirements.rs`.
//!
//! lib.rs re-exports six names from here. Two of them carry what the oracle needs and what cannot be
//! reached from outside the crate: [`Setting`] is an eigenvalue backend made of a closure (the
//! trait's error type sits in a private module), and [`function`] asks each function of the private
//! modules alone. The other four names are empty.

use crate::eigenvalues::{EigenvalueBackend, EigenvaluesError};
use ndarray::Array2;
use num_complex::Complex;
use num_traits::Zero;

/// An eigenvalue backend: a closure from a matrix to its real eigenvalues, or to a message.
pub struct Setting<F>(pub F);

impl<T, F> EigenvalueBackend<T> for Setting<F>
where
    T: Zero,
    F: Fn(Array2<T>) -> Result<Vec<T>, String>,
{
    fn eigenvalues(&self, matrix: Array2<T>) -> Result<Vec<Complex<T>>, EigenvaluesError> {
        let roots = (self.0)(matrix).map_err(EigenvaluesError)?;
        Ok(roots
            .into_iter()
            .map(|root| Complex::new(root, T::zero()))
            .collect())
    }
}

/// The functions of pm-remez's private modules, under their own names, with plain lists and pairs.
pub mod function {
    use crate::eigenvalues::EigenvalueBackend;
    use crate::error::Result;
    use crate::extrema::{ExtremaCandidate, Interval};
    use crate::types::{Band, Symmetry};
    use crate::{barycentric, chebyshev, extrema, fir_types};
    use num_traits::{Float, FloatConst};

    /// Weights of points.
    pub fn compute_barycentric_weights<T: Float>(x: &[T]) -> Vec<T> {
        barycentric::compute_barycentric_weights(x).collect()
    }

    /// Delta.
    pub fn compute_delta<T: Float>(wk: &[T], desired: &[T], weights: &[T]) -> T {
        barycentric::compute_delta(wk, desired, weights)
    }

    /// Abscissas.
    pub fn compute_lagrange_abscisa<T: Float>(delta: T, desired: &[T], weights: &[T]) -> Vec<T> {
        barycentric::compute_lagrange_abscisa(delta, desired, weights).collect()
    }

    /// The response at a place.
    pub fn compute_freq_response<T: Float>(x0: T, x: &[T], wk: &[T], yk: &[T]) -> T {
        barycentric::compute_freq_response(x0, x, wk, yk)
    }

    /// The nodes of a degree.
    pub fn chebyshev_nodes<T: Float + FloatConst>(n: usize) -> Vec<T> {
        chebyshev::chebyshev_nodes(n).collect()
    }

    /// The coefficients of values at the nodes.
    pub fn compute_cheby_coefficients<T: Float + FloatConst>(values: &[T]) -> Vec<T> {
        chebyshev::compute_cheby_coefficients(&mut values.to_vec())
    }

    /// Whether a response is realizable.
    pub fn check_response<T: Float>(
        bands: &[Band<T>],
        desired: impl Fn(T) -> T,
        symmetry: Symmetry,
        odd_length: bool,
    ) -> Result<()> {
        fir_types::check_response(bands, desired, symmetry, odd_length)
    }

    /// The bands with their edges adjusted.
    pub fn adjust_bands<T: Float>(
        bands: &[Band<T>],
        symmetry: Symmetry,
        odd_length: bool,
    ) -> Vec<Band<T>> {
        let mut bands = bands.to_vec();
        fir_types::adjust_bands(&mut bands, symmetry, odd_length);
        bands
    }

    /// A band in radians.
    pub fn convert_to_radians<T: Float + FloatConst>(band: &Band<T>) -> Band<T> {
        let mut band = *band;
        band.convert_to_radians();
        band
    }

    /// The adjusted desired value at a frequency in radians.
    pub fn adjust_desired<T: Float + FloatConst>(
        desired: impl Fn(T) -> T,
        symmetry: Symmetry,
        odd_length: bool,
        f: T,
    ) -> T {
        fir_types::adjust_desired(desired, symmetry, odd_length)(f)
    }

    /// The adjusted weight at a frequency in radians.
    pub fn adjust_weights<T: Float + FloatConst>(
        weights: impl Fn(T) -> T,
        symmetry: Symmetry,
        odd_length: bool,
        f: T,
    ) -> T {
        fir_types::adjust_weights(weights, symmetry, odd_length)(f)
    }

    /// The taps of coefficients.
    pub fn h_from_ak<T: Float>(
        ak: &[T],
        num_taps: usize,
        symmetry: Symmetry,
        odd_length: bool,
    ) -> Vec<T> {
        fir_types::h_from_ak(ak, num_taps, symmetry, odd_length)
    }

    /// The first points, as frequencies in radians.
    pub fn initial_extremal_freqs<T: Float>(bands: &[Band<T>], num_functions: usize) -> Vec<T> {
        extrema::initial_extremal_freqs(bands, num_functions)
    }

    /// The subintervals of bands in x; bands and subintervals are pairs of begin and end.
    pub fn subdivide<T: Float>(x: &[T], bands_x: &[(T, T)]) -> Vec<(T, T)> {
        let bands_x: Vec<_> = bands_x
            .iter()
            .map(|&(begin, end)| Interval { begin, end })
            .collect();
        extrema::subdivide(x, &bands_x)
            .iter()
            .map(|interval| (interval.begin, interval.end))
            .collect()
    }

    /// Runs the proxy of one subinterval as far as the backend. The nodes are of its own `nodes`.
    pub fn find_extrema_in_subinterval<T: Float + FloatConst>(
        (begin, end): (T, T),
        nodes: &[T],
        (x, wk, yk): (&[T], &[T], &[T]),
        desired: impl Fn(T) -> T,
        weights: impl Fn(T) -> T,
        backend: &impl EigenvalueBackend<T>,
    ) -> Result<()> {
        let interval = Interval { begin, end };
        extrema::find_extrema_in_subinterval(&interval, nodes, x, wk, yk, desired, weights, backend)
            .map(|_| ())
    }

    /// The places of the candidates that pruning to `n` keeps, for candidates with these errors.
    pub fn prune_extrema_candidates<T: Float>(errors: &[T], n: usize) -> Result<Vec<usize>> {
        let candidates: Vec<_> = errors
            .iter()
            .enumerate()
            .map(|(place, &error)| ExtremaCandidate {
                x: T::from(place).unwrap(),
                error,
                desired: T::zero(),
                weight: T::one(),
            })
            .collect();
        let kept = extrema::prune_extrema_candidates(&candidates, n)?;
        Ok(kept.iter().map(|kept| kept.x.to_usize().unwrap()).collect())
    }
}

/// Not used.
pub struct BandSetting;

/// Not used.
pub mod constant {}

/// Not used.
pub mod linear {}

/// Not used.
pub mod pm_parameters {}
