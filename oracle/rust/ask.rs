// The question put to one Rust: `math` and `geometry` are its two crates. answers.rs includes this for the Rust, and for the test program of revision 2.
use super::{ASKING, Answer, bits, pending};
use crate::questions::Question;
use geometry::contains::curve::curve_could_contain;
use geometry::nurb_curve::{NurbCurve, ParameterRefinable};
use math::{counts, geop_error::GeopError, scalars::Scalar, vector::Vector};
use std::panic::{AssertUnwindSafe, catch_unwind};
use std::sync::atomic::Ordering::Relaxed;

/// The Rust's answer, or what it panicked with; and its visits, cuts and depth.
fn run_rust<const D: usize, const C: usize>(q: &Question) -> (Result<Result<Option<Scalar>, GeopError>, String>, [u64; 3])
where
    NurbCurve<D>: ParameterRefinable<C>,
{
    let scalars = |l: &[f64]| l.chunks(2).map(|c| Scalar { lo: c[0], hi: c[1] }).collect::<Vec<_>>();
    let points = scalars(&q.points).chunks(D).map(|p| Vector::from_array(std::array::from_fn(|k| p[k]))).collect();
    let knots = q.knots.iter().map(|&u| Scalar::from_f64(u)).collect();
    let cell = scalars(&q.cell);
    let cell = Vector::<C>::from_array(std::array::from_fn(|k| cell[k]));
    counts::taken();
    ASKING.store(true, Relaxed);
    let answer = catch_unwind(AssertUnwindSafe(|| {
        let curve = NurbCurve::<D>::try_new(q.degree, points, knots)?;
        curve_could_contain(&curve, &cell, q.nodes, Scalar::from_f64(q.resolution))
    }));
    ASKING.store(false, Relaxed);
    (answer.map_err(|said| said.downcast_ref::<String>().cloned().unwrap_or_default()), counts::taken())
}
/// The Rust's answer; or what it said that is no answer of the scope.
fn ask_rust<const D: usize, const C: usize>(q: &Question) -> Result<Answer, String>
where
    NurbCurve<D>: ParameterRefinable<C>,
{
    let (answer, [visited, cuts, depth]) = run_rust::<D, C>(q);
    match answer {
        Ok(Ok(None)) => Ok([0, 0, visited, 0, 0, 0, cuts, depth]),
        Ok(Ok(Some(t))) => Ok([1, 0, visited, 0, bits(t.lo), bits(t.hi), cuts, depth]),
        Ok(Err(e)) => pending(e.root_message()).map(|n| [2, n, visited, 0, 0, 0, cuts, depth]).ok_or(e.root_message().into()),
        Err(said) if said.starts_with("weights are definitely positive") => Ok([3, 0, visited, 11, 0, 0, cuts, depth]),
        Err(said) => Err(said),
    }
}
/// The answer to a question that is not refused.
pub fn ask(q: &Question) -> Result<Answer, String> {
    if q.dim == 2 { ask_rust::<3, 2>(q) } else { ask_rust::<4, 3>(q) }
}
