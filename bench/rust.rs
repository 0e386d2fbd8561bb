// One Rust's side: `math` and `geometry` are its two crates. main.rs includes this for the Rust, and, where answers are compared with their counts, for the
// test program of revision 2.
use super::{Answer, bits};
use crate::workloads::{Ask, Path, Workload};
use geometry::contains::curve::curve_could_contain;
use geometry::nurb_curve::NurbCurve;
use math::{geop_error::GeopResult, scalars::Scalar, vector::Vector};

enum Curve {
    Plane(NurbCurve<3>),
    Space(NurbCurve<4>),
}
enum Cell {
    Plane(Vector<2>),
    Space(Vector<3>),
}
/// What the Rust is asked with, made before anything is measured.
pub struct Rust {
    curves: Vec<Curve>,
    cells: Vec<Cell>,
    /// It makes its curve anew for every question, from the numbers that the port is given.
    make: bool,
}

fn scalars(l: &[f64]) -> Vec<Scalar> {
    l.chunks(2).map(|c| Scalar { lo: c[0], hi: c[1] }).collect()
}
fn curve<const D: usize>(p: &Path) -> NurbCurve<D> {
    let points = p.points.chunks(2 * D).map(|q| Vector::from_array(std::array::from_fn(|k| Scalar { lo: q[2 * k], hi: q[2 * k + 1] }))).collect();
    let knots = p.knots.iter().map(|&u| Scalar::from_f64(u)).collect();
    NurbCurve::try_new(p.degree, points, knots).unwrap_or_else(|e| panic!("a path of the benchmark is no curve of the Rust: {}", e.root_message()))
}
/// The visits, the cuts and the depth of the Rust since the last call, where it counts them.
#[cfg(counted)]
fn counts_taken() -> Option<[u64; 3]> {
    Some(math::counts::taken())
}
#[cfg(not(counted))]
fn counts_taken() -> Option<[u64; 3]> {
    None
}

impl Rust {
    pub fn new(load: &Workload, make: bool) -> Rust {
        let curves = load.paths.iter().map(|p| if p.dim == 2 { Curve::Plane(curve(p)) } else { Curve::Space(curve(p)) });
        let cells = load.cells.iter().map(|c| match scalars(c)[..] {
            [x, y] => Cell::Plane(Vector::from_array([x, y])),
            [x, y, z] => Cell::Space(Vector::from_array([x, y, z])),
            _ => unreachable!("a box has two or three axes"),
        });
        Rust { curves: curves.collect(), cells: cells.collect(), make }
    }
    pub fn ask(&self, load: &Workload, q: &Ask) -> GeopResult<Option<Scalar>> {
        let (path, resolution) = (&load.paths[q.path], Scalar::from_f64(q.resolution));
        match (&self.curves[q.path], &self.cells[q.cell]) {
            (Curve::Plane(_), Cell::Plane(b)) if self.make => curve_could_contain(&curve::<3>(path), b, q.nodes, resolution),
            (Curve::Space(_), Cell::Space(b)) if self.make => curve_could_contain(&curve::<4>(path), b, q.nodes, resolution),
            (Curve::Plane(c), Cell::Plane(b)) => curve_could_contain(c, b, q.nodes, resolution),
            (Curve::Space(c), Cell::Space(b)) => curve_could_contain(c, b, q.nodes, resolution),
            _ => unreachable!("a path and a box of one question have the same axes"),
        }
    }
    /// Its answer, with the counts of `ours` where it does not count.
    pub fn answer(&self, load: &Workload, q: &Ask, ours: &Answer) -> Answer {
        counts_taken();
        let answer = self.ask(load, q);
        let [visited, cuts, depth] = counts_taken().unwrap_or([ours[1], ours[5], ours[6]]);
        match answer {
            Ok(None) => [0, visited, 0, 0, 0, cuts, depth],
            Ok(Some(t)) => [1, visited, 0, bits(t.lo), bits(t.hi), cuts, depth],
            Err(e) => {
                let said = e.root_message();
                let pending = said.split_once(" segments pending").and_then(|(before, _)| before.rsplit(' ').next()?.parse().ok());
                [2, visited, pending.unwrap_or_else(|| panic!("the Rust says {said}")), 0, 0, cuts, depth]
            }
        }
    }
}
