//! The questions of the benchmark: made with a fixed seed, the same in every run.
use crate::random::Rng;
use std::f64::consts::TAU;

/// A curve as the port takes it: for each point lo and hi of each coordinate times the weight, and of the weight.
pub struct Path {
    pub dim: usize,
    pub degree: usize,
    pub count: usize,
    pub knots: Vec<f64>,
    pub points: Vec<f64>,
}
/// One question: the numbers of a path and of a box, and the part of the workload that it belongs to.
pub struct Ask {
    pub part: usize,
    pub path: usize,
    pub cell: usize,
    pub resolution: f64,
    pub nodes: usize,
}
pub struct Workload {
    pub name: &'static str,
    pub parts: Vec<String>,
    pub paths: Vec<Path>,
    /// lo and hi of each axis.
    pub cells: Vec<Vec<f64>>,
    pub asks: Vec<Ask>,
}
/// The words of one slot of the work area; a question needs those of nodes + 3 slots.
pub fn slot_words(p: &Path) -> usize {
    2 * (p.dim + 1) * (p.count + p.degree + 1) + 2 * (p.count + 2 * p.degree + 2) + 1
}
impl Workload {
    fn new(name: &'static str) -> Workload {
        Workload { name, parts: Vec::new(), paths: Vec::new(), cells: Vec::new(), asks: Vec::new() }
    }
    fn ask(&mut self, path: usize, cell: Vec<f64>, resolution: f64, nodes: usize) {
        self.cells.push(cell);
        self.asks.push(Ask { part: self.parts.len() - 1, path, cell: self.cells.len() - 1, resolution, nodes });
    }
}

// ---- paths

/// Knots from 0 to 1 with full ends, the inner ones evenly spaced or not.
fn clamped(r: &mut Rng, degree: usize, count: usize, even: bool) -> Vec<f64> {
    let spans = count - degree;
    let steps: Vec<f64> = (0..spans).map(|_| if even { 1.0 } else { r.from(0.3, 1.7) }).collect();
    let total: f64 = steps.iter().sum();
    let inner = steps[..spans - 1].iter().scan(0.0, |at, s| {
        *at += s / total;
        Some(*at)
    });
    let ends = |u: f64| std::iter::repeat_n(u, degree + 1);
    ends(0.0).chain(inner).chain(ends(1.0)).collect()
}

/// A smooth path through a volume of about a metre and a half, its middle at `middle`. Without weights all of them are 1. The points are sharp or 1e-9 wide.
fn smooth(r: &mut Rng, middle: &[f64], count: usize, weights: Option<[f64; 2]>) -> Path {
    let (dim, degree) = (middle.len(), 3);
    let (even, wide) = (r.below(2) == 0, r.below(4) == 0);
    let knots = clamped(r, degree, count, even);
    let waves: Vec<[f64; 4]> = (0..dim).map(|_| [r.from(0.3, 0.6), r.from(0.0, TAU), r.from(0.05, 0.2), r.from(0.0, TAU)]).collect();
    let turns = r.from(0.4, 1.2);
    let mut points = Vec::new();
    for i in 0..count {
        let s = TAU * turns * i as f64 / (count - 1) as f64;
        let w = weights.map_or(1.0, |[a, b]| r.from(a, b));
        for (m, [a, b, c, d]) in middle.iter().zip(&waves) {
            let x = (m + a * (s + b).sin() + c * (2.7 * s + d).sin()) * w;
            points.extend(if wide { [x - 0.5e-9, x + 0.5e-9] } else { [x, x] });
        }
        points.extend([w, w]);
    }
    Path { dim, degree, count, knots, points }
}

/// A path whose weights are known to a few hundredths, a smooth one or one that goes to and fro between two places.
fn blurred(r: &mut Rng, dim: usize, degree: usize, count: usize, fro: bool) -> Path {
    let knots = clamped(r, degree, count, true);
    let waves: Vec<[f64; 2]> = (0..dim).map(|_| [r.from(0.3, 0.6), r.from(0.0, TAU)]).collect();
    let mut points = Vec::new();
    for i in 0..count {
        let s = if fro { 2.0 * (i % 2) as f64 } else { 5.0 * i as f64 / (count - 1) as f64 };
        let w = r.from(0.5, 2.0);
        points.extend(waves.iter().map(|[a, b]| (1.0 + a * (s + b).sin()) * w).flat_map(|x| [x, x]));
        points.extend([w * 0.97, w * 1.03]);
    }
    Path { dim, degree, count, knots, points }
}

/// The curve at t, in plain f64.
fn point_at(c: &Path, t: f64) -> Vec<f64> {
    let (p, d) = (c.degree, c.dim + 1);
    let k = (p..c.count).rev().find(|&k| c.knots[k] <= t && c.knots[k] < c.knots[k + 1]).unwrap_or(p);
    let mut row: Vec<Vec<f64>> = (k - p..=k).map(|i| (0..d).map(|j| (c.points[2 * (d * i + j)] + c.points[2 * (d * i + j) + 1]) / 2.0).collect()).collect();
    for r in 1..=p {
        for i in (r..=p).rev() {
            let (a, b) = (c.knots[k - p + i], c.knots[k + 1 + i - r]);
            let s = (t - a) / (b - a);
            (0..d).for_each(|j| row[i][j] = (1.0 - s) * row[i - 1][j] + s * row[i][j]);
        }
    }
    (0..c.dim).map(|j| row[p][j] / row[p][c.dim]).collect()
}

// ---- boxes

fn around(middle: &[f64], sizes: &[f64]) -> Vec<f64> {
    middle.iter().zip(sizes).flat_map(|(x, s)| [x - s / 2.0, x + s / 2.0]).collect()
}
/// The sides of a box, each of 1 to 20 cm.
fn sides(r: &mut Rng, dim: usize) -> Vec<f64> {
    (0..dim).map(|_| 0.01 * 20f64.powf(r.from(0.0, 1.0))).collect()
}

#[derive(Clone, Copy)]
enum Place {
    On,
    Near,
    Off,
}
/// A box with its middle on the path, or a few of its sides beside it, or at least 30 cm from it.
fn beside(r: &mut Rng, c: &Path, place: Place) -> Vec<f64> {
    let sizes = sides(r, c.dim);
    let t = r.from(0.0, 1.0);
    let on = point_at(c, t);
    let middle = match place {
        Place::On => on,
        Place::Near => on.iter().zip(&sizes).map(|(x, s)| x + s * r.from(1.0, 4.0) * r.of(&[-1.0, 1.0])).collect(),
        Place::Off => loop {
            let m: Vec<f64> = on.iter().map(|x| x + r.from(-1.0, 1.0)).collect();
            let far = |t: f64| point_at(c, t).iter().zip(&m).map(|(a, b)| (a - b) * (a - b)).sum::<f64>() > 0.09;
            if (0..=200).all(|i| far(i as f64 / 200.0)) {
                break m;
            }
        },
    };
    around(&middle, &sizes)
}

// ---- the workloads

/// The nodes that the realistic questions are given: about twice what the longest of them takes.
const NODES: usize = 64;

/// Cubic paths of 8 to 32 points, each asked for boxes on it, near it and off it, with four resolutions.
fn realistic() -> Workload {
    let mut r = Rng(0x9e37_79b9_7f4a_7c15);
    let mut l = Workload::new("realistic");
    for (kind, weights) in [("polynomial", None), ("rational", Some([0.5, 2.0]))] {
        for dim in [2, 3] {
            let first = l.paths.len();
            for count in [8, 12, 16, 20, 24, 28, 32] {
                for _ in 0..3 {
                    l.paths.push(smooth(&mut r, &[0.0; 3][..dim], count, weights));
                }
            }
            for (name, place) in [("on", Place::On), ("near", Place::Near), ("off", Place::Off)] {
                l.parts.push(format!("{kind}, {dim}-D, {name}"));
                for path in first..l.paths.len() {
                    for resolution in [1e-3, 1e-4, 1e-5, 1e-6] {
                        let cell = beside(&mut r, &l.paths[path], place);
                        l.ask(path, cell, resolution, NODES);
                    }
                }
            }
        }
    }
    l
}

/// The numbers of the work area that gripcheck lends.
const AREA: usize = 8192;

/// 40 stations, each with 10 paths and 150 boxes that stand on or near one of its paths or anywhere in it; each path is asked for 50 boxes of its station,
/// with as many nodes as gripcheck has room for.
fn installation() -> Workload {
    let mut r = Rng(0xd1b5_4a32_d192_ed03);
    let mut l = Workload::new("installation");
    l.parts.push("all".into());
    for station in 0..40 {
        let dim = if station % 4 == 0 { 2 } else { 3 };
        let at = [3.0 * (station % 8) as f64, 3.0 * (station / 8) as f64, 1.0];
        let (paths, cells) = (l.paths.len(), l.cells.len());
        for i in 0..10 {
            let middle: Vec<f64> = at[..dim].iter().map(|x| x + r.from(-0.3, 0.3)).collect();
            let count = 8 + r.below(25);
            l.paths.push(smooth(&mut r, &middle, count, if i % 2 == 0 { None } else { Some([0.5, 2.0]) }));
        }
        for i in 0..150 {
            let path = &l.paths[paths + i % 10];
            let cell = match i % 3 {
                0 => beside(&mut r, path, Place::On),
                1 => beside(&mut r, path, Place::Near),
                _ => {
                    let middle: Vec<f64> = at[..dim].iter().map(|x| x + r.from(-1.0, 1.0)).collect();
                    around(&middle, &sides(&mut r, dim))
                }
            };
            l.cells.push(cell);
        }
        for path in paths..paths + 10 {
            for _ in 0..50 {
                let (cell, resolution) = (cells + r.below(150), r.of(&[1e-3, 1e-4, 1e-5, 1e-6]));
                let nodes = AREA / slot_words(&l.paths[path]) - 3;
                l.asks.push(Ask { part: 0, path, cell, resolution, nodes });
            }
        }
    }
    l
}

/// Searches of thousands of visits. The weights are intervals, and what a weight leaves open counts neither as the width of the data nor for the resolution:
/// no piece within a few hundredths of the box is ruled out, so that all of them are halved down to the resolution.
fn worst() -> Workload {
    let mut r = Rng(0xa076_1d64_78bd_642f);
    let mut l = Workload::new("worst");
    let parts = [("smooth path", 1, 3e-5, 4096), ("to and fro", 2, 1e-4, 4096), ("nodes used up", 1, 1e-7, 2000)];
    for (name, shape, resolution, nodes) in parts {
        l.parts.push(name.into());
        for i in 0..20 {
            let (dim, degree) = (2 + i % 2, 3 + i / 4);
            let count = r.of(&[12, 16, 24, 32]);
            let path = blurred(&mut r, dim, degree, count, shape == 2);
            let t = r.from(0.2, 0.8);
            let cell = around(&point_at(&path, t), &[1e-6; 3][..dim]);
            l.paths.push(path);
            l.ask(l.paths.len() - 1, cell, resolution, nodes);
        }
    }
    l
}

pub fn workload(name: &str) -> Option<Workload> {
    match name {
        "realistic" => Some(realistic()),
        "installation" => Some(installation()),
        "worst" => Some(worst()),
        _ => None,
    }
}
