//! Random and edge questions for the search. The comparisons of the search and of whole texts share it; `random` is a module of theirs.
use crate::random::Rng;

impl Rng {
    /// A power of two, with an exponent from a to b - 1.
    fn power(&mut self, a: i32, b: i32) -> f64 {
        let e = a + self.below((b - a) as usize) as i32;
        if e < -1000 { 2f64.powi(-1000) * 2f64.powi(e + 1000) } else { 2f64.powi(e) }
    }
}

// ---- numbers

/// 2^100, the largest size that a number may have.
pub const MOST: f64 = 1.2676506002282294e30;
const LEAST: f64 = 5e-324;
const EDGES: [f64; 13] = [0.0, -0.0, 1.0, -1.0, 0.5, 2.0, 3.0, LEAST, -LEAST, 1e-300, f64::MIN_POSITIVE, MOST, -MOST];

fn held(x: f64) -> f64 {
    x.clamp(-MOST, MOST)
}

/// A number of one of nine kinds; the coordinates of a question share theirs.
fn number(r: &mut Rng, kind: usize) -> f64 {
    match kind {
        0 => r.below(17) as f64 - 8.0,
        1 => r.unit() * 20.0 - 10.0,
        2 => (r.below(64) as f64 - 32.0) / 8.0,
        3 => r.below(3) as f64 - 1.0,
        4 => (r.unit() - 0.5) * r.power(-100, 102),
        5 => r.of(&EDGES),
        6 => (r.unit() - 0.5) * r.power(-1074, -900),
        7 => (r.unit() - 0.5) * 2.0 * MOST,
        _ => {
            let k = r.below(8);
            number(r, k)
        }
    }
}

/// An interval around a number: sharp, a step wide to both sides, or wider.
fn interval(r: &mut Rng, x: f64, width: usize) -> [f64; 2] {
    let w = match width {
        0 => return [x, x],
        1 => return [held(x.next_down()), held(x.next_up())],
        2 => x.abs() * r.unit() * r.power(-50, 0),
        3 => r.unit() * r.power(-60, 2),
        _ => (x.abs() + 1.0) * r.unit() * 4.0,
    };
    [held(x - w), held(x + w * r.unit())]
}

// ---- questions

#[derive(Clone, Debug)]
pub struct Question {
    /// The revision.
    pub rev: usize,
    pub dim: usize,
    pub degree: usize,
    pub count: usize,
    pub knots: Vec<f64>,
    pub points: Vec<f64>,
    pub cell: Vec<f64>,
    pub resolution: f64,
    pub nodes: usize,
    /// The length of the work area.
    pub room: usize,
}

/// Clamped or not, with or without repeated knots, and with steps of every size.
fn some_knots(r: &mut Rng, degree: usize, count: usize) -> Vec<f64> {
    let step = match r.below(24) {
        0..3 => r.power(-1074, 0),
        3 => r.power(-1074, -1015),
        4 => r.power(0, 90),
        _ => 1.0,
    };
    let mut at = match r.below(6) {
        0 => number(r, 2),
        1 => -step * r.below(count + 1) as f64,
        _ => 0.0,
    };
    let (clamped, smooth) = (!r.one_in(3), r.one_in(2));
    let (mut knots, mut times) = (vec![at], 1);
    for i in 1..count + degree + 1 {
        let end = clamped && (i <= degree || i >= count);
        let again = if end { i != count } else { !smooth && times < degree.max(1) && r.one_in(3) };
        if !again || (clamped && i == degree + 1 && at == knots[0]) {
            at += step * (1 + r.below(4)) as f64 * if r.one_in(3) { r.unit() + 0.01 } else { 1.0 };
            times = 0;
        }
        times += 1;
        knots.push(at);
    }
    if r.one_in(4) {
        knots.iter_mut().filter(|u| **u == 0.0).for_each(|u| *u = -0.0);
    }
    knots
}

/// A weight: 1, moderate, of any size, near the least double, huge, or wide.
fn weight(r: &mut Rng, kind: usize) -> [f64; 2] {
    let w = match kind {
        0..5 => return [1.0, 1.0],
        5..8 => 0.25 + r.unit() * 4.0,
        8 => r.power(-30, 30) * (1.0 + r.unit()),
        9 => r.power(-1074, 99) * (1.0 + r.unit()),
        10 => LEAST * (1 + r.below(30)) as f64,
        11 => r.power(60, 100),
        _ => return [(r.unit() * 2.0).max(LEAST), 2.0 + r.unit() * r.power(-3, 8)],
    };
    if r.one_in(4) { [w.next_down().max(LEAST), w.next_up()] } else { [w, w] }
}

/// Points that are all the same, on a line, closed, to and fro between two, or anywhere.
fn some_points(r: &mut Rng, dim: usize, count: usize) -> Vec<f64> {
    let kind = if r.one_in(3) { 1 } else { r.below(9) };
    let (shape, weights, width) = (r.below(12), r.below(13), r.of(&[0, 0, 0, 0, 1, 1, 2, 3, 4]));
    let (a, b): (Vec<f64>, Vec<f64>) = (0..dim).map(|_| (number(r, kind), number(r, kind))).unzip();
    let mut points = Vec::new();
    for i in 0..count {
        let w = weight(r, weights);
        for k in 0..dim {
            let x = match shape {
                0 => a[k],
                1 => a[k] + (b[k] - a[k]) * i as f64 / count as f64,
                2 if i == 0 || i == count - 1 => a[k],
                3 => if i % 2 == 0 { a[k] } else { b[k] },
                _ => number(r, kind),
            };
            points.extend(interval(r, held(x * w[0]), width));
        }
        points.extend(w);
    }
    points
}

/// The curve at t, in plain f64.
fn point_at(q: &Question, t: f64) -> Vec<f64> {
    let (p, d) = (q.degree, q.dim + 1);
    let k = (p..q.count).rev().find(|&k| q.knots[k] <= t && q.knots[k] < q.knots[k + 1]).unwrap_or(p);
    let mut row: Vec<Vec<f64>> = (k - p..=k).map(|i| (0..d).map(|j| q.points[2 * (d * i + j)]).collect()).collect();
    for r in 1..=p {
        for i in (r..=p).rev() {
            let (a, b) = (q.knots[k - p + i], q.knots[k + 1 + i - r]);
            let s = if a < b { (t - a) / (b - a) } else { 0.0 };
            (0..d).for_each(|j| row[i][j] = (1.0 - s) * row[i - 1][j] + s * row[i][j]);
        }
    }
    (0..q.dim).map(|j| row[p][j] / row[p][q.dim]).map(|x| if x.is_nan() { 0.0 } else { held(x) }).collect()
}

/// A box on the curve, at a control point, near the curve, or off it.
fn some_cell(r: &mut Rng, q: &Question) -> Vec<f64> {
    let (a, b) = (q.knots[q.degree], q.knots[q.count]);
    let t = if r.one_in(4) { r.of(&q.knots).max(a).min(b) } else { a + (b - a) * r.unit() };
    let on = point_at(q, t);
    let (place, kind, width, i) = (r.below(10), r.below(9), r.of(&[0, 0, 0, 1, 1, 2, 3, 4]), r.below(q.count));
    let mut cell = Vec::new();
    for k in 0..q.dim {
        let x = match place {
            0 => q.points[2 * ((q.dim + 1) * i + k)] / q.points[2 * ((q.dim + 1) * i + q.dim)],
            1 => number(r, kind),
            2 => on[k] + (on[k].abs() + r.unit()) * r.power(-60, 2),
            3 if k == 0 => number(r, kind),
            _ => on[k],
        };
        cell.extend(interval(r, held(x), width));
    }
    cell
}

fn some_resolution(r: &mut Rng) -> f64 {
    match r.below(8) {
        0 => 0.0,
        1 => r.of(&[-0.0, LEAST, 1.0, MOST]),
        2 => r.power(-1074, 101),
        3 => r.unit() * r.power(-60, 4),
        _ => 10f64.powi(-(r.below(13) as i32)),
    }
}

fn some_nodes(r: &mut Rng) -> usize {
    match r.below(200) {
        0 => r.of(&[4096, 4095, 2000]),
        1..4 => r.below(4096),
        4..30 => r.below(4),
        30..60 => r.below(400),
        _ => r.below(64),
    }
}

/// The stated words of the work area.
pub fn stated(q: &Question) -> usize {
    (q.nodes + 3) * (2 * (q.dim + 1) * (q.count + q.degree + 1) + 2 * (q.count + 2 * q.degree + 2) + 1)
}

/// A revision that there is not.
pub fn other_revision(r: &mut Rng) -> usize {
    let any = r.next() as usize;
    r.of(&[0, 0, 3, 3, 4, 16, 257, 258, (1 << 32) + 1, (1 << 32) + 2, usize::MAX, any | 4])
}

/// A question, in revision 1. About one in six is wrong in some way, or in two.
pub fn question(r: &mut Rng) -> Question {
    let degree = if r.one_in(16) { 0 } else { r.of(&[1, 1, 2, 2, 3, 3, 3, 4, 5, 6, 7]) };
    let more = match r.below(6) {
        0..2 => 0,
        2 => r.below(32 - degree),
        _ => r.below(8),
    };
    sized(r, degree, degree + 1 + more, some_nodes)
}

/// The same of this degree and count, with such nodes.
pub fn sized(r: &mut Rng, degree: usize, count: usize, some_nodes: fn(&mut Rng) -> usize) -> Question {
    let dim = 2 + r.below(2);
    let (knots, points) = (some_knots(r, degree, count), some_points(r, dim, count));
    let (resolution, nodes) = (some_resolution(r), some_nodes(r));
    let mut q = Question { rev: 1, dim, degree, count, knots, points, cell: Vec::new(), resolution, nodes, room: 0 };
    q.cell = some_cell(r, &q);
    q.room = stated(&q) + r.below(6);
    if r.one_in(6) {
        for _ in 0..1 + r.below(2) {
            spoil(r, &mut q);
        }
    }
    q
}

// ---- extreme questions

/// A number as large, as small, or as near to such a one as it may be; or any.
fn extreme_number(r: &mut Rng) -> f64 {
    let size = match r.below(10) {
        0 => 0.0,
        1 => LEAST * (1 + r.below(8)) as f64,
        2 => r.power(-1074, -1015) * (1.0 + r.unit()),
        3 => r.power(-1074, 100) * (1.0 + r.unit()),
        4 => MOST,
        5 => MOST.next_down(),
        6 => MOST * r.unit(),
        7 => r.power(0, 100),
        _ => return number(r, 8),
    };
    held(if r.one_in(2) { -size } else { size })
}

/// The interval of one number, from it to its neighbour, to any other, or from one limit to the other.
fn extreme_interval(r: &mut Rng, x: f64) -> [f64; 2] {
    let y = match r.below(9) {
        0..5 => return [x, x],
        5 => held(x.next_up()),
        6 => return [-MOST, MOST],
        _ => extreme_number(r),
    };
    [x.min(y), x.max(y)]
}

fn extreme_weight(r: &mut Rng, one: bool) -> [f64; 2] {
    if one {
        return [1.0, 1.0];
    }
    let w = held(r.power(-1074, 101) * if r.one_in(2) { 1.0 } else { 1.0 + r.unit() });
    match r.below(6) {
        0 => [LEAST, w.max(LEAST)],
        1 => [w, MOST],
        2 => [w, held(w.next_up())],
        _ => [w, w],
    }
}

/// The next knot: a few steps of 2^-1074 on, one double on, or by any step.
fn next_knot(r: &mut Rng, at: f64, kind: usize) -> f64 {
    held(match if kind < 4 { kind } else { r.below(4) } {
        0 => at + LEAST * (1 + r.below(3)) as f64,
        1 => at.next_up(),
        2 => at + r.power(-1074, 100),
        _ => at + MOST * 0.05 * r.unit(),
    })
}

/// Knots that are 2^-1074 or one double apart, or by steps of every size, clamped or not, some of them repeated.
fn extreme_knots(r: &mut Rng, degree: usize, count: usize) -> Vec<f64> {
    let kind = r.below(5);
    let mut at = match r.below(6) {
        0 => -LEAST * r.below(count + 1) as f64,
        1 => -MOST,
        2 => -0.0,
        3 => extreme_number(r),
        _ => 0.0,
    };
    let (clamped, smooth) = (!r.one_in(3), r.one_in(2));
    let mut knots = vec![at];
    for i in 1..count + degree + 1 {
        let stays = if clamped && (i <= degree || i >= count) { i != count } else { !smooth && r.one_in(3) };
        if !stays || i == degree + 1 {
            at = next_knot(r, at, kind);
        }
        knots.push(at);
    }
    knots
}

/// A question whose numbers are extreme, in revision 1; mostly of degree 7. Whether it is accepted is left to chance.
pub fn extreme(r: &mut Rng) -> Question {
    let degree = r.of(&[7, 7, 7, 7, 7, 6, 5, 4, 3, 2, 1, 1, 0]);
    let more = if r.one_in(3) { r.below(32 - degree) } else { r.below(4) };
    let (dim, count) = (2 + r.below(2), degree + 1 + more);
    let knots = extreme_knots(r, degree, count);
    let (one, rare) = (r.one_in(3), r.one_in(2));
    let mut points = Vec::new();
    for _ in 0..count {
        for _ in 0..dim {
            let x = if rare && !r.one_in(8) { number(r, 1) } else { extreme_number(r) };
            points.extend(extreme_interval(r, x));
        }
        points.extend(extreme_weight(r, one));
    }
    let (resolution, nodes) = (if r.one_in(2) { 0.0 } else { some_resolution(r) }, if r.one_in(40) { r.below(600) } else { r.below(28) });
    let mut q = Question { rev: 1, dim, degree, count, knots, points, cell: Vec::new(), resolution, nodes, room: 0 };
    q.cell = match r.below(3) {
        0 => (0..dim).flat_map(|_| { let x = extreme_number(r); extreme_interval(r, x) }).collect(),
        _ => some_cell(r, &q),
    };
    q.room = stated(&q) + r.below(6);
    q
}

// ---- wrong questions

/// Makes a question wrong in one of the ways 1 to 10 of the scope, or leaves it just right.
fn spoil(r: &mut Rng, q: &mut Question) {
    match 1 + r.below(10) {
        1 => q.dim = r.of(&[0, 1, 4, 5, usize::MAX]),
        2 => q.degree = r.of(&[8, 9, 32, usize::MAX]),
        3 => q.count = r.of(&[0, q.degree, q.count.wrapping_add(1), 33, 34, usize::MAX]),
        4 => spoil_length(r, q),
        5 => spoil_number(r, q),
        6 => {
            let l = if r.one_in(2) { &mut q.points } else { &mut q.cell };
            let i = r.below(l.len() / 2) * 2;
            l[i] = held(l[i + 1].next_up());
        }
        7 => {
            let d = 2 * (q.dim.min(3) + 1);
            let i = r.below((q.points.len() / d).max(1)) * d + d - 2;
            let w = r.of(&[0.0, -0.0, -LEAST, -1.0, -MOST, LEAST]);
            if let Some(x) = q.points.get_mut(i) {
                *x = w;
            }
        }
        8 => spoil_knots(r, q),
        9 => q.nodes = r.of(&[4097, 4098, 10_000, usize::MAX]),
        _ => q.room = if r.one_in(3) { r.below(q.room + 1) } else { q.room.saturating_sub(1 + r.below(12)) },
    }
}

fn spoil_length(r: &mut Rng, q: &mut Question) {
    let l = match r.below(3) {
        0 => &mut q.knots,
        1 => &mut q.points,
        _ => &mut q.cell,
    };
    if r.one_in(2) {
        l.push(1.0);
    } else {
        l.pop();
    }
}

fn spoil_number(r: &mut Rng, q: &mut Question) {
    let above = MOST.next_up();
    let bad = r.of(&[f64::NAN, -f64::NAN, f64::INFINITY, f64::NEG_INFINITY, above, -above, f64::MAX]);
    let l = match r.below(5) {
        0 => return q.resolution = bad,
        1 => return q.resolution = r.of(&[-LEAST, -1.0, -MOST]),
        2 => &mut q.knots,
        3 => &mut q.points,
        _ => &mut q.cell,
    };
    let i = r.below(l.len());
    l[i] = bad;
}

fn spoil_knots(r: &mut Rng, q: &mut Question) {
    let k = r.below(q.knots.len());
    match r.below(8) {
        0 => q.knots[k] += 1.5,
        1 => q.knots[k] -= 1.5,
        2 => q.knots.fill(1.0),
        3 => q.knots.reverse(),
        _ => {
            let (u, n) = (q.knots[k], q.degree.min(8) + r.below(3));
            q.knots.iter_mut().skip(k).take(n).for_each(|x| *x = u);
        }
    }
}
