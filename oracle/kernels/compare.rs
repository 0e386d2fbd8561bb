//! Runs the kernels of crates/geometry and the Rust's functions of the same names on the same random and edge inputs, and compares every bit of the
//! results but the sign of a zero and the bits of a NaN. Usage: compare REVISION CURVES. The script `run` builds it, for revision 2 with the Rust's
//! libraries of that revision.
#[path = "../rust/random.rs"]
mod random;
use geop_core_geometry::{aabb, contains::curve, fat_line, knot_insertion, nurb_curve::NurbCurve};
use geop_core_math::{counts, scalars::Scalar, vector::Vector};
use random::Rng;

unsafe extern "C" {
    fn k_greville(knots: *const f64, n: usize, degree: usize, count: usize, second: bool, out: *mut f64, m: usize) -> bool;
    fn k_zeros(xi: *const f64, n: usize, d: *const f64, m: usize, count: usize, second: bool, out: *mut f64, o: usize) -> bool;
    fn k_clip(
        xi: *const f64, n: usize, points: *const f64, m: usize, cell: *const f64, c: usize, dim: usize, count: usize, start: f64, end: f64, second: bool, out: *mut f64, o: usize,
    ) -> bool;
    fn k_overlap(points: *const f64, m: usize, cell: *const f64, c: usize, dim: usize, count: usize, second: bool) -> bool;
    fn k_meet(points: *const f64, m: usize, cell: *const f64, c: usize, dim: usize, degree: usize, count: usize, second: bool) -> bool;
    fn k_weighted(points: *const f64, m: usize, dim: usize, count: usize) -> bool;
    fn k_extent(points: *const f64, m: usize, dim: usize, count: usize) -> f64;
    fn k_carried(points: *const f64, m: usize, dim: usize, count: usize) -> f64;
    fn k_restriction(a: f64, b: f64, lo: f64, hi: f64, size: f64, carried: f64, second: bool) -> bool;
    fn k_stalled(a: f64, b: f64, size: f64, carried: f64, resolution: f64) -> bool;
    fn k_mid(a: f64, b: f64, second: bool) -> f64;
    fn k_span(knots: *const f64, n: usize, count: usize, degree: usize, t: f64) -> usize;
    fn k_bezier(knots: *const f64, n: usize, count: usize, degree: usize) -> bool;
    fn k_insert(work: *mut f64, n: usize, dim: usize, degree: usize, count: usize, span: usize, t: f64, second: bool);
    fn k_full(work: *mut f64, n: usize, dim: usize, degree: usize, count: usize, t: f64, second: bool) -> usize;
    fn k_split(work: *mut f64, n: usize, dim: usize, degree: usize, count: usize, left: usize, right: usize, t: f64, second: bool) -> bool;
    fn k_restrict(work: *mut f64, n: usize, dim: usize, degree: usize, count: usize, to: usize, lo: f64, hi: f64, second: bool) -> usize;
}

// ---- numbers
const EDGES: [f64; 12] = [0.0, -0.0, 1.0, -1.0, 0.5, 2.0, 5e-324, -5e-324, 1e-300, 1.2676506002282294e30, -1.2676506002282294e30, 3.0];

/// A number of one of several kinds, the same kind for a whole question.
fn number(r: &mut Rng, kind: usize) -> f64 {
    match kind {
        0 => r.below(17) as f64 - 8.0,
        1 => r.unit() * 20.0 - 10.0,
        2 => (r.below(64) as f64 - 32.0) / 8.0,
        3 => (r.unit() - 0.5) * 2f64.powi(r.below(190) as i32 - 95),
        4 => r.of(&EDGES),
        _ => {
            let k = r.below(5);
            number(r, k)
        }
    }
}
/// An interval around a number: sharp, a few steps wide, or wide.
fn interval(r: &mut Rng, x: f64, width: usize) -> (f64, f64) {
    match width {
        0 => (x, x),
        1 => (x.next_down(), x.next_up()),
        _ => {
            let w = x.abs() * r.unit() * 0.01 + r.unit() * 1e-3;
            (x - w, x + w)
        }
    }
}

// ---- questions
struct Case {
    dim: usize,
    degree: usize,
    count: usize,
    knots: Vec<f64>,
    points: Vec<f64>,
    cell: Vec<f64>,
    resolution: f64,
}

fn case(r: &mut Rng) -> Case {
    let dim = 2 + r.below(2);
    let degree = if r.one_in(12) { 0 } else { 1 + r.below(7) };
    let most = if r.one_in(6) { 32 - degree } else { 8 };
    let count = degree + 1 + if r.one_in(3) { 0 } else { r.below(most) };
    let step = if r.one_in(8) { 2f64.powi(-(r.below(900) as i32)) } else { 1.0 };
    let clamped = !r.one_in(3);
    let smooth = r.one_in(2);
    let mut at = if r.one_in(4) { number(r, 2) } else { 0.0 };
    let mut knots = Vec::new();
    let mut times = 0;
    for i in 0..count + degree + 1 {
        let end = clamped && (i <= degree || i >= count);
        let again = if i == 0 { true } else if end { i != count } else { !smooth && times < degree.max(1) && r.one_in(3) };
        if !(i == 0 || again) {
            at += step * (1 + r.below(4)) as f64 * if r.one_in(3) { r.unit() + 0.01 } else { 1.0 };
            times = 0;
        }
        if i == degree + 1 && clamped && at == knots[0] {
            at += step;
            times = 0;
        }
        times += 1;
        knots.push(at);
    }
    let (kind, width) = (r.below(6), r.below(3));
    let rational = r.below(4);
    let mut points = Vec::new();
    for _ in 0..count {
        let w = match rational {
            0 | 1 => 1.0,
            2 => 0.25 + r.unit() * 4.0,
            _ => 2f64.powi(r.below(60) as i32 - 30) * (1.0 + r.unit()),
        };
        for _ in 0..dim {
            let x = number(r, kind) * w;
            let (lo, hi) = interval(r, x, width);
            points.extend([lo, hi]);
        }
        let (lo, hi) = if rational > 1 && width == 1 { (w.next_down(), w.next_up()) } else { (w, w) };
        points.extend([lo, hi]);
    }
    let near = r.below(count);
    let cell = (0..dim)
        .flat_map(|k| {
            let j = 2 * ((dim + 1) * near + k);
            let w = points[2 * ((dim + 1) * near + dim)];
            let x = if r.one_in(3) { number(r, kind) } else { points[j] / w };
            let wide = if r.one_in(2) { 0 } else { r.below(3) };
            let (lo, hi) = interval(r, x, wide);
            [lo, hi]
        })
        .collect();
    let resolution = if r.one_in(4) { 0.0 } else { 10f64.powi(-(r.below(9) as i32)) };
    Case { dim, degree, count, knots, points, cell, resolution }
}

// ---- the comparison
fn plain(x: f64) -> u64 {
    if x.is_nan() { 0x7ff8_0000_0000_0000 } else { (x + 0.0).to_bits() }
}
fn same(a: &[f64], b: &[f64]) -> bool {
    a.len() == b.len() && a.iter().zip(b).all(|(x, y)| plain(*x) == plain(*y))
}
fn numbers(l: &[Scalar]) -> Vec<f64> {
    l.iter().flat_map(|s| [s.lo, s.hi]).collect()
}
fn scalars(l: &[f64]) -> Vec<Scalar> {
    l.chunks(2).map(|c| Scalar { lo: c[0], hi: c[1] }).collect()
}

struct Tally {
    names: Vec<(&'static str, u64, u64)>,
    /// Revision 2 is compared.
    second: bool,
}
impl Tally {
    fn see(&mut self, name: &'static str, equal: bool, show: impl Fn() -> String) {
        let i = self.names.iter().position(|e| e.0 == name).unwrap_or_else(|| {
            self.names.push((name, 0, 0));
            self.names.len() - 1
        });
        self.names[i].1 += 1;
        if !equal {
            self.names[i].2 += 1;
            if self.names[i].2 <= 3 {
                println!("{name} differs: {}", show());
            }
        }
    }
}

fn compare<const D: usize, const C: usize>(t: &mut Tally, r: &mut Rng, c: &Case) {
    let (dim, p, n, second) = (c.dim, c.degree, c.count, t.second);
    let points: Vec<Vector<D>> = scalars(&c.points).chunks(D).map(|q| Vector::from_array(std::array::from_fn(|k| q[k]))).collect();
    let knots: Vec<Scalar> = c.knots.iter().map(|&u| Scalar::from_f64(u)).collect();
    let cell = scalars(&c.cell);
    let aabb = aabb::compute_aabb(&points);
    let curve = NurbCurve::<D> { degree: p, control_points: points.clone(), knot_vector: knots.clone(), aabb };
    let mut cell3 = [Scalar::ENTIRE; 3];
    cell3[..C].copy_from_slice(&cell);
    let point = Vector::<C>::from_array(std::array::from_fn(|k| cell[k]));
    let show = || format!("dim {dim} degree {p} count {n} knots {:?} points {:?} box {:?}", c.knots, c.points, c.cell);
    let (kp, kn, pp, pn, cp, cn) = (c.knots.as_ptr(), c.knots.len(), c.points.as_ptr(), c.points.len(), c.cell.as_ptr(), c.cell.len());
    unsafe {
        t.see("aabb_could_contain", k_overlap(pp, pn, cp, cn, dim, n, second) == aabb::aabb_could_contain(&aabb, &point), show);
        t.see("curve_could_meet_aabb", k_meet(pp, pn, cp, cn, dim, p, n, second) == aabb::curve_could_meet_aabb(&curve, &cell3, C), show);
        t.see("weighted", k_weighted(pp, pn, dim, n) == points.iter().all(|q| q[D - 1].definitely_greater(Scalar::ZERO)), show);
        let size = fat_line::extent([points.iter().copied()]);
        let carried = fat_line::carried_width(&points);
        t.see("extent", same(&[k_extent(pp, pn, dim, n)], &[size]), show);
        t.see("carried_width", same(&[k_carried(pp, pn, dim, n)], &[carried]), show);
        let (a, b) = (c.knots[p], c.knots[n]);
        t.see("mid_parameter", same(&[k_mid(a, b, second)], &[curve.mid_parameter().unwrap().lo]), show);
        let hat = {
            let (x, y) = (a + (b - a) * r.unit(), a + (b - a) * r.unit());
            Scalar { lo: x.min(y), hi: x.max(y) }
        };
        let ranges = [curve.domain()];
        let cut = fat_line::restriction(&[hat], &ranges, &[size], carried).unwrap().is_some();
        t.see("restriction", k_restriction(a, b, hat.lo, hat.hi, size, carried, second) == cut, show);
        let halves = matches!(fat_line::stalled(&ranges, &[size], carried, Scalar::from_f64(c.resolution)), fat_line::Stalled::Bisect(o) if !o.is_empty());
        t.see("stalled", k_stalled(a, b, size, carried, c.resolution) == halves, show);
        let mut out = [0.0; 64];
        let ours = k_greville(kp, kn, p, n, second, out.as_mut_ptr(), 64);
        let theirs = fat_line::greville_abscissae(&knots, p, n).unwrap();
        t.see("greville_abscissae", ours == theirs.is_some() && theirs.as_ref().is_none_or(|xi| same(&out[..2 * n], &numbers(xi))), show);
        if let Some(xi) = theirs {
            let x = numbers(&xi);
            let mut h = [0.0; 2];
            let d: Vec<Scalar> = (0..n).map(|_| { let (kind, w) = (r.below(6), r.below(3)); let v = number(r, kind); let (lo, hi) = interval(r, v, w); Scalar { lo, hi } }).collect();
            let dd = numbers(&d);
            let some = k_zeros(x.as_ptr(), x.len(), dd.as_ptr(), dd.len(), n, second, h.as_mut_ptr(), 2);
            let zeros = fat_line::fat_line_zeros(&xi, &d);
            t.see("fat_line_zeros", some == zeros.is_some() && zeros.is_none_or(|z| same(&h, &[z.lo, z.hi])), || format!("{} d {dd:?}", show()));
            let some = k_clip(x.as_ptr(), x.len(), pp, pn, cp, cn, dim, n, a, b, second, h.as_mut_ptr(), 2);
            let clip = curve::clip(&curve, &xi, &point);
            t.see("clip", some == clip.is_some() && clip.is_none_or(|z| same(&h, &[z.lo, z.hi])), show);
        }
        cuts::<D>(t, r, c, &points, &knots);
    }
}

// ---- cuts: a slot holds the number of points, the knots and the points, each at its place, and the depth, last. The piece stands in the first of four slots
/// What a call of insert_to_full_multiplicity is counted as.
const BY_INSERTIONS: &str = "cut by insertions";
const BY_TRIANGLE: [&str; 7] = [
    "cut by the triangle, degree 1",
    "cut by the triangle, degree 2",
    "cut by the triangle, degree 3",
    "cut by the triangle, degree 4",
    "cut by the triangle, degree 5",
    "cut by the triangle, degree 6",
    "cut by the triangle, degree 7",
];
fn slot_words(c: &Case) -> usize {
    2 * (c.dim + 1) * (c.count + c.degree + 1) + 2 * (c.count + 2 * c.degree + 2) + 1
}
fn write_slot(c: &Case) -> Vec<f64> {
    let w = slot_words(c);
    let mut l: Vec<f64> = (0..4 * w).map(|i| -(i as f64) - 0.5).collect();
    l[0] = c.count as f64;
    l[1..1 + c.knots.len()].copy_from_slice(&c.knots);
    let at = c.count + 2 * c.degree + 3;
    l[at..at + c.points.len()].copy_from_slice(&c.points);
    l
}
fn read_slot(c: &Case, l: &[f64], slot: usize) -> (Vec<f64>, Vec<f64>) {
    let l = &l[slot * slot_words(c)..];
    let n = l[0] as usize;
    let at = c.count + 2 * c.degree + 3;
    (l[1..n + c.degree + 2].to_vec(), l[at..at + 2 * (c.dim + 1) * n].to_vec())
}
/// The words of every slot but those that were written are as they were; of those that were, the last word, which is the piece's depth.
fn only(c: &Case, l: &[f64], written: &[usize]) -> bool {
    let (w, before) = (slot_words(c), write_slot(c));
    let from = |slot: usize| if written.contains(&slot) { (slot + 1) * w - 1 } else { slot * w };
    (0..4).all(|slot| (from(slot)..(slot + 1) * w).all(|i| l[i].to_bits() == before[i].to_bits()))
}
fn flat<const D: usize>(points: &[Vector<D>]) -> Vec<f64> {
    points.iter().flat_map(|q| numbers(&q.to_array())).collect()
}
fn lows(knots: &[Scalar]) -> Vec<f64> {
    knots.iter().map(|k| k.lo).collect()
}

fn cuts<const D: usize>(t: &mut Tally, r: &mut Rng, c: &Case, points: &[Vector<D>], knots: &[Scalar]) {
    let (dim, p, n, second) = (c.dim, c.degree, c.count, t.second);
    let (a, b) = (c.knots[p], c.knots[n]);
    let inner: Vec<f64> = c.knots.iter().copied().filter(|&u| a < u && u < b).collect();
    let x = if !inner.is_empty() && r.one_in(3) { r.of(&inner) } else { a + (b - a) * r.unit() };
    let y = a + (b - a) * r.unit();
    let show = || format!("t {x} dim {dim} degree {p} count {n} knots {:?} points {:?}", c.knots, c.points);
    let s = Scalar::from_f64(x);
    unsafe {
        let span = knot_insertion::find_insertion_span(knots, n - 1, p, s);
        t.see("find_insertion_span", k_span(c.knots.as_ptr(), c.knots.len(), n, p, x) == span, show);
        let bezier = knot_insertion::is_bezier_span(knots, n, p);
        t.see("is_bezier_span", k_bezier(c.knots.as_ptr(), c.knots.len(), n, p) == bezier, show);
        if !(a < x && x < b) || p == 0 {
            return;
        }
        let (mut k2, mut rows) = (knots.to_vec(), [points.to_vec()]);
        knot_insertion::insert_once(&mut k2, &mut rows, p, span, s);
        let mut l = write_slot(c);
        k_insert(l.as_mut_ptr(), l.len(), dim, p, n, span, x, second);
        let (ok, op) = read_slot(c, &l, 0);
        t.see("insert_once", same(&ok, &lows(&k2)) && same(&op, &flat(&rows[0])) && only(c, &l, &[0]), show);

        let (mut k2, mut rows) = (knots.to_vec(), [points.to_vec()]);
        let at = knot_insertion::insert_to_full_multiplicity(&mut k2, &mut rows, p, s).unwrap();
        let mut l = write_slot(c);
        let ours = k_full(l.as_mut_ptr(), l.len(), dim, p, n, x, second);
        let (ok, op) = read_slot(c, &l, 0);
        let name = if bezier { BY_TRIANGLE[p - 1] } else { BY_INSERTIONS };
        t.see(name, ours == at && same(&ok, &lows(&k2)) && same(&op, &flat(&rows[0])) && only(c, &l, &[0]), show);

        let (mut k2, mut rows) = (knots.to_vec(), [points.to_vec()]);
        let (rk, rr) = knot_insertion::split(&mut k2, &mut rows, p, s).unwrap();
        let mut l = write_slot(c);
        let done = k_split(l.as_mut_ptr(), l.len(), dim, p, n, slot_words(c), 2 * slot_words(c), x, second);
        let ((lk, lp), (qk, qp)) = (read_slot(c, &l, 1), read_slot(c, &l, 2));
        t.see("split", done && same(&lk, &lows(&k2)) && same(&lp, &flat(&rows[0])) && same(&qk, &lows(&rk)) && same(&qp, &flat(&rr[0])) && only(c, &l, &[1, 2]), show);

        let (lo, hi) = if x < y { (x, y) } else { (y, x) };
        let (lo, hi) = if r.one_in(6) { (a, hi) } else if r.one_in(6) { (lo, b) } else { (lo, hi) };
        let (mut k2, mut rows) = (knots.to_vec(), [points.to_vec()]);
        counts::made();
        knot_insertion::restrict(&mut k2, &mut rows, p, Scalar::from_f64(lo), Scalar::from_f64(hi)).unwrap();
        let made = counts::made();
        let mut l = write_slot(c);
        let cuts = k_restrict(l.as_mut_ptr(), l.len(), dim, p, n, slot_words(c), lo, hi, second);
        let (ok, op) = read_slot(c, &l, 1);
        t.see("restrict", cuts as u64 == made && same(&ok, &lows(&k2)) && same(&op, &flat(&rows[0])) && only(c, &l, &[1]), || format!("lo {lo} hi {hi} {}", show()));
    }
}

fn main() {
    let words: Vec<u64> = std::env::args().skip(1).map(|w| w.parse().expect("REVISION CURVES")).collect();
    let [revision, total] = words[..] else { panic!("REVISION CURVES") };
    let mut r = Rng(0x9e0b_2024_0517_c0de);
    let mut t = Tally { names: Vec::new(), second: revision == 2 };
    for _ in 0..total {
        let c = case(&mut r);
        if c.dim == 2 { compare::<3, 2>(&mut t, &mut r, &c) } else { compare::<4, 3>(&mut t, &mut r, &c) }
    }
    t.names.sort_by_key(|e| if e.0.starts_with("cut") { e.0 } else { "" });
    let mut differ = 0;
    println!("{:<30} {:>12} {:>12}", format!("revision {revision}"), "inputs", "differences");
    for (name, seen, bad) in &t.names {
        println!("{name:<30} {seen:>12} {bad:>12}");
        differ += bad;
    }
    println!("revision {revision}: {} compared, {differ} differ", t.names.iter().map(|e| e.1).sum::<u64>());
    std::process::exit(if differ > 0 { 1 } else { 0 });
}
