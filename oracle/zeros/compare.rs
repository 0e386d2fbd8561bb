//! Random polygons, asked of the port and of the Rust, each in both revisions: `compare COUNT SEED QUESTIONS ANSWERS`.
//! The questions about the first ones go to the file QUESTIONS too, and the Rust's answers to ANSWERS, for the program that `rt try` runs.
//! A question there: the revision and the two lengths, a byte each, then lo and hi of each abscissa and of each value. An answer: 1 and the bits of lo
//! and hi, or 0 and zeros.
//! Bits are written from the lowest byte on; a negative zero counts as zero, and every NaN as one.
#[path = "../rust/random.rs"]
mod random;
use geop_core_geometry::fat_line::fat_line_zeros;
use geop_core_math::scalars::Scalar;
use random::Rng;
use second_geometry::fat_line::fat_line_zeros as second_zeros;
use second_math::scalars::Scalar as Swapped;
use std::env::args;
use std::f64::{INFINITY, NAN, NEG_INFINITY};
use std::fs::write;

unsafe extern "C" {
    fn z_zeros(rev: usize, xi: *const f64, xi_len: usize, d: *const f64, d_len: usize, out: *mut [f64; 2]) -> bool;
}

/// So many polygons are for `rt try`.
const TRIED: usize = 200;

// ---- polygons

const EDGES: [f64; 11] = [0.0, -0.0, 1.0, -1.0, 3.0, 5e-324, 1e-30, 1.2676506002282294e30, -1.2676506002282294e30, f64::MAX, -f64::MAX];
/// What is odd about a polygon: about some of its intervals, or that it is none.
const KINDS: [&str; 6] = ["nothing odd", "an infinite bound", "a NaN", "lo above hi", "all of these", "no polygon"];
const NOTHING: usize = 0;
const ALL: usize = 4;
const NO_POLYGON: usize = 5;

struct Polygon {
    kind: usize,
    xi: Vec<Scalar>,
    d: Vec<Scalar>,
}

impl Rng {
    fn number(&mut self) -> f64 {
        match self.below(4) {
            0 => self.below(17) as f64 - 8.0,
            1 => 20.0 * self.unit() - 10.0,
            2 => (self.below(64) as f64 - 32.0) / 8.0,
            _ => self.of(&EDGES),
        }
    }
    fn width(&mut self) -> f64 {
        self.of(&[0.0, 1e-3, 4.0]) * self.unit()
    }
    fn interval(&mut self, lo: f64) -> Scalar {
        Scalar { lo, hi: lo + self.width() }
    }
    /// Abscissae that rise, or, of four lists in one, any.
    fn abscissae(&mut self, n: usize) -> Vec<Scalar> {
        let (any, mut at) = (self.below(4) == 0, self.number());
        (0..n)
            .map(|_| {
                at = if any { self.number() } else { at + self.width() };
                self.interval(at)
            })
            .collect()
    }
    fn values(&mut self, n: usize) -> Vec<Scalar> {
        (0..n)
            .map(|_| {
                let y = self.number();
                self.interval(y)
            })
            .collect()
    }
    /// An interval of such a kind.
    fn odd(&mut self, kind: usize) -> Scalar {
        let (x, nan) = (self.number(), f64::from_bits(self.of(&[NAN.to_bits(), (-NAN).to_bits(), 0x7ff0_0000_0000_0001])));
        let above = self.of(&[x.next_up(), x + 1e-3, x + 1.0, x + 4.0]);
        let (lo, hi) = match kind {
            1 => self.of(&[(NEG_INFINITY, x), (x, INFINITY), (NEG_INFINITY, INFINITY), (INFINITY, INFINITY), (NEG_INFINITY, NEG_INFINITY)]),
            2 => self.of(&[(nan, x), (x, nan), (nan, nan), (nan, INFINITY), (NEG_INFINITY, nan)]),
            3 => self.of(&[(above, x), (above, x), (above, x), (INFINITY, x), (x, NEG_INFINITY), (INFINITY, NEG_INFINITY)]),
            _ => {
                let kind = 1 + self.below(3);
                return self.odd(kind);
            }
        };
        Scalar { lo, hi }
    }
    /// One polygon of two has odd intervals: among its abscissae, its values or both, all of them, half or few.
    fn polygon(&mut self) -> Polygon {
        let n = if self.one_in(3) { 1 + self.below(4) } else { self.below(24) };
        let m = if self.one_in(16) { self.below(24) } else { n };
        let (mut xi, mut d) = (self.abscissae(m), self.values(n));
        let mut kind = NOTHING;
        if self.one_in(2) {
            kind = 1 + self.below(ALL);
            let (among, one_of) = (self.of(&[[true, false], [false, true], [true, true]]), self.of(&[1, 2, 6]));
            for (list, _) in [&mut xi, &mut d].into_iter().zip(among).filter(|(_, odd)| *odd) {
                list.iter_mut().for_each(|s| if self.one_in(one_of) { *s = self.odd(kind) });
            }
        }
        Polygon { kind: if m == n && n > 0 { kind } else { NO_POLYGON }, xi, d }
    }
}

// ---- both answers

/// The answer of the Rust, and in revision 2 of the test program. Slices that are no polygon get the whole line (docs/DIFFERENCES.md), and so does a revision
/// that there is not; the Rust is not asked.
fn expected(rev: usize, p: &Polygon) -> Option<Scalar> {
    let swapped = |l: &[Scalar]| l.iter().map(|s| Swapped { lo: s.lo, hi: s.hi }).collect::<Vec<_>>();
    match rev {
        1 if p.kind != NO_POLYGON => fat_line_zeros(&p.xi, &p.d),
        2 if p.kind != NO_POLYGON => second_zeros(&swapped(&p.xi), &swapped(&p.d)).map(|t| Scalar { lo: t.lo, hi: t.hi }),
        _ => Some(Scalar::ENTIRE),
    }
}
fn ask_port(rev: usize, p: &Polygon) -> Option<Scalar> {
    let flat = |l: &[Scalar]| l.iter().flat_map(|s| [s.lo, s.hi]).collect::<Vec<f64>>();
    let (xi, d, mut out) = (flat(&p.xi), flat(&p.d), [0.0; 2]);
    let some = unsafe { z_zeros(rev, xi.as_ptr(), xi.len(), d.as_ptr(), d.len(), &mut out) };
    some.then_some(Scalar { lo: out[0], hi: out[1] })
}
fn bits(x: f64) -> [u8; 8] {
    if x.is_nan() { 0x7ff8_0000_0000_0000 } else { (x + 0.0).to_bits() }.to_le_bytes()
}
fn written(t: Option<Scalar>) -> Vec<u8> {
    t.map_or(vec![0; 17], |t| [&[1][..], &bits(t.lo), &bits(t.hi)].concat())
}

// ---- the comparison

const ANSWERS: [&str; 6] = ["none", "finite", "unbounded", "anywhere", "lo above hi", "a NaN"];
fn answer_of(t: Option<Scalar>) -> usize {
    match t {
        None => 0,
        Some(t) if t.lo.is_nan() || t.hi.is_nan() => 5,
        Some(t) if t.lo > t.hi => 4,
        Some(t) if t.lo == NEG_INFINITY && t.hi == INFINITY => 3,
        Some(t) => 1 + usize::from(t.lo.is_infinite() || t.hi.is_infinite()),
    }
}
/// How many questions had which answer, and how many differ; of these the shortest.
#[derive(Clone, Default)]
struct Row {
    answers: [u64; ANSWERS.len()],
    differ: u64,
    shortest: Option<(usize, String)>,
}
fn said(t: Option<Scalar>) -> String {
    t.map_or("none".into(), |t| format!("{:?} {:?} ({:016x} {:016x})", t.lo, t.hi, t.lo.to_bits(), t.hi.to_bits()))
}
impl Row {
    fn count(&mut self, rev: usize, p: &Polygon, ours: Option<Scalar>, theirs: Option<Scalar>) {
        self.answers[answer_of(theirs)] += 1;
        if written(ours) == written(theirs) {
            return;
        }
        self.differ += 1;
        let long = p.xi.len() + p.d.len();
        if self.shortest.as_ref().is_none_or(|(least, _)| long < *least) {
            let bounds = |l: &[Scalar]| l.iter().map(|s| format!("[{:?}, {:?}]", s.lo, s.hi)).collect::<Vec<_>>().join(" ");
            let text = format!("xi={}\nd={}\nexpected {}\nthe port {}", bounds(&p.xi), bounds(&p.d), said(theirs), said(ours));
            self.shortest = Some((long, format!("differs in revision {rev}, the shortest of its kind ({}):\n{text}", KINDS[p.kind])));
        }
    }
}
/// Whether some interval has an infinite bound, a NaN, lo above hi.
fn odd_in(l: &[Scalar]) -> [bool; 3] {
    let any = |f: fn(&Scalar) -> bool| l.iter().any(f);
    [any(|s| s.lo.is_infinite() || s.hi.is_infinite()), any(|s| s.lo.is_nan() || s.hi.is_nan()), any(|s| s.lo > s.hi)]
}

fn main() {
    let words: Vec<String> = args().skip(1).collect();
    let [count, seed, asked, answered] = &words[..] else { panic!("usage: compare COUNT SEED QUESTIONS ANSWERS") };
    let (count, mut r) = (count.parse::<usize>().expect("a number"), Rng::of_seed(seed.parse().expect("a seed")));
    let (mut questions, mut answers) = (Vec::new(), Vec::new());
    let (mut rows, mut odd) = (vec![vec![Row::default(); KINDS.len()]; 3], [[0u64; 3]; 2]);
    for i in 0..count {
        let p = r.polygon();
        if p.kind != NO_POLYGON {
            for (counts, list) in odd.iter_mut().zip([&p.xi, &p.d]) {
                counts.iter_mut().zip(odd_in(list)).for_each(|(n, has)| *n += u64::from(has));
            }
        }
        let other = r.one_in(16).then(|| r.of(&[0, 3, 255]));
        for rev in [1, 2].into_iter().chain(other) {
            let theirs = expected(rev, &p);
            rows[if rev == 1 || rev == 2 { rev - 1 } else { 2 }][p.kind].count(rev, &p, ask_port(rev, &p), theirs);
            if i < TRIED {
                questions.extend([rev as u8, p.xi.len() as u8, p.d.len() as u8]);
                questions.extend(p.xi.iter().chain(&p.d).flat_map(|s| [s.lo, s.hi]).flat_map(f64::to_le_bytes));
                answers.extend(written(theirs));
            }
        }
    }
    assert!(questions.len() <= 262_144, "the program reads no more");
    write(asked, questions).and_then(|()| write(answered, answers)).expect("the two files");
    rows.iter().flatten().filter_map(|row| row.shortest.as_ref()).for_each(|(_, text)| println!("{text}"));
    for (name, rows) in ["revision 1", "revision 2", "another"].iter().zip(&rows) {
        println!("{name:<18} {:>10} {}{:>12}", "polygons", ANSWERS.map(|a| format!("{a:>12}")).concat(), "differences");
        for (kind, row) in KINDS.iter().zip(rows) {
            println!("{kind:<18} {:>10} {}{:>12}", row.answers.iter().sum::<u64>(), row.answers.map(|n| format!("{n:>12}")).concat(), row.differ);
        }
    }
    println!("{:<18} {:>10} {:>12}", "polygons with", "abscissae", "values");
    for (k, kind) in KINDS[1..ALL].iter().enumerate() {
        println!("{kind:<18} {:>10} {:>12}", odd[0][k], odd[1][k]);
    }
    let differ: u64 = rows.iter().flatten().map(|row| row.differ).sum();
    println!("{count} polygons compared in each revision, {differ} answers differ");
    std::process::exit(if differ == 0 { 0 } else { 1 });
}
