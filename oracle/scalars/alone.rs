//! Revision 2's arithmetic of the test program, ../rust/tight.rs, beside the machine's own directed rounding: single sums, products and quotients; and
//! those of intervals, where the machine's are picked by the signs of the bounds, as the definition has it.
//! Usage: alone COUNT. The script `run` builds it. Equal numbers are the same, so the sign of a zero does not count; and all NaNs are one.
#[path = "../rust/machine.rs"]
mod machine;
#[allow(dead_code)]
mod operands;
#[path = "../rust/random.rs"]
mod random;
#[path = "../rust/tight.rs"]
mod tight;

use operands::{Operands, Takes, edges};
use random::Rng;
use std::time::Instant;
use tight::Bounds;

// ---- the definition over the machine

fn mirrored([lo, hi]: Bounds) -> Bounds {
    [-hi, -lo]
}
fn add(x: Bounds, y: Bounds) -> Bounds {
    [machine::sum(x[0], y[0])[0], machine::sum(x[1], y[1])[1]]
}
/// The lower bound of a product.
fn low([a, b]: Bounds, [c, d]: Bounds) -> f64 {
    let down = |x, y| machine::product(x, y)[0];
    match (0.0 <= c, d <= 0.0, 0.0 <= a, b <= 0.0) {
        (true, _, true, _) => down(a, c),
        (true, _, false, _) => down(a, d),
        (_, true, _, _) => down(b, if 0.0 <= b { c } else { d }),
        (_, _, true, _) => down(b, c),
        (_, _, _, true) => down(a, d),
        _ => down(a, d).min(down(b, c)),
    }
}
fn mul(x: Bounds, y: Bounds) -> Bounds {
    [low(x, y), -low(mirrored(x), y)]
}
/// The lower bound of a over an interval above zero.
fn over(a: f64, [c, d]: Bounds) -> f64 {
    machine::quotient(a, if 0.0 <= a { d } else { c })[0]
}
fn div(x: Bounds, y: Bounds) -> Option<Bounds> {
    if y[0] <= 0.0 && 0.0 <= y[1] {
        None
    } else if 0.0 <= y[0] {
        Some([over(x[0], y), -over(-x[1], y)])
    } else {
        Some([over(-x[1], mirrored(y)), -over(x[0], mirrored(y))])
    }
}

// ---- the comparison

struct Tally {
    names: Vec<(&'static str, u64, u64)>,
}
impl Tally {
    fn see(&mut self, i: usize, name: &'static str, taken: &[f64], ours: Option<Bounds>, theirs: Option<Bounds>) {
        if i == self.names.len() {
            self.names.push((name, 0, 0));
        }
        let equal = |(a, b): (f64, f64)| a == b || (a.is_nan() && b.is_nan());
        let row = &mut self.names[i];
        row.1 += 2;
        let same = match (ours, theirs) {
            (Some(a), Some(b)) => equal((a[0], b[0])) && equal((a[1], b[1])),
            (a, b) => a.is_none() && b.is_none(),
        };
        if !same {
            row.2 += 1;
            if row.2 <= 3 {
                let hex = |v: &[f64]| v.iter().map(|x| format!("{:016x}", x.to_bits())).collect::<Vec<_>>().join(" ");
                let show = |v: Option<Bounds>| v.map_or("failed".into(), |v| hex(&v));
                println!("{name} of {}: tight.rs {}, the machine {}", hex(taken), show(ours), show(theirs));
            }
        }
    }
    fn numbers(&mut self, a: f64, b: f64) {
        let v = [a, b];
        self.see(0, "sum", &v, Some(tight::sum(a, b)), Some(machine::sum(a, b)));
        self.see(1, "product", &v, Some(tight::product(a, b)), Some(machine::product(a, b)));
        self.see(2, "quotient", &v, Some(tight::quotient(a, b)), Some(machine::quotient(a, b)));
    }
    fn ratio(&mut self, n: f64, d: f64) {
        if d != 0.0 {
            self.see(3, "ratio", &[n, d], Some(tight::ratio(n as i64, d as i64)), Some(machine::quotient(n, d)));
        }
    }
    fn intervals(&mut self, v: &[f64]) {
        let (x, y) = ([v[0], v[1]], [v[2], v[3]]);
        self.see(4, "add", v, Some(tight::add(x, y)), Some(add(x, y)));
        self.see(5, "sub", v, Some(tight::sub(x, y)), Some(add(x, mirrored(y))));
        self.see(6, "mul", v, Some(tight::mul(x, y)), Some(mul(x, y)));
        self.see(7, "div", v, tight::div(x, y), div(x, y));
    }
}

// ---- operands

/// Two numbers whose exponents are up to 160 apart, each with any digits, few, or nearly all ones or zeros; or a product or quotient that is exact, or nearly.
fn pair(r: &mut Rng) -> [f64; 2] {
    let digits = |r: &mut Rng| {
        let any = r.next() >> 12;
        match r.below(6) {
            0 => any >> r.below(52) << 20 & ((1 << 52) - 1),
            1 => any & (r.next() & r.next()),
            2 => ((1 << 52) - 1) ^ r.below(8) as u64,
            3 => r.below(8) as u64,
            4 => 1 << r.below(52),
            _ => any,
        }
    };
    let sign = r.next() & 1 << 63;
    let e = r.below(2047);
    let f = (e as i64 + r.below(321) as i64 - 160).clamp(0, 2046) as u64;
    let (a, b) = (digits(r) | (e as u64) << 52, digits(r) | f << 52 | sign);
    let (a, b) = (f64::from_bits(a), f64::from_bits(b));
    match r.below(8) {
        0 => [b, a],
        1 => [a * b, b],
        2 => {
            let p = (r.below(1 << 26) + 1) as f64;
            let q = (r.below(1 << 26) + 1) as f64;
            let x = f64::from_bits((p * q).to_bits() + r.below(3) as u64 - 1);
            [x * f64::from_bits(((1 + r.below(2045)) as u64) << 52), p]
        }
        3 => [b, -f64::from_bits(b.to_bits() ^ r.below(4) as u64)],
        _ => [a, b],
    }
}

fn main() {
    let count: u64 = std::env::args().nth(1).and_then(|w| w.parse().ok()).expect("a count");
    let start = Instant::now();
    let mut t = Tally { names: Vec::new() };
    let list = edges();
    for a in &list {
        list.iter().for_each(|b| t.numbers(*a, *b));
    }
    let whole = Takes::Ratio.edges();
    for n in &whole {
        whole.iter().for_each(|d| t.ratio(*n, *d));
    }
    for i in 0..list.len().pow(4) {
        let n = list.len();
        t.intervals(&[list[i % n], list[i / n % n], list[i / n / n % n], list[i / n / n / n]]);
    }
    // Each power of two with each, exact or one double beside it.
    let power = |k: i64| if k < 52 { 1 << k } else { ((k - 51) as u64) << 52 };
    let mut r = Rng::of_seed(1);
    for k in 0..2098 {
        for l in 0..2098 {
            let mut some = |k| f64::from_bits((power(k) + r.below(3) as u64 - 1) | r.next() & 1 << 63);
            t.numbers(some(k), some(l));
        }
    }
    let (mut operands, mut v) = (Operands::new(2), [0.0; 6]);
    for _ in 0..count {
        operands.fill(Takes::Numbers, &mut v);
        t.numbers(v[0], v[1]);
        let [a, b] = pair(&mut r);
        t.numbers(a, b);
        operands.fill(Takes::Intervals, &mut v);
        t.intervals(&v[..4]);
        // A pair more makes an interval of each number.
        let [c, d] = pair(&mut r);
        t.intervals(&[a.min(c), a.max(c), b.min(d), b.max(d)]);
    }
    println!("{:<10} {:>14} {:>14}", "", "results", "differences");
    for (name, seen, differ) in &t.names {
        println!("{name:<10} {seen:>14} {differ:>14}");
    }
    let (seen, differ) = t.names.iter().fold((0, 0), |(s, d), e| (s + e.1, d + e.2));
    println!("{seen} compared, {differ} differ; {:.0} seconds", start.elapsed().as_secs_f64());
    std::process::exit((differ > 0) as i32);
}
