//! Puts the same questions to the port in revision 1, to the port in revision 2 and to the Rust, in one process, in turn, and measures: see README.md.
//! Built with `--cfg counted` against a Rust that counts its visits, cuts and depths, it compares and measures nothing.
use std::hint::black_box;
use std::process::exit;

#[path = "../oracle/rust/random.rs"]
mod random;
mod workloads;
use workloads::{Ask, Workload, slot_words, workload};

mod first {
    use {geop_core_geometry as geometry, geop_core_math as math};
    include!("rust.rs");
}
#[cfg(counted)]
mod second {
    use {second_geometry as geometry, second_math as math};
    include!("rust.rs");
}

unsafe extern "C" {
    fn puhlwazo_curve_could_contain(
        rev: usize, dim: usize, degree: usize, count: usize, knots: *const f64, knots_len: usize, points: *const f64, points_len: usize, cell: *const f64,
        cell_len: usize, resolution: f64, nodes: usize, work: *mut f64, work_len: usize, counts: &mut [u64; 5], bounds: &mut [f64; 2],
    ) -> u64;
    /// Of the C library. Clock 3 is CLOCK_THREAD_CPUTIME_ID.
    fn clock_gettime(clock: i32, seconds_and_nanoseconds: &mut [i64; 2]) -> i32;
}

/// An answer: its kind (0 nothing, 1 enclosed, 2 spent, 3 refused), visited, pending, the bits of lo and hi, cuts, and depth.
type Answer = [u64; 7];

// ---- the three sides

/// The port in revision 1, the port in revision 2, and the Rust.
const SIDES: [&str; 3] = ["port", "second", "rust"];

struct Sides<'a> {
    load: &'a Workload,
    rust: first::Rust,
    /// Lent to the port in every call.
    work: Vec<f64>,
}
impl Sides<'_> {
    fn new(load: &Workload, make: bool) -> Sides<'_> {
        let words = load.asks.iter().map(|q| (q.nodes + 3) * slot_words(&load.paths[q.path])).max();
        Sides { load, rust: first::Rust::new(load, make), work: vec![0.0; words.unwrap_or(0)] }
    }
    fn port(&mut self, rev: usize, q: &Ask) -> (u64, [u64; 5], [f64; 2]) {
        let (p, cell, work) = (&self.load.paths[q.path], &self.load.cells[q.cell], &mut self.work);
        let (mut counts, mut bounds) = ([0; 5], [0.0; 2]);
        let number = unsafe {
            puhlwazo_curve_could_contain(
                rev, p.dim, p.degree, p.count, p.knots.as_ptr(), p.knots.len(), p.points.as_ptr(), p.points.len(), cell.as_ptr(), cell.len(),
                q.resolution, q.nodes, work.as_mut_ptr(), work.len(), &mut counts, &mut bounds,
            )
        };
        (number, counts, bounds)
    }
}

/// What is measured: some questions, put to one side. The names are what a profile of one side starts from.
#[inline(never)]
#[unsafe(no_mangle)]
fn bench_port(s: &mut Sides, asks: &[Ask]) {
    asks.iter().for_each(|q| {
        black_box(s.port(1, black_box(q)));
    });
}
#[inline(never)]
#[unsafe(no_mangle)]
fn bench_second(s: &mut Sides, asks: &[Ask]) {
    asks.iter().for_each(|q| {
        black_box(s.port(2, black_box(q)));
    });
}
#[inline(never)]
#[unsafe(no_mangle)]
fn bench_rust(s: &Sides, asks: &[Ask]) {
    asks.iter().for_each(|q| {
        black_box(s.rust.ask(s.load, black_box(q))).ok();
    });
}
/// The processor time that this thread has taken, in seconds: other work on the machine does not count.
fn now() -> f64 {
    let mut at = [0; 2];
    assert_eq!(unsafe { clock_gettime(3, &mut at) }, 0, "no clock for the thread");
    at[0] as f64 + at[1] as f64 * 1e-9
}
fn ask_side(s: &mut Sides, asks: &[Ask], side: usize) -> f64 {
    let start = now();
    match side {
        0 => bench_port(s, asks),
        1 => bench_second(s, asks),
        _ => bench_rust(s, asks),
    }
    now() - start
}

// ---- the comparison

/// The bits of a bound, where a negative zero counts as zero.
fn bits(x: f64) -> u64 {
    (x + 0.0).to_bits()
}
fn port_answer(s: &mut Sides, rev: usize, q: &Ask) -> Answer {
    let (number, [kind, visited, pending, cuts, depth], bounds) = s.port(rev, q);
    assert_eq!(number, 0, "a question of the benchmark is refused");
    [kind, visited, pending, bounds[0].to_bits(), bounds[1].to_bits(), cuts, depth]
}
/// The port's answers in either revision, and how many differ from the Rust's, and from those of the test program of revision 2. That one is slow, and is
/// asked only where counts are compared.
fn compare(s: &mut Sides) -> ([Vec<Answer>; 2], [usize; 2]) {
    let load = s.load;
    let ours = [1, 2].map(|rev| load.asks.iter().map(|q| port_answer(s, rev, q)).collect::<Vec<_>>());
    let differ = |i: usize, answer: &dyn Fn(&Ask, &Answer) -> Answer| load.asks.iter().zip(&ours[i]).filter(|(q, a)| answer(q, a) != **a).count();
    let first = differ(0, &|q, a| s.rust.answer(load, q, a));
    #[cfg(counted)]
    let second = {
        let rust = second::Rust::new(load, false);
        differ(1, &|q, a| rust.answer(load, q, a))
    };
    #[cfg(not(counted))]
    let second = 0;
    (ours, [first, second])
}

// ---- the measurement

const BLOCK: usize = 50;

/// Some questions of one part, which are put to one side after the other, with the seconds of each side in each round.
struct Block<'a> {
    asks: &'a [Ask],
    rounds: Vec<[f64; 3]>,
}
fn middle(l: impl Iterator<Item = f64>) -> f64 {
    let mut l: Vec<f64> = l.collect();
    l.sort_by(f64::total_cmp);
    l[l.len() / 2]
}
/// Every block in every round. The sides take turns in who goes first.
fn rounds<'a>(s: &mut Sides<'a>, rounds: usize) -> Vec<Block<'a>> {
    let parts = s.load.asks.chunk_by(|a, b| a.part == b.part);
    let mut blocks: Vec<Block> = parts.flat_map(|l| l.chunks(BLOCK)).map(|asks| Block { asks, rounds: Vec::new() }).collect();
    for number in 0..rounds {
        for (i, block) in blocks.iter_mut().enumerate() {
            let mut seconds = [0.0; 3];
            for k in 0..3 {
                let side = (i + number + k) % 3;
                seconds[side] = ask_side(s, block.asks, side);
            }
            block.rounds.push(seconds);
        }
    }
    blocks
}
/// One line: the answers of some blocks, and the sums of the blocks' medians, for each question; revision 1 with the Rust, and revision 2 with revision 1.
fn row(name: &str, answers: [&[&Answer]; 2], blocks: &[&Block]) {
    let of = |kind: u64| answers[0].iter().filter(|a| a[0] == kind).count();
    let visits = answers.map(|l| l.iter().map(|a| a[1]).sum::<u64>());
    let many = answers[0].len();
    let [port, second, rust] = [0, 1, 2].map(|side| blocks.iter().map(|b| middle(b.rounds.iter().map(|t| t[side]))).sum::<f64>() / many as f64 * 1e6);
    // The least and the greatest ratio of two sides over whole rounds.
    let ratios = |a: usize, b: usize| {
        let of_round = |i: usize, side: usize| blocks.iter().map(|b| b.rounds[i][side]).sum::<f64>();
        let ratios = (0..blocks[0].rounds.len()).map(|i| of_round(i, a) / of_round(i, b));
        ratios.fold((f64::INFINITY, 0.0f64), |(a, b), x| (a.min(x), b.max(x)))
    };
    let ((least, most), (least2, most2)) = (ratios(0, 2), ratios(1, 0));
    println!(
        "{name:<24} {many:>9} {:>9} {:>6} {:>8} {:>6} {port:>10.3} {rust:>10.3} {:>7.3} {least:>7.3} {most:>7.3} {:>9} {second:>10.3} {:>7.3} {least2:>7.3} {most2:>7.3}",
        visits[0], of(0), of(1), of(2), port / rust, visits[1], second / port
    );
}
fn measure(s: &mut Sides, number: usize) {
    let load = s.load;
    let (answers, differ) = compare(s);
    println!("{}: {} paths, {} boxes, {} questions", load.name, load.paths.len(), load.cells.len(), load.asks.len());
    for (i, answers) in answers.iter().enumerate().take(if cfg!(counted) { 2 } else { 1 }) {
        let visits = answers.iter().map(|a| a[1]);
        println!(
            "  revision {}: {} answers compared, {} differ; visits of a question: {} to {}; deepest: {}",
            i + 1, answers.len(), differ[i], visits.clone().min().unwrap_or(0), visits.max().unwrap_or(0), answers.iter().map(|a| a[6]).max().unwrap_or(0)
        );
    }
    println!("  another answer in revision 2: {}", answers[0].iter().zip(&answers[1]).filter(|(a, b)| a != b).count());
    if differ != [0; 2] {
        exit(1);
    }
    if number == 0 {
        return;
    }
    let blocks = rounds(s, number);
    println!(
        "{:<24} {:>9} {:>9} {:>6} {:>8} {:>6} {:>10} {:>10} {:>7} {:>7} {:>7} {:>9} {:>10} {:>7} {:>7} {:>7}",
        "", "questions", "visits", "none", "enclosed", "spent", "port, us", "Rust, us", "ratio", "least", "most", "visits 2", "port 2, us", "2 / 1", "least", "most"
    );
    for (k, name) in load.parts.iter().enumerate().filter(|_| load.parts.len() > 1) {
        let of_part = [0, 1].map(|i| load.asks.iter().zip(&answers[i]).filter(|(q, _)| q.part == k).map(|(_, a)| a).collect::<Vec<_>>());
        row(name, [&of_part[0], &of_part[1]], &blocks.iter().filter(|b| b.asks[0].part == k).collect::<Vec<_>>());
    }
    let all = [0, 1].map(|i| answers[i].iter().collect::<Vec<_>>());
    row(load.name, [&all[0], &all[1]], &blocks.iter().collect::<Vec<_>>());
}

fn main() {
    // With either of these the Rust records a backtrace in each of its errors, and most searches make some.
    for name in ["RUST_BACKTRACE", "RUST_LIB_BACKTRACE"] {
        unsafe { std::env::remove_var(name) };
    }
    let usage = || -> ! {
        eprintln!("words: [--workload realistic|installation|worst] [--rounds N] [--nodes N] [--make yes|no] [--side port|second|rust]");
        exit(2)
    };
    let (mut names, mut rounds, mut nodes, mut side) = (vec!["realistic".to_string(), "installation".into(), "worst".into()], 15, None, None);
    let mut make = false;
    let mut words = std::env::args().skip(1);
    while let Some(word) = words.next() {
        let value = words.next().unwrap_or_else(|| usage());
        match word.as_str() {
            "--workload" => names = vec![value],
            "--rounds" => rounds = value.parse().unwrap_or_else(|_| usage()),
            "--nodes" => nodes = Some(value.parse().unwrap_or_else(|_| usage())),
            "--make" if value == "yes" || value == "no" => make = value == "yes",
            "--side" => side = Some(SIDES.iter().position(|s| *s == value).unwrap_or_else(|| usage())),
            _ => usage(),
        }
    }
    for name in names {
        let mut load = workload(&name).unwrap_or_else(|| usage());
        if let Some(n) = nodes {
            load.asks.iter_mut().for_each(|q| q.nodes = n);
        }
        let mut sides = Sides::new(&load, make);
        match side {
            Some(side) => (0..rounds).for_each(|_| {
                ask_side(&mut sides, &load.asks, side);
            }),
            None => measure(&mut sides, if cfg!(counted) { 0 } else { rounds }),
        }
    }
}
