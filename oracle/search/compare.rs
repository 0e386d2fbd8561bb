//! Asks the search of the C library and the Rust's `curve_could_contain` the same questions, and compares the answers bit for bit: each question in
//! revision 1, where the Rust is as it stands, and in revision 2, where it is the test program of that revision.
//! What the Rust has no answer for, refusals 16 and 1 to 10 and the work area, is held to the words of the scope.
#[path = "../rust/answers.rs"]
mod answers;
mod questions;
#[path = "../rust/random.rs"]
mod random;
#[path = "../rust/refusals.rs"]
mod refusals;
use answers::{Answer, expected, hush};
use questions::{Question, extreme, other_revision, question, stated};
use random::Rng;
use refusals::refusal;

unsafe extern "C" {
    fn puhlwazo_curve_could_contain(
        rev: usize, dim: usize, degree: usize, count: usize, knots: *const f64, knots_len: usize, points: *const f64, points_len: usize, cell: *const f64,
        cell_len: usize, resolution: f64, nodes: usize, work: *mut f64, work_len: usize, counts: &mut [u64; 5], bounds: &mut [f64; 2],
    ) -> u64;
}

// ---- what the port does

/// The port's answer with a work area full of garbage, and whether it left that area as the scope says.
fn ask_port(r: &mut Rng, q: &Question) -> (Answer, bool) {
    let mut work: Vec<f64> = (0..q.room).map(|_| f64::from_bits(r.next())).collect();
    let before = work.clone();
    let (mut counts, mut bounds) = ([u64::MAX; 5], [f64::NAN; 2]);
    let number = unsafe {
        puhlwazo_curve_could_contain(
            q.rev, q.dim, q.degree, q.count, q.knots.as_ptr(), q.knots.len(), q.points.as_ptr(), q.points.len(), q.cell.as_ptr(), q.cell.len(),
            q.resolution, q.nodes, work.as_mut_ptr(), work.len(), &mut counts, &mut bounds,
        )
    };
    let words = if refusal(q) == 0 { stated(q) } else { 0 };
    let cleared = work[..words].iter().all(|x| x.to_bits() == 0);
    let kept = work[words..].iter().zip(&before[words..]).all(|(x, y)| x.to_bits() == y.to_bits());
    let [kind, visited, pending, cuts, depth] = counts;
    ([kind, pending, visited, number, bounds[0].to_bits(), bounds[1].to_bits(), cuts, depth], cleared && kept)
}

// ---- the comparison
#[derive(Clone, Copy, Default)]
struct Row {
    questions: u64,
    visits: u64,
    most: u64,
    cuts: u64,
    deepest: u64,
    differ: u64,
}
/// The rows of a revision: nothing, enclosed, spent, refused 1 to 11, no answer at all; and refused 16, which is of no revision.
type Rows = [Row; 16];
const NONE: usize = 14;
const OTHER: usize = 15;
fn row_of(a: &Result<Answer, String>) -> usize {
    match a {
        Ok(a) if a[3] == 16 => OTHER,
        Ok(a) => (a[0] + a[3].saturating_sub(1)) as usize,
        Err(_) => NONE,
    }
}
fn row_name(i: usize) -> String {
    match i {
        0 => "nothing".into(),
        1 => "enclosed".into(),
        2 => "spent".into(),
        NONE => "no answer (debug)".into(),
        OTHER => "refused 16".into(),
        n => format!("refused {}", n - 2),
    }
}
/// Request E14: a search that completes gives the same answer with any number of nodes from its visits on, and is spent with one less.
/// Both are asked: with exactly as many nodes as visits, with more (how many more is taken from the answer's bits), and with one less.
fn more_nodes_change_nothing(r: &mut Rng, q: &mut Question, answer: Answer) -> bool {
    let visited = answer[2] as usize;
    let mut ask = |nodes: usize| {
        (q.nodes, q.room) = (nodes, 0);
        q.room = stated(q);
        let (ours, left) = ask_port(r, q);
        (expected(q) == Ok(ours) && left).then_some(ours)
    };
    let more = visited + (answer[4] ^ answer[5] ^ answer[2]) as usize % (4097 - visited);
    ask(visited) == Some(answer) && ask(more) == Some(answer) && ask(visited - 1).is_some_and(|a| a[0] == 2 && a[2] == answer[2] - 1)
}
/// Asks both, the port sometimes twice, and gives the port's answer. No answer, as where an assertion of the debug build fires, is a difference.
fn compare(r: &mut Rng, q: &mut Question, row: &mut Rows, completed: &mut u64) -> Answer {
    let theirs = expected(q);
    let (ours, mut left) = ask_port(r, q);
    let mut same = theirs == Ok(ours);
    if r.one_in(4) {
        let (again, clean) = ask_port(r, q);
        same &= again == ours;
        left &= clean;
    }
    if same && ours[0] < 2 && ours[2] > 0 && r.one_in(4) {
        *completed += 1;
        same = more_nodes_change_nothing(r, q, ours);
    }
    let row = &mut row[row_of(&theirs)];
    row.questions += 1;
    row.visits += ours[2];
    row.most = row.most.max(ours[2]);
    row.cuts += ours[6];
    row.deepest = row.deepest.max(ours[7]);
    if !same || !left {
        row.differ += 1;
        if row.differ <= 2 {
            println!("differs: expected {theirs:x?}, the port {ours:x?}, the work area is {}\n  {q:?}", if left { "right" } else { "wrong" });
        }
    }
    ours
}
/// An extreme question that none of 1 to 10 refuses.
fn accepted(r: &mut Rng) -> Question {
    loop {
        let q = extreme(r);
        if refusal(&q) == 0 {
            return q;
        }
    }
}
fn main() {
    let mut words = std::env::args().skip(1).peekable();
    let extremes = words.next_if(|w| w == "--extreme").is_some();
    let mut words = words.map(|w| w.parse::<u64>().expect("[--extreme] QUESTIONS [SEED]"));
    let (total, seed) = (words.next().unwrap_or(200_000), words.next().unwrap_or(1));
    hush();
    let mut r = Rng::of_seed(seed);
    // Of revision 1, of revision 2, and of no revision.
    let mut rows = [Rows::default(); 3];
    let (mut completed, mut others) = ([0; 3], 0);
    for _ in 0..total {
        let q = if extremes { accepted(&mut r) } else { question(&mut r) };
        let mut ask = |r: &mut Rng, rev: usize, i: usize| compare(r, &mut Question { rev, ..q.clone() }, &mut rows[i], &mut completed[i]);
        let answers = [ask(&mut r, 1, 0), ask(&mut r, 2, 1)];
        others += u64::from(answers[0] != answers[1]);
        if r.one_in(16) {
            let rev = other_revision(&mut r);
            ask(&mut r, rev, 2);
        }
    }
    for (i, rows) in rows.iter().enumerate() {
        let name = ["revision 1", "revision 2", "another revision"][i];
        println!("{name:<18} {:>10} {:>12} {:>8} {:>12} {:>8} {:>12}", "questions", "visits", "most", "cuts", "deepest", "differences");
        for (k, row) in rows.iter().enumerate().filter(|(k, row)| row.questions > 0 || (i < 2 && *k != OTHER)) {
            println!("{:<18} {:>10} {:>12} {:>8} {:>12} {:>8} {:>12}", row_name(k), row.questions, row.visits, row.most, row.cuts, row.deepest, row.differ);
        }
    }
    let asked: u64 = rows.iter().flatten().map(|row| row.questions).sum();
    let differ: u64 = rows.iter().flatten().map(|row| row.differ).sum();
    println!("{others} of {total} questions have another answer in revision 2 than in revision 1");
    println!("{} and {} completed searches asked again: with as many nodes as visits, with more, and with one less", completed[0], completed[1]);
    println!("{asked} compared, {differ} differ");
    std::process::exit(if differ > 0 { 1 } else { 0 });
}
