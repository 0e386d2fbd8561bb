//! Asks the cart and the frame of the C library the same questions, around the cart's three limits, in both revisions and in others: beyond a limit the cart
//! must say 14, with nothing counted, and else every word of the frame's answer, with a work area that is just long enough or a little longer; or with a
//! shorter one, where the frame does not say 10.
//! What the frame refuses is held to the words of the scope besides.
#[path = "../search/questions.rs"]
#[allow(dead_code)]
mod questions;
#[path = "../rust/random.rs"]
mod random;
#[path = "../rust/refusals.rs"]
mod refusals;
use questions::{Question, other_revision, sized};
use random::Rng;
use refusals::refusal;
use std::collections::BTreeMap;

unsafe extern "C" {
    fn puhlwazo_curve_could_contain(
        rev: usize, dim: usize, degree: usize, count: usize, knots: *const f64, knots_len: usize, points: *const f64, points_len: usize, cell: *const f64,
        cell_len: usize, resolution: f64, nodes: usize, work: *mut f64, work_len: usize, counts: *mut u64, bounds: *mut f64,
    ) -> u64;
    fn puhlwazo_cart_could_contain(
        rev: usize, dim: usize, degree: usize, count: usize, knots: *const f64, knots_len: usize, points: *const f64, points_len: usize, cell: *const f64,
        cell_len: usize, resolution: f64, nodes: usize, counts: *mut u64, bounds: *mut f64,
    ) -> u64;
    fn puhlwazo_work_words(dim: usize, degree: usize, count: usize, nodes: usize) -> usize;
}

// ---- the questions

/// Mostly near 48; few, and many.
fn some_nodes(r: &mut Rng) -> usize {
    match r.below(16) {
        0..3 => r.below(4),
        3..8 => r.below(49),
        8..11 => 48,
        11..13 => 49,
        13 => r.of(&[47, 50, 64, 96]),
        14 => 49 + r.below(200),
        _ => r.of(&[47, 48, 49, 4096, 5000]),
    }
}
/// A question at, below or just beyond the limits. About one in six is wrong in some way, or in two.
fn question(r: &mut Rng) -> Question {
    let degree = r.of(&[0, 1, 1, 2, 2, 2, 3, 3, 3, 3, 3, 3, 3, 4, 4, 5, 7]);
    let count = match r.below(6) {
        0 => degree + 1,
        1 => degree + 1 + r.below(9),
        2 => 9,
        3 => (degree + 1).max(4 + r.below(5)),
        _ => 8,
    };
    sized(r, degree, count.max(degree + 1), some_nodes)
}

// ---- the answers

/// What a call gives: the number, counts and bounds, and whether it wrote beside these.
type Answer = ([u64; 8], bool);

/// Asks by a function that is lent the arguments up to nodes, counts and bounds.
fn asked(ask: impl FnOnce(*mut u64, *mut f64) -> u64) -> Answer {
    let (mut counts, mut bounds) = ([u64::MAX; 7], [f64::NAN; 4]);
    let beside = (counts[0], bounds[0].to_bits());
    let number = ask(counts[1..].as_mut_ptr(), bounds[1..].as_mut_ptr());
    let left = [counts[0], counts[6]].iter().all(|c| *c == beside.0) && [bounds[0], bounds[3]].iter().all(|b| b.to_bits() == beside.1);
    ([number, counts[1], counts[2], counts[3], counts[4], counts[5], bounds[1].to_bits(), bounds[2].to_bits()], left)
}
fn ask_cart(q: &Question) -> Answer {
    asked(|counts, bounds| unsafe {
        puhlwazo_cart_could_contain(
            q.rev, q.dim, q.degree, q.count, q.knots.as_ptr(), q.knots.len(), q.points.as_ptr(), q.points.len(), q.cell.as_ptr(), q.cell.len(),
            q.resolution, q.nodes, counts, bounds,
        )
    })
}
/// How many numbers the frame says that it needs.
fn needed(q: &Question) -> usize {
    unsafe { puhlwazo_work_words(q.dim, q.degree, q.count, q.nodes) }
}
/// The frame is lent so many numbers, full of garbage.
fn ask_frame(r: &mut Rng, q: &mut Question, room: usize) -> Answer {
    q.room = room;
    let mut work = vec![f64::from_bits(r.next()); q.room];
    asked(|counts, bounds| unsafe {
        puhlwazo_curve_could_contain(
            q.rev, q.dim, q.degree, q.count, q.knots.as_ptr(), q.knots.len(), q.points.as_ptr(), q.points.len(), q.cell.as_ptr(), q.cell.len(),
            q.resolution, q.nodes, work.as_mut_ptr(), work.len(), counts, bounds,
        )
    })
}
/// A refusal before anything is searched: nothing is counted.
fn refused(number: u64) -> [u64; 8] {
    [number, 3, 0, 0, 0, 0, 0, 0]
}
/// Which of the limits a call is beyond, in words of the request.
fn beyond(q: &Question) -> Vec<&'static str> {
    let limits = [("degree", q.degree > 3), ("count", q.count > 8), ("nodes", q.nodes > 48)];
    limits.iter().filter(|(_, over)| *over).map(|(name, _)| *name).collect()
}

// ---- the comparison

#[derive(Default)]
struct Row {
    calls: u64,
    visits: u64,
    differ: u64,
}
/// Asks both; the row's name is what must be answered.
fn compare(r: &mut Rng, q: &mut Question, rows: &mut BTreeMap<String, Row>) {
    let over = beyond(q);
    let (right, sound) = if over.is_empty() {
        let words = needed(q);
        let short = (words > 0 && r.one_in(4)).then(|| { let room = r.below(words); ask_frame(r, q, room) });
        let room = words + r.below(6);
        let (frame, left) = ask_frame(r, q, room);
        let number = refusal(q);
        let sound = if number == 0 { frame[0] == 0 || frame[0] == 11 } else { frame == refused(number) };
        let same = short.is_none_or(|(answer, left)| left && (answer == if number == 0 { refused(10) } else { frame }));
        (frame, left && sound && same)
    } else {
        (refused(14), true)
    };
    let (cart, left) = ask_cart(q);
    let name = match (over.len(), right[1]) {
        (0, 0) => "nothing".into(),
        (0, 1) => "enclosed".into(),
        (0, 2) => "spent".into(),
        (0, _) => format!("refused {:>2}", right[0]),
        _ => format!("refused 14: {}", over.join(", ")),
    };
    let row = rows.entry(name).or_default();
    row.calls += 1;
    row.visits += cart[2];
    if cart != right || !left || !sound {
        row.differ += 1;
        if row.differ <= 2 {
            println!("differs: expected {right:x?}, the cart {cart:x?}; the frame is {}, the cart wrote {}\n  {q:?}",
                if sound { "right" } else { "wrong" }, if left { "nothing else" } else { "beside its answer" });
        }
    }
}
fn main() {
    let mut words = std::env::args().skip(1).map(|w| w.parse::<u64>().expect("CALLS [SEED]"));
    let (total, seed) = (words.next().unwrap_or(1_000_000), words.next().unwrap_or(1));
    let mut r = Rng::of_seed(seed);
    let mut rows: [BTreeMap<String, Row>; 3] = Default::default();
    let mut limits = 0;
    for _ in 0..total {
        let q = question(&mut r);
        limits += u64::from((q.degree, q.count, q.nodes) == (3, 8, 48));
        let mut ask = |r: &mut Rng, rev: usize, i: usize| compare(r, &mut Question { rev, ..q.clone() }, &mut rows[i]);
        ask(&mut r, 1, 0);
        ask(&mut r, 2, 1);
        if r.one_in(16) {
            let rev = other_revision(&mut r);
            ask(&mut r, rev, 2);
        }
    }
    for (name, rows) in ["revision 1", "revision 2", "another revision"].iter().zip(&rows) {
        println!("{name:<34} {:>10} {:>12} {:>12}", "calls", "visits", "differences");
        for (name, row) in rows {
            println!("{name:<34} {:>10} {:>12} {:>12}", row.calls, row.visits, row.differ);
        }
    }
    let all = |of: fn(&Row) -> u64| rows.iter().flat_map(|rows| rows.values()).map(of).sum::<u64>();
    let differ = all(|row| row.differ);
    println!("{limits} of {total} questions are at all three limits");
    println!("{} compared, {differ} differ", all(|row| row.calls));
    std::process::exit(if differ > 0 { 1 } else { 0 });
}
