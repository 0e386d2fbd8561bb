//! What the scope refuses before anything is searched: 16 and 1 to 10. No Rust is asked for this.
//! The comparisons of the search, of whole texts and of their one form share it; `questions` is a module of theirs.
use crate::questions::{MOST, Question, stated};

/// The number, 16 or from 1 to 10, by which the scope refuses a question, or 0.
pub fn refusal(q: &Question) -> u64 {
    let mut numbers = q.knots.iter().chain(&q.points).chain(&q.cell).chain([&q.resolution]);
    let mut intervals = q.points.chunks(2).chain(q.cell.chunks(2));
    if q.rev != 1 && q.rev != 2 {
        16
    } else if q.dim != 2 && q.dim != 3 {
        1
    } else if q.degree > 7 {
        2
    } else if q.count < q.degree + 1 || q.count > 32 {
        3
    } else if q.knots.len() != q.count + q.degree + 1 || q.points.len() != 2 * (q.dim + 1) * q.count || q.cell.len() != 2 * q.dim {
        4
    } else if numbers.any(|x| x.is_nan() || x.abs() > MOST) || q.resolution < 0.0 {
        5
    } else if intervals.any(|c| c[0] > c[1]) {
        6
    } else if q.points.chunks(2 * (q.dim + 1)).any(|p| p[2 * q.dim] <= 0.0) {
        7
    } else if knots_wrong(q) {
        8
    } else if q.nodes > 4096 {
        9
    } else if q.room < stated(q) {
        10
    } else {
        0
    }
}
fn knots_wrong(q: &Question) -> bool {
    let (start, end) = (q.knots[q.degree], q.knots[q.count]);
    let times = |u: f64| q.knots.iter().filter(|v| **v == u).count();
    q.knots.windows(2).any(|w| w[0] > w[1])
        || start >= end
        || times(start) > q.degree + 1
        || times(end) > q.degree + 1
        || q.knots.iter().any(|&u| start < u && u < end && times(u) > q.degree.max(1))
}
