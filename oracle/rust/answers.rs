//! What a question is to be answered with: the refusals 16 and 1 to 10 of the scope, and else what `curve_could_contain` says: that of the Rust in
//! revision 1, and that of the test program in revision 2.
//! The comparisons of the search and of whole texts share it; `questions` and `refusals` are modules of theirs.
use crate::questions::Question;
use crate::refusals::refusal;
use std::panic::set_hook;
use std::sync::atomic::{AtomicBool, Ordering::Relaxed};

mod first {
    use {geop_core_geometry as geometry, geop_core_math as math};
    include!("ask.rs");
}
mod second {
    use {second_geometry as geometry, second_math as math};
    include!("ask.rs");
}

/// An answer: its kind (0 nothing, 1 enclosed, 2 spent, 3 refused), pending, visited, the number of the refusal, the bits of lo and hi, cuts, and depth.
pub type Answer = [u64; 8];

/// The Rust is being asked: its panics are answers, and say nothing.
static ASKING: AtomicBool = AtomicBool::new(false);

/// Only panics of the comparison itself are printed.
pub fn hush() {
    set_hook(Box::new(|p| {
        if !ASKING.load(Relaxed) {
            eprintln!("{p}")
        }
    }));
}
/// The bits of a bound, where a negative zero counts as zero, and any NaN as one.
fn bits(x: f64) -> u64 {
    if x.is_nan() { f64::NAN.to_bits() } else { (x + 0.0).to_bits() }
}
/// The pending count that the Rust's error names.
fn pending(said: &str) -> Option<u64> {
    let (before, _) = said.split_once(" segments pending")?;
    before.rsplit(' ').next()?.parse().ok()
}
/// The answer of a call that is refused.
pub fn refused(number: u64) -> Answer {
    [3, 0, 0, number, 0, 0, 0, 0]
}
/// The scope's refusal, or else the answer of the Rust, or in revision 2 of the test program.
pub fn expected(q: &Question) -> Result<Answer, String> {
    match refusal(q) {
        0 if q.rev == 1 => first::ask(q),
        0 => second::ask(q),
        n => Ok(refused(n)),
    }
}
