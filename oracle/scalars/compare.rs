//! Runs each operation of the crate math and of the Rust on the same operands, and compares what they give: in revision 1 with the
//! Rust's; in revision 2 with the swapped ones of the test program, and sums, products and quotients of two numbers with the machine's.
//! Usage: compare COUNT. The script `run` builds it.
mod calls;
#[path = "../rust/machine.rs"]
mod machine;
mod operands;
#[path = "../rust/random.rs"]
mod random;

use calls::{Answer, Call, *};
use operands::{Operands, Takes};
use std::hint::black_box;

const SEED: u64 = 0x9e0b_2024_0517_c0de;

struct Operation {
    name: &'static str,
    takes: Takes,
    ours: Call,
    rust: Call,
    compared: u64,
    differ: u64,
    signs: u64,
    first: Vec<String>,
}

fn operations() -> Vec<Operation> {
    macro_rules! table {
        ($($takes:ident $call:ident $name:literal $ours:ident $rust:ident;)*) => {
            vec![$(Operation {
                name: $name,
                takes: Takes::$takes,
                ours: Call::$call($ours),
                rust: Call::$call($rust),
                compared: 0,
                differ: 0,
                signs: 0,
                first: Vec::new(),
            }),*]
        };
    }
    table! {
        Nothing S0 "ZERO" ours_zero rust_zero;
        Nothing S0 "ONE" ours_one rust_one;
        Nothing S0 "TWO" ours_two rust_two;
        Nothing S0 "ENTIRE" ours_entire rust_entire;
        Nothing S0 "four_fifths" ours_four_fifths rust_four_fifths;
        Nothing S0 "four_fifths 2" second_four_fifths swapped_four_fifths;
        Number F1 "next_up" ours_next_up rust_next_up;
        Number F1 "next_down" ours_next_down rust_next_down;
        Number B1 "is_nan" ours_is_nan rust_is_nan;
        Number S1 "from_f64" ours_from_f64 rust_from_f64;
        Root F1 "sqrt" ours_sqrt rust_sqrt;
        Numbers F2 "min" ours_min rust_min;
        Numbers F2 "max" ours_max rust_max;
        Numbers F2 "sum_down" second_sum_down swapped_sum_down;
        Numbers F2 "sum_down, machine" second_sum_down machine_sum_down;
        Numbers F2 "sum_up" second_sum_up swapped_sum_up;
        Numbers F2 "sum_up, machine" second_sum_up machine_sum_up;
        Numbers F2 "product_down" second_product_down swapped_product_down;
        Numbers F2 "product_down, machine" second_product_down machine_product_down;
        Numbers F2 "product_up" second_product_up swapped_product_up;
        Numbers F2 "product_up, machine" second_product_up machine_product_up;
        Numbers F2 "quotient_down" second_quotient_down swapped_quotient_down;
        Numbers F2 "quotient_down, machine" second_quotient_down machine_quotient_down;
        Numbers F2 "quotient_up" second_quotient_up swapped_quotient_up;
        Numbers F2 "quotient_up, machine" second_quotient_up machine_quotient_up;
        Ratio R2 "from_ratio" ours_from_ratio rust_from_ratio;
        Interval F2 "to_f64" ours_to_f64 rust_to_f64;
        Interval S2 "width" ours_width rust_width;
        Interval S2 "lower" ours_lower rust_lower;
        Interval S2 "upper" ours_upper rust_upper;
        Interval S2 "sharpen" ours_sharpen rust_sharpen;
        Intervals S4 "add" ours_add rust_add;
        Intervals S4 "sub" ours_sub rust_sub;
        Intervals S4 "mul" ours_mul rust_mul;
        Intervals S4 "times" ours_times rust_times;
        Intervals R4 "div" ours_div rust_div;
        Intervals S4 "over" ours_over rust_over;
        Intervals S4 "Bounds::over" ours_quotient rust_quotient;
        Intervals S4 "Bounds::difference" ours_difference rust_difference;
        Intervals S4 "add 2" second_add swapped_add;
        Intervals S4 "sub 2" second_sub swapped_sub;
        Intervals S4 "mul 2" second_mul swapped_mul;
        Intervals S4 "times 2" second_times swapped_times;
        Intervals R4 "div 2" second_div swapped_div;
        Intervals S4 "intersect" ours_intersect rust_intersect;
        Intervals S4 "union" ours_union rust_union;
        Intervals S4 "Bounds::join" ours_join rust_join;
        Intervals B4 "could_be_equal" ours_could_be_equal rust_could_be_equal;
        Intervals B4 "definitely_greater" ours_definitely_greater rust_definitely_greater;
        Intervals B4 "definitely_less" ours_definitely_less rust_definitely_less;
        Intervals B4 "is_subset_of" ours_is_subset_of rust_is_subset_of;
        Intervals B4 "is_exactly" ours_is_exactly rust_is_exactly;
        Alpha S6 "interpolate" ours_interpolate rust_interpolate;
        Alpha S6 "interpolate 2" second_interpolate swapped_interpolate;
    }
}

#[derive(Clone, Copy, PartialEq, PartialOrd)]
enum Verdict {
    Same,
    ZeroSign,
    Differ,
}

fn numbers(a: f64, b: f64) -> Verdict {
    if a.to_bits() == b.to_bits() || (a.is_nan() && b.is_nan()) {
        Verdict::Same
    } else if a == 0.0 && b == 0.0 {
        Verdict::ZeroSign
    } else {
        Verdict::Differ
    }
}

fn verdict(a: Answer, b: Answer) -> Verdict {
    match (a, b) {
        (Answer::Number(a), Answer::Number(b)) => numbers(a, b),
        (Answer::Interval(a), Answer::Interval(b)) => {
            let (lo, hi) = (numbers(a[0], b[0]), numbers(a[1], b[1]));
            if lo > hi { lo } else { hi }
        }
        (Answer::Truth(a), Answer::Truth(b)) if a == b => Verdict::Same,
        (Answer::Failed, Answer::Failed) => Verdict::Same,
        _ => Verdict::Differ,
    }
}

fn hex(v: &[f64]) -> String {
    v.iter().map(|x| format!("{:016x}", x.to_bits())).collect::<Vec<_>>().join(" ")
}

fn show(a: Answer) -> String {
    match a {
        Answer::Number(x) => hex(&[x]),
        Answer::Interval(v) => hex(&v),
        Answer::Truth(b) => b.to_string(),
        Answer::Failed => "failed".to_string(),
    }
}

fn compare(list: &mut [Operation], v: &[f64; 6]) {
    for o in list {
        let (ours, rust) = (o.ours.on(v), o.rust.on(v));
        o.compared += 1;
        let note = match verdict(ours, rust) {
            Verdict::Same => continue,
            Verdict::ZeroSign => {
                o.signs += 1;
                if o.signs > 1 {
                    continue;
                }
                " (a zero's sign only)"
            }
            Verdict::Differ => {
                o.differ += 1;
                if o.differ > 3 {
                    continue;
                }
                ""
            }
        };
        let taken = if o.takes == Takes::Ratio { format!("{}/{}", v[0], v[1]) } else { hex(&v[..o.takes.count()]) };
        o.first.push(format!("    [{taken}] ours {}, expected {}{note}", show(ours), show(rust)));
    }
}

/// All tuples of the edges, then `count` random ones, for the operations that take the same.
fn run(list: &mut [Operation], takes: Takes, count: u64) {
    let mut v = [0.0; 6];
    let n = takes.count();
    let edges = takes.edges();
    for i in 0..edges.len().pow(n as u32) {
        let mut rest = i;
        for x in &mut v[..n] {
            *x = edges[rest % edges.len()];
            rest /= edges.len();
        }
        compare(list, &v);
    }
    if takes != Takes::Nothing {
        let mut operands = Operands::new(SEED ^ (takes as u64) << 32);
        for _ in 0..count {
            operands.fill(takes, &mut v);
            compare(list, &v);
        }
    }
}

fn grouped(n: u64) -> String {
    let digits = n.to_string();
    let mut out = String::new();
    for (i, c) in digits.chars().enumerate() {
        if i > 0 && (digits.len() - i) % 3 == 0 {
            out.push(',');
        }
        out.push(c);
    }
    out
}

/// What min and max make of two zeros of different signs.
fn zeros() {
    let sign = |x: f64| if x.is_sign_negative() { "-0" } else { "+0" };
    println!("of two zeros        min(+0,-0) min(-0,+0) max(+0,-0) max(-0,+0)");
    let line = |name, a: f64, b: f64, c: f64, d: f64| println!("  {name:<17} {:>10} {:>10} {:>10} {:>10}", sign(a), sign(b), sign(c), sign(d));
    let (p, m) = (black_box(0.0), black_box(-0.0));
    line("ours", ours_min(p, m), ours_min(m, p), ours_max(p, m), ours_max(m, p));
    line("the Rust's", rust_min(p, m), rust_min(m, p), rust_max(p, m), rust_max(m, p));
    line("  on constants", 0f64.min(-0.0), (-0f64).min(0.0), 0f64.max(-0.0), (-0f64).max(0.0));
}

fn main() {
    let count: u64 = std::env::args().nth(1).and_then(|w| w.parse().ok()).expect("a count");
    let mut list = operations();
    println!("seed {SEED:016x}, {} random operands beside the edges", grouped(count));
    for takes in Takes::ALL {
        let from = list.iter().position(|o| o.takes == takes).unwrap();
        let to = list.iter().rposition(|o| o.takes == takes).unwrap();
        run(&mut list[from..=to], takes, count);
    }
    println!("{:<24} {:>14} {:>14} {:>16}", "operation", "operands", "differences", "zero's sign only");
    for o in &list {
        println!("{:<24} {:>14} {:>14} {:>16}", o.name, grouped(o.compared), grouped(o.differ), grouped(o.signs));
        for line in &o.first {
            println!("{line}");
        }
    }
    zeros();
    let same: Vec<_> = list.iter().filter(|o| o.differ == 0).map(|o| o.name).collect();
    if same.is_empty() {
        println!("every operation differs somewhere");
    } else if same.len() < list.len() {
        println!("no difference in: {}", same.join(" "));
    }
    let compared: u64 = list.iter().map(|o| o.compared).sum();
    let differ: u64 = list.iter().map(|o| o.differ).sum();
    println!("{} compared, {} differ", grouped(compared), grouped(differ));
    std::process::exit((differ > 0) as i32);
}
