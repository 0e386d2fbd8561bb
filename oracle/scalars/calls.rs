//! The two sides, function by function: `ours_*` from the library that is built of exports.txt, and `rust_*` over the
//! Rust; and of revision 2 `second_*`, and `swapped_*` over the Rust with five functions swapped, or over the functions
//! that they are swapped for, and `machine_*` over the machine's directed rounding.
//! All are `extern "C"`, and all are called through a pointer, so that none is inlined.

use crate::machine;
use geop_core_math::scalars::{self, Scalar};
use second_math::{scalars::Scalar as Swapped, tight};

/// Where a function puts an interval's bounds.
pub type Out = [f64; 2];

/// A function by what it takes and gives: numbers F, B for a bool, S for an interval, R for one that may fail; the
/// digit says how many numbers go in.
#[derive(Clone, Copy)]
pub enum Call {
    S0(extern "C" fn(&mut Out)),
    F1(extern "C" fn(f64) -> f64),
    B1(extern "C" fn(f64) -> bool),
    S1(extern "C" fn(f64, &mut Out)),
    F2(extern "C" fn(f64, f64) -> f64),
    S2(extern "C" fn(f64, f64, &mut Out)),
    R2(extern "C" fn(u32, u32, &mut Out) -> bool),
    B4(extern "C" fn(f64, f64, f64, f64) -> bool),
    S4(extern "C" fn(f64, f64, f64, f64, &mut Out)),
    R4(extern "C" fn(f64, f64, f64, f64, &mut Out) -> bool),
    S6(extern "C" fn(f64, f64, f64, f64, f64, f64, &mut Out)),
}

/// What a call gives.
#[derive(Clone, Copy)]
pub enum Answer {
    Number(f64),
    Truth(bool),
    Interval(Out),
    Failed,
}

impl Call {
    /// Calls it on the first numbers of `v`. (A ratio's two are whole numbers below 2^32.)
    #[inline]
    pub fn on(self, v: &[f64; 6]) -> Answer {
        // Not zero, so that a function that writes nothing shows.
        let mut out = [12345.0; 2];
        let succeeded = match self {
            Call::F1(f) => return Answer::Number(f(v[0])),
            Call::F2(f) => return Answer::Number(f(v[0], v[1])),
            Call::B1(f) => return Answer::Truth(f(v[0])),
            Call::B4(f) => return Answer::Truth(f(v[0], v[1], v[2], v[3])),
            Call::R2(f) => f(v[0] as u32, v[1] as u32, &mut out),
            Call::R4(f) => f(v[0], v[1], v[2], v[3], &mut out),
            Call::S0(f) => (f(&mut out), true).1,
            Call::S1(f) => (f(v[0], &mut out), true).1,
            Call::S2(f) => (f(v[0], v[1], &mut out), true).1,
            Call::S4(f) => (f(v[0], v[1], v[2], v[3], &mut out), true).1,
            Call::S6(f) => (f(v[0], v[1], v[2], v[3], v[4], v[5], &mut out), true).1,
        };
        if succeeded { Answer::Interval(out) } else { Answer::Failed }
    }
}

fn s(lo: f64, hi: f64) -> Scalar {
    Scalar { lo, hi }
}

fn put(r: Scalar, out: &mut Out) {
    *out = [r.lo, r.hi];
}

fn w(lo: f64, hi: f64) -> Swapped {
    Swapped { lo, hi }
}

fn put_swapped(r: Swapped, out: &mut Out) {
    *out = [r.lo, r.hi];
}

/// Declares the function of either side for each line: `ours_*` from the library, `rust_*` with the line's body.
macro_rules! calls {
    ($($ours:ident $rust:ident ($($x:ident: $t:ty),*) $(-> $r:ty)? $body:block)*) => {
        unsafe extern "C" {
            $(pub safe fn $ours($($x: $t),*) $(-> $r)?;)*
        }
        $(#[inline(never)] pub extern "C" fn $rust($($x: $t),*) $(-> $r)? $body)*
    };
}

/// The same for methods of two intervals.
macro_rules! methods {
    ($put:ident $s:ident $($ours:ident $rust:ident $method:ident)*) => {
        calls! { $($ours $rust(al: f64, ah: f64, bl: f64, bh: f64, out: &mut Out) { $put($s(al, ah).$method($s(bl, bh)), out) })* }
    };
}
/// The same for two numbers, by the function of tight.rs; and the machine's besides.
macro_rules! directed {
    ($($second:ident $swapped:ident $machine:ident $op:ident $side:literal)*) => {
        calls! { $($second $swapped(a: f64, b: f64) -> f64 { tight::$op(a, b)[$side] })* }
        $(#[inline(never)] pub extern "C" fn $machine(a: f64, b: f64) -> f64 { machine::$op(a, b)[$side] })*
    };
}
macro_rules! tests {
    ($($ours:ident $rust:ident $method:ident)*) => {
        calls! { $($ours $rust(al: f64, ah: f64, bl: f64, bh: f64) -> bool { s(al, ah).$method(s(bl, bh)) })* }
    };
}

calls! {
    ours_zero rust_zero(out: &mut Out) { put(Scalar::ZERO, out) }
    ours_one rust_one(out: &mut Out) { put(Scalar::ONE, out) }
    ours_two rust_two(out: &mut Out) { put(Scalar::TWO, out) }
    ours_entire rust_entire(out: &mut Out) { put(Scalar::ENTIRE, out) }
    ours_four_fifths rust_four_fifths(out: &mut Out) { put(Scalar::from_ratio(4, 5).unwrap_or(Scalar::ENTIRE), out) }
    second_four_fifths swapped_four_fifths(out: &mut Out) { put_swapped(Swapped::from_ratio(4, 5).unwrap_or(Swapped::ENTIRE), out) }
    ours_next_up rust_next_up(x: f64) -> f64 { scalars::next_up(x) }
    ours_next_down rust_next_down(x: f64) -> f64 { scalars::next_down(x) }
    ours_is_nan rust_is_nan(x: f64) -> bool { x.is_nan() }
    ours_from_f64 rust_from_f64(x: f64, out: &mut Out) { put(Scalar::from_f64(x), out) }
    ours_sqrt rust_sqrt(x: f64) -> f64 { x.sqrt() }
    ours_min rust_min(x: f64, y: f64) -> f64 { x.min(y) }
    ours_max rust_max(x: f64, y: f64) -> f64 { x.max(y) }
    ours_from_ratio rust_from_ratio(num: u32, den: u32, out: &mut Out) -> bool {
        Scalar::from_ratio(num as i64, den as i64).map(|r| put(r, out)).is_ok()
    }
    ours_to_f64 rust_to_f64(al: f64, ah: f64) -> f64 { s(al, ah).to_f64() }
    ours_width rust_width(al: f64, ah: f64, out: &mut Out) { put(s(al, ah).width(), out) }
    ours_lower rust_lower(al: f64, ah: f64, out: &mut Out) { put(s(al, ah).lower(), out) }
    ours_upper rust_upper(al: f64, ah: f64, out: &mut Out) { put(s(al, ah).upper(), out) }
    ours_sharpen rust_sharpen(al: f64, ah: f64, out: &mut Out) { put(s(al, ah).sharpen(), out) }
    ours_div rust_div(al: f64, ah: f64, bl: f64, bh: f64, out: &mut Out) -> bool {
        s(al, ah).div(s(bl, bh)).map(|r| put(r, out)).is_ok()
    }
    ours_over rust_over(al: f64, ah: f64, bl: f64, bh: f64, out: &mut Out) { put(s(al, ah).div(s(bl, bh)).unwrap_or(Scalar::ENTIRE), out) }
    ours_quotient rust_quotient(al: f64, ah: f64, bl: f64, bh: f64, out: &mut Out) { put(s(al, ah).div(s(bl, bh)).unwrap_or(Scalar::ENTIRE), out) }
    ours_interpolate rust_interpolate(al: f64, ah: f64, bl: f64, bh: f64, cl: f64, ch: f64, out: &mut Out) {
        put(Scalar::interpolate(s(al, ah), s(bl, bh), s(cl, ch)), out)
    }
    second_div swapped_div(al: f64, ah: f64, bl: f64, bh: f64, out: &mut Out) -> bool {
        w(al, ah).div(w(bl, bh)).map(|r| put_swapped(r, out)).is_ok()
    }
    second_interpolate swapped_interpolate(al: f64, ah: f64, bl: f64, bh: f64, cl: f64, ch: f64, out: &mut Out) {
        put_swapped(Swapped::interpolate(w(al, ah), w(bl, bh), w(cl, ch)), out)
    }
}

methods! {
    put s
    ours_add rust_add add
    ours_sub rust_sub sub
    ours_mul rust_mul mul
    ours_times rust_times mul
    ours_intersect rust_intersect intersect
    ours_difference rust_difference sub
    ours_union rust_union union
    ours_join rust_join union
}

methods! {
    put_swapped w
    second_add swapped_add add
    second_sub swapped_sub sub
    second_mul swapped_mul mul
    second_times swapped_times mul
}

directed! {
    second_sum_down swapped_sum_down machine_sum_down sum 0
    second_sum_up swapped_sum_up machine_sum_up sum 1
    second_product_down swapped_product_down machine_product_down product 0
    second_product_up swapped_product_up machine_product_up product 1
    second_quotient_down swapped_quotient_down machine_quotient_down quotient 0
    second_quotient_up swapped_quotient_up machine_quotient_up quotient 1
}

tests! {
    ours_could_be_equal rust_could_be_equal could_be_equal
    ours_definitely_greater rust_definitely_greater definitely_greater
    ours_definitely_less rust_definitely_less definitely_less
    ours_is_subset_of rust_is_subset_of is_subset_of
    ours_is_exactly rust_is_exactly is_exactly
}
