//! The machine's own directed rounding: the same instruction with the rounding of the register MXCSR set downward, then upward, then back to the nearest.
//! All of it is one block of assembly, so that the compiler works out nothing beforehand and moves no other operation in between.
use std::arch::asm;

const DOWN: u32 = 0x3f80;
const UP: u32 = 0x5f80;
const NEAREST: u32 = 0x1f80;

macro_rules! machine {
    ($($(#[$says:meta])* $name:ident $word:literal)*) => {
        $($(#[$says])*
        #[inline]
        pub fn $name(a: f64, b: f64) -> [f64; 2] {
            let (mut lo, mut hi) = (a, a);
            unsafe {
                asm!(
                    "ldmxcsr [{down}]",
                    concat!($word, " {lo}, {b}"),
                    "ldmxcsr [{up}]",
                    concat!($word, " {hi}, {b}"),
                    "ldmxcsr [{nearest}]",
                    down = in(reg) &DOWN, up = in(reg) &UP, nearest = in(reg) &NEAREST,
                    lo = inout(xmm_reg) lo, hi = inout(xmm_reg) hi, b = in(xmm_reg) b,
                    options(nostack, readonly),
                )
            }
            [lo, hi]
        })*
    };
}
machine! {
    /// a + b, rounded down and up.
    sum "addsd"
    /// a b, rounded down and up; zero times an infinity is a NaN.
    plain_product "mulsd"
    /// a / b, rounded down and up.
    quotient "divsd"
}

/// a b, rounded down and up; zero times an infinity is zero.
#[inline]
pub fn product(a: f64, b: f64) -> [f64; 2] {
    let p = plain_product(a, b);
    if p[0].is_nan() && !a.is_nan() && !b.is_nan() { [0.0; 2] } else { p }
}
