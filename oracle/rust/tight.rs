//! Revision 2's arithmetic in exact whole numbers. A finite double is a whole number times a power of two; so are a sum and a product of two,
//! and of a quotient the first 64 or more binary digits and whether a rest is left. From these the doubles on either side are read off.
//! No operation of f64 rounds here: there are bits, signs and comparisons, and an infinity is a limit.
//! A result that is a NaN has any bits, and a product that is zero any sign. A sum or a quotient that is zero has the definition's sign: a divisor that is
//! out of order, or has a NaN, may have a zero for one bound and yet not hold zero, and the quotient shows that sign.

/// The bounds of an interval, or the doubles on either side of an exact number: the greatest at most it, and the least at least it.
pub type Bounds = [f64; 2];

const NAN: Bounds = [f64::NAN; 2];
const GREATEST: u64 = 0x7fef_ffff_ffff_ffff;
const INFINITE: u64 = 0x7ff0_0000_0000_0000;

fn zero(negative: bool) -> f64 {
    if negative { -0.0 } else { 0.0 }
}

// ---- exact numbers

/// An exact number. Its size is (m + r) * 2^e: r is 0, or any number between 0 and 1 where there is a rest, and m has 54 binary digits or more then.
struct Exact {
    negative: bool,
    m: u128,
    rest: bool,
    e: i32,
}

impl Exact {
    /// The doubles on either side of it.
    fn bounds(&self) -> Bounds {
        if self.m == 0 {
            return [zero(self.negative); 2];
        }
        // The unit in which doubles of this size are whole numbers below 2^53; the bits of such a double go up by 1 with the number.
        let digits = 128 - self.m.leading_zeros() as i32;
        let unit = (self.e + digits - 53).max(-1074);
        let (whole, left) = match unit - self.e {
            up if up > 127 => (0, true),
            up if up > 0 => (self.m >> up, self.m & ((1 << up) - 1) != 0),
            down => (self.m << -down, false),
        };
        let below = ((unit + 1074) as u64) * (1 << 52) + whole as u64;
        let above = below + u64::from(left || self.rest);
        let [below, above] = [below.min(GREATEST), above.min(INFINITE)].map(f64::from_bits);
        if self.negative { [-above, -below] } else { [below, above] }
    }
}

/// The size of a finite double: m and e of m * 2^e.
fn size(x: f64) -> (u128, i32) {
    let field = (x.to_bits() >> 52 & 0x7ff) as i32;
    let fraction = (x.to_bits() & ((1 << 52) - 1)) as u128;
    if field == 0 { (fraction, -1074) } else { (fraction + (1 << 52), field - 1075) }
}

/// The quotient of m * 2^e by n * 2^f, where m and n have up to 64 binary digits and n is not 0: at least 64 of its digits, and whether there are more.
fn divided(negative: bool, (m, e): (u128, i32), (n, f): (u128, i32)) -> Exact {
    if m == 0 {
        return Exact { negative, m: 0, rest: false, e: 0 };
    }
    let far = m.leading_zeros();
    let m = m << far;
    Exact { negative, m: m / n, rest: m % n != 0, e: e - far as i32 - f }
}

// ---- two bounds

/// The doubles on either side of a + b.
pub fn sum(a: f64, b: f64) -> Bounds {
    if a.is_nan() || b.is_nan() || (a.is_infinite() && b == -a) {
        return NAN;
    }
    if a.is_infinite() || b.is_infinite() {
        return [if a.is_infinite() { a } else { b }; 2];
    }
    let ((m, e), (n, f)) = (size(a), size(b));
    let ((a, m, e), (b, n, f)) = if e < f { ((b, n, f), (a, m, e)) } else { ((a, m, e), (b, n, f)) };
    // Both in one unit: that of b, or 2^-74 of a's. What b has below that is the rest; in that unit a has 127 binary digits then, and b fewer than 53.
    let far = (e - f).min(74);
    let past = (e - f - far).min(127);
    let (m, e) = (m << far, e - far);
    let (n, rest) = (n >> past, n & ((1 << past) - 1) != 0);
    let negative = a.is_sign_negative();
    let exact = if negative == b.is_sign_negative() {
        Exact { negative, m: m + n, rest, e }
    } else if m < n {
        Exact { negative: !negative, m: n - m, rest: false, e }
    } else {
        // Less a rest is one unit less, and a rest again.
        Exact { negative, m: m - n - u128::from(rest), rest, e }
    };
    if exact.m == 0 {
        // Below it is the zero that rounding to the nearest gives, and above its mirror image.
        let signs = [a, b].map(f64::is_sign_negative);
        return [zero(signs == [true; 2]), zero(signs != [false; 2])];
    }
    exact.bounds()
}

/// The doubles on either side of a b. Zero times an infinity is zero.
pub fn product(a: f64, b: f64) -> Bounds {
    let negative = a.is_sign_negative() != b.is_sign_negative();
    if a.is_nan() || b.is_nan() {
        return NAN;
    }
    if a == 0.0 || b == 0.0 {
        return [0.0; 2];
    }
    if a.is_infinite() || b.is_infinite() {
        return [if negative { f64::NEG_INFINITY } else { f64::INFINITY }; 2];
    }
    let ((m, e), (n, f)) = (size(a), size(b));
    Exact { negative, m: m * n, rest: false, e: e + f }.bounds()
}

/// The doubles on either side of a / b. By a zero it is an infinity, with the signs of both.
pub fn quotient(a: f64, b: f64) -> Bounds {
    let negative = a.is_sign_negative() != b.is_sign_negative();
    if a.is_nan() || b.is_nan() || (a.is_infinite() && b.is_infinite()) || (a == 0.0 && b == 0.0) {
        return NAN;
    }
    if a.is_infinite() || b == 0.0 {
        return [if negative { f64::NEG_INFINITY } else { f64::INFINITY }; 2];
    }
    if b.is_infinite() {
        return [zero(negative); 2];
    }
    divided(negative, size(a), size(b)).bounds()
}

// ---- two intervals

/// An interval with a number in it: its bounds are in order, and not both the same infinity.
fn proper([lo, hi]: Bounds) -> bool {
    lo <= hi && lo < f64::INFINITY && hi > f64::NEG_INFINITY
}

/// From the least to the greatest of what an operation gives for a bound of x and one of y. (An infinity over an infinity says nothing that the other three don't.)
fn corners(op: fn(f64, f64) -> Bounds, x: Bounds, y: Bounds) -> Bounds {
    let all = [op(x[0], y[0]), op(x[0], y[1]), op(x[1], y[0]), op(x[1], y[1])];
    all.into_iter().fold([f64::INFINITY, f64::NEG_INFINITY], |[lo, hi], [a, b]| [if a < lo { a } else { lo }, if b > hi { b } else { hi }])
}

fn mirrored([lo, hi]: Bounds) -> Bounds {
    [-hi, -lo]
}

pub fn add(x: Bounds, y: Bounds) -> Bounds {
    [sum(x[0], y[0])[0], sum(x[1], y[1])[1]]
}

pub fn sub(x: Bounds, y: Bounds) -> Bounds {
    add(x, mirrored(y))
}

pub fn mul(x: Bounds, y: Bounds) -> Bounds {
    if proper(x) && proper(y) {
        return corners(product, x, y);
    }
    [least_product(x, y), -least_product(mirrored(x), y)]
}

/// Nothing where y holds zero.
pub fn div(x: Bounds, y: Bounds) -> Option<Bounds> {
    if y[0] <= 0.0 && y[1] >= 0.0 {
        return None;
    }
    if proper(x) && proper(y) {
        return Some(corners(quotient, x, y));
    }
    let (x, y) = if y[0] >= 0.0 { (x, y) } else { (mirrored(x), mirrored(y)) };
    Some([least_quotient(x[0], y), -least_quotient(-x[1], y)])
}

/// num / den, where den is not 0.
pub fn ratio(num: i64, den: i64) -> Bounds {
    let size = |n: i64| (n.unsigned_abs() as u128, 0);
    divided((num < 0) != (den < 0), size(num), size(den)).bounds()
}

// ---- intervals with a NaN, out of order, or at one infinity: the definition goes by the signs of the bounds, and so does this

fn least_product([a, b]: Bounds, [c, d]: Bounds) -> f64 {
    let down = |x, y| product(x, y)[0];
    if c >= 0.0 {
        down(a, if a >= 0.0 { c } else { d })
    } else if d <= 0.0 {
        down(b, if b >= 0.0 { c } else { d })
    } else if a >= 0.0 {
        down(b, c)
    } else if b <= 0.0 {
        down(a, d)
    } else {
        down(a, d).min(down(b, c))
    }
}

fn least_quotient(a: f64, [c, d]: Bounds) -> f64 {
    quotient(a, if a >= 0.0 { d } else { c })[0]
}
