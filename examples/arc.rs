//! The question of arc.txt, asked from Rust: prints the same seven lines as bin/gripcheck examples/arc.txt.
//!
//! Usage: arc [REVISION [NODES [cart]]]
//! REVISION is that of the arithmetic, as behind 'rev=' in a text; without it it is 1. NODES is 64 if not given. With the word cart the training cart is
//! asked, which takes 48 nodes at most and has a work area of its own.

mod puhlwazo {
    //! A safe face of the library: slices become pointers and lengths, and the numbers of an answer one enum.

    /// How many numbers the library writes to `counts`, as in the header.
    const COUNTS: usize = 5;

    #[link(name = "puhlwazo", kind = "static")]
    unsafe extern "C" {
        fn puhlwazo_work_words(dim: usize, degree: usize, count: usize, nodes: usize) -> usize;
        fn puhlwazo_curve_could_contain(
            rev: usize,
            dim: usize,
            degree: usize,
            count: usize,
            knots: *const f64,
            knots_length: usize,
            points: *const f64,
            points_length: usize,
            point_box: *const f64,
            point_box_length: usize,
            resolution: f64,
            nodes: usize,
            work: *mut f64,
            work_length: usize,
            counts: *mut [u64; COUNTS],
            bounds: *mut [f64; 2],
        ) -> u64;
        fn puhlwazo_cart_could_contain(
            rev: usize,
            dim: usize,
            degree: usize,
            count: usize,
            knots: *const f64,
            knots_length: usize,
            points: *const f64,
            points_length: usize,
            point_box: *const f64,
            point_box_length: usize,
            resolution: f64,
            nodes: usize,
            counts: *mut [u64; COUNTS],
            bounds: *mut [f64; 2],
        ) -> u64;
    }

    /// Whether the calling thread's floating-point environment is the one that the library needs: rounding to nearest, subnormal numbers kept, exceptions
    /// masked. As `puhlwazo_environment_ok` of the header, which is inline and so not in the library.
    pub fn environment_ok() -> bool {
        let mut csr = 0u32;
        // SAFETY: the instruction writes the register MXCSR to these four bytes.
        unsafe { std::arch::asm!("stmxcsr [{}]", in(reg) &mut csr, options(nostack, preserves_flags)) };
        csr & 0xffc0 == 0x1f80
    }

    /// A path: control points as lo and hi of each coordinate and of the weight.
    pub struct Curve<'a> {
        pub dim: usize,
        pub degree: usize,
        pub count: usize,
        pub knots: &'a [f64],
        pub points: &'a [f64],
    }

    /// What a search counted.
    pub struct Counts {
        pub visited: u64,
        pub cuts: u64,
        pub depth: u64,
    }

    /// The answer of a search: nothing; lo and hi; the pieces left; or the number of the refusal.
    pub enum Found {
        Nothing(Counts),
        Enclosed(f64, f64, Counts),
        Spent(u64, Counts),
        Refused(u64, Counts),
    }

    /// How many numbers of work area a search of this curve needs.
    pub fn work_words(curve: &Curve, nodes: usize) -> usize {
        // SAFETY: the function takes numbers only.
        unsafe { puhlwazo_work_words(curve.dim, curve.degree, curve.count, nodes) }
    }

    /// Whether the curve passes through the box, and between which two parameters, in a revision of the arithmetic: 1 or 2.
    pub fn curve_could_contain(
        rev: usize,
        curve: &Curve,
        point_box: &[f64],
        resolution: f64,
        nodes: usize,
        work: &mut [f64],
    ) -> Found {
        let (mut counts, mut bounds) = ([0; COUNTS], [0.0; 2]);
        // SAFETY: pointers and lengths are those of slices, and what is written overlaps nothing, since it is borrowed mutably.
        let refusal = unsafe {
            puhlwazo_curve_could_contain(
                rev,
                curve.dim,
                curve.degree,
                curve.count,
                curve.knots.as_ptr(),
                curve.knots.len(),
                curve.points.as_ptr(),
                curve.points.len(),
                point_box.as_ptr(),
                point_box.len(),
                resolution,
                nodes,
                work.as_mut_ptr(),
                work.len(),
                &mut counts,
                &mut bounds,
            )
        };
        found(refusal, counts, bounds)
    }

    /// The same on the training cart, which takes degree to 3, count to 8 and nodes to 48, and has a work area of its own, on the stack.
    pub fn cart_could_contain(rev: usize, curve: &Curve, point_box: &[f64], resolution: f64, nodes: usize) -> Found {
        let (mut counts, mut bounds) = ([0; COUNTS], [0.0; 2]);
        // SAFETY: as above.
        let refusal = unsafe {
            puhlwazo_cart_could_contain(
                rev,
                curve.dim,
                curve.degree,
                curve.count,
                curve.knots.as_ptr(),
                curve.knots.len(),
                curve.points.as_ptr(),
                curve.points.len(),
                point_box.as_ptr(),
                point_box.len(),
                resolution,
                nodes,
                &mut counts,
                &mut bounds,
            )
        };
        found(refusal, counts, bounds)
    }

    /// The answer of these numbers.
    fn found(refusal: u64, counts: [u64; COUNTS], bounds: [f64; 2]) -> Found {
        let [kind, visited, pending, cuts, depth] = counts;
        let counts = Counts { visited, cuts, depth };
        match kind {
            0 => Found::Nothing(counts),
            1 => Found::Enclosed(bounds[0], bounds[1], counts),
            2 => Found::Spent(pending, counts),
            _ => Found::Refused(refusal, counts),
        }
    }
}

use puhlwazo::{Curve, Found, cart_could_contain, curve_could_contain, environment_ok, work_words};

fn main() {
    if !environment_ok() {
        eprintln!("arc: the floating-point environment is not the one that the library needs");
        std::process::exit(1);
    }
    let curve = Curve {
        dim: 2,
        degree: 2,
        count: 3,
        knots: &[0.0, 0.0, 0.0, 1.0, 1.0, 1.0],
        points: &[
            0.0, 0.0, 0.0, 0.0, 1.0, 1.0, // (0, 0), weight 1: lo and hi of each
            2.0, 2.0, 4.0, 4.0, 1.0, 1.0, // (2, 4)
            4.0, 4.0, 0.0, 0.0, 1.0, 1.0, // (4, 0)
        ],
    };
    let point_box = [1.9, 2.1, 1.9, 2.1];
    let words: Vec<String> = std::env::args().collect();
    let number = |at: usize, default: usize| words.get(at).map_or(default, |word| word.parse().unwrap_or(0));
    let (rev, nodes) = (number(1, 1), number(2, 64));
    let answer = if words.get(3).is_some_and(|word| word == "cart") {
        cart_could_contain(rev, &curve, &point_box, 0.001, nodes)
    } else {
        let mut work = vec![0.0; work_words(&curve, nodes)];
        curve_could_contain(rev, &curve, &point_box, 0.001, nodes, &mut work)
    };
    let (result, counts, pending, bounds) = match answer {
        Found::Nothing(counts) => ("none".to_string(), counts, 0, None),
        Found::Enclosed(lo, hi, counts) => ("enclosed".to_string(), counts, 0, Some((lo, hi))),
        Found::Spent(pending, counts) => ("spent".to_string(), counts, pending, None),
        Found::Refused(number, counts) => (format!("refused-{number}"), counts, 0, None),
    };
    println!("result={result}\nvisited={}\ncuts={}\ndepth={}\npending={pending}", counts.visited, counts.cuts, counts.depth);
    match bounds {
        Some((lo, hi)) => println!("lo={:016x}\nhi={:016x}", lo.to_bits(), hi.to_bits()),
        None => println!("lo=-\nhi=-"),
    }
}
