//! The crate geop_core_math, as far as the search reaches.
pub mod geop_error;
pub mod scalars;
pub mod vector;
pub mod solvers {
    pub mod subdivide;
}

/// What the searches of this thread have counted.
pub mod counts {
    use std::cell::{Cell, RefCell};
    use std::collections::VecDeque;
    thread_local! {
        static VISITED: Cell<u64> = const { Cell::new(0) };
        static CUTS: Cell<u64> = const { Cell::new(0) };
        /// The greatest depth of a piece taken for a visit.
        static DEPTH: Cell<u64> = const { Cell::new(0) };
        /// The cuts of restrictions since the last visit began.
        static MADE: Cell<u64> = const { Cell::new(0) };
        /// The depth of the piece that is visited.
        static AT: Cell<u64> = const { Cell::new(0) };
        /// The depths of the pieces that wait, in the order in which they do. A search begins with one piece, of depth 0.
        static WAIT: RefCell<VecDeque<u64>> = RefCell::new(VecDeque::from([0]));
    }

    /// A piece is taken for a visit: the first of those that wait.
    #[inline]
    pub fn visit() {
        VISITED.set(VISITED.get() + 1);
        MADE.set(0);
        AT.set(WAIT.with_borrow_mut(|w| w.pop_front()).expect("no depth waits for this visit"));
        DEPTH.set(DEPTH.get().max(AT.get()));
    }
    /// A restriction has made a cut.
    #[inline]
    pub fn cut() {
        MADE.set(MADE.get() + 1);
    }
    /// The cuts that a restriction has made, which are set back to 0.
    #[inline]
    pub fn made() -> u64 {
        MADE.replace(0)
    }
    /// The piece that was cut down goes into the queue, behind all that wait: it has the depth of the piece that is visited.
    #[inline]
    pub fn queued() {
        CUTS.set(CUTS.get() + made());
        WAIT.with_borrow_mut(|w| w.push_back(AT.get()));
    }
    /// Both halves go into the queue, behind all that wait: they are one deeper than the piece that is visited.
    #[inline]
    pub fn halved() {
        WAIT.with_borrow_mut(|w| w.extend([AT.get() + 1; 2]));
    }
    /// Visited, cuts and depth, which are set back to 0; the next search begins with one piece.
    pub fn taken() -> [u64; 3] {
        made();
        WAIT.set(VecDeque::from([0]));
        [VISITED.replace(0), CUTS.replace(0), DEPTH.replace(0)]
    }
}
