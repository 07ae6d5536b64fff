//! What the Rust finds on its way, in order. make_oracle.py puts the lines that note it into a second build of ring.rs,
//! `noted`, and this file beside it; the build that is compared and timed has none of them.
use std::cell::{Cell, RefCell};

pub type Quad = [(f32, f32); 4];

#[derive(Clone, Debug)]
pub enum Note {
    /// `attempt`: vertices of the hull and quad of the points as they are handed in.
    Raw(usize, Option<Quad>),
    /// `estimate_lens`: a pass begins.
    Pass,
    /// An edge's number and length.
    Edge(usize, f32),
    /// How many points the edge's bow is fitted to.
    Points(usize),
    /// The edge's distance from the centre, its fit with the standard error, and its own lens with its error.
    Fit { h0: f32, fit: [f32; 3], se: f32, kappa: f32, error: f32 },
    /// The weighted sum of the edges' lenses, and the weight.
    Weights(f32, f32),
    /// What the pass adds to the lens.
    Step(f32),
    /// The estimate ends without a lens, and why.
    End(&'static str),
    /// After both passes: the lens, and the greatest squared distance of a corner.
    Total(f32, f32),
    /// `attempt`: centre and lens.
    Lens((f32, f32, f32)),
    /// The quad of the straightened points.
    Hull(Option<Quad>),
    /// The refined quad, and whether it is that quad unchanged.
    Refined(Quad, bool),
    /// The edge quad, and whether it is left out: none, or the same as the refined one.
    Edges(Option<Quad>, bool),
    /// A quad was tried; whether it has a fix.
    Tried(bool),
    /// The greatest score of a quad without a fix.
    Top(f32),
    /// `refine_quad`: an edge as a vector, and its length.
    Side((f32, f32), f32),
    /// The two bands of the edge's refits.
    Bands([f32; 2]),
    /// `correlate_quad`: the outer side of the quad.
    Span(f32),
}

thread_local! {
    static NOTES: RefCell<Vec<Note>> = const { RefCell::new(Vec::new()) };
    static SKIPS: Cell<u64> = const { Cell::new(0) };
    static ROUNDS: RefCell<Vec<Vec<f32>>> = const { RefCell::new(Vec::new()) };
}

impl Note {
    pub fn put(self) {
        NOTES.with_borrow_mut(|v| v.push(self));
    }
}

/// The notes of what runs, and its answer.
pub fn of<T>(run: impl FnOnce() -> T) -> (Vec<Note>, T) {
    NOTES.take();
    let answer = run();
    (NOTES.take(), answer)
}

/// `skipping`: a sample has a NaN coordinate.
pub fn skip() {
    SKIPS.set(SKIPS.get() + 1);
}

/// How many such samples there were in what runs, and its answer.
pub fn skips<T>(run: impl FnOnce() -> T) -> (u64, T) {
    SKIPS.set(0);
    let answer = run();
    (SKIPS.get(), answer)
}

/// `counting`: a window's threshold before its first round.
pub fn window(mean: f32) {
    ROUNDS.with_borrow_mut(|v| v.push(vec![mean]));
}

/// `counting`: its threshold after a round that moves it.
pub fn round(threshold: f32) {
    ROUNDS.with_borrow_mut(|v| v.last_mut().unwrap().push(threshold));
}

/// The thresholds of every window in what runs.
pub fn rounds<T>(run: impl FnOnce() -> T) -> Vec<Vec<f32>> {
    ROUNDS.take();
    run();
    ROUNDS.take()
}
