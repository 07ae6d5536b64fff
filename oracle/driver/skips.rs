//! What the finder is held against where samples are taken. The Rust takes a sample with a NaN coordinate from the first row or column of the picture; by
//! rule 33 it is skipped. The build `skipping` (make_oracle.py) skips it and tells of it, sample by sample, in every version tried: a call without
//! such a sample is answered by the Rust as it is, any other by that build.
use lcr_core::version::Version;
use lcr_decode::notes::skips;
use lcr_decode::ring::{self, Lens, RingFix, RingTrace};
use lcr_decode::skipping;
use lcr_decode::transform::Transform;
use std::sync::atomic::{AtomicU64, Ordering::Relaxed};

/// Calls of a function, and those with such a sample.
struct Calls(&'static str, AtomicU64, AtomicU64);

static LUMAS: Calls = Calls("ring_lumas", AtomicU64::new(0), AtomicU64::new(0));
static SEARCHES: Calls = Calls("correlate_quad", AtomicU64::new(0), AtomicU64::new(0));
static ATTEMPTS: Calls = Calls("attempt", AtomicU64::new(0), AtomicU64::new(0));
static TRACES: Calls = Calls("trace", AtomicU64::new(0), AtomicU64::new(0));

impl Calls {
    /// The answer of a call by the Rust, or where it has such a sample by `skipping`.
    fn held<T>(&self, rust: impl FnOnce() -> T, skipping: impl FnOnce() -> T) -> T {
        let (n, answer) = skips(skipping);
        self.1.fetch_add(1, Relaxed);
        self.2.fetch_add((n > 0) as u64, Relaxed);
        if n > 0 { answer } else { rust() }
    }
}

/// How many calls there were, and how many had a sample without a value.
pub fn said() -> String {
    let one = |c: &Calls| format!("{} of {} calls of `{}`", c.2.load(Relaxed), c.1.load(Relaxed), c.0);
    let all: Vec<_> = [&LUMAS, &SEARCHES, &ATTEMPTS, &TRACES].into_iter().filter(|c| c.1.load(Relaxed) > 0).map(one).collect();
    if all.is_empty() { String::new() } else { format!("samples without a value: in {}\n", all.join(", ")) }
}

/// How many calls so far had such a sample.
pub fn found() -> u64 {
    [&LUMAS, &SEARCHES, &ATTEMPTS, &TRACES].iter().map(|c| c.2.load(Relaxed)).sum()
}

pub fn ring_lumas(g: &[u8], w: u32, h: u32, t: &Transform, side: u16) -> Vec<f32> {
    LUMAS.held(|| ring::ring_lumas(g, w, h, t, side), || skipping::ring_lumas(g, w, h, t, side))
}

pub fn correlate_quad(g: &[u8], w: u32, h: u32, q: [(f32, f32); 4], lens: Lens, most: Version) -> RingTrace {
    SEARCHES.held(|| ring::correlate_quad(g, w, h, q, lens, 0, most), || skipping::correlate_quad(g, w, h, q, lens, 0, most))
}

pub fn attempt(g: &[u8], w: u32, h: u32, points: &[(f32, f32)], most: Version) -> RingTrace {
    ATTEMPTS.held(|| ring::attempt(g, w, h, points, most), || skipping::attempt(g, w, h, points, most))
}

pub fn trace(g: &[u8], w: u32, h: u32, most: Version) -> RingTrace {
    TRACES.held(|| ring::trace(g, w, h, most), || skipping::trace(g, w, h, most))
}

pub fn detect_ring(g: &[u8], w: u32, h: u32, most: Version) -> Option<RingFix> {
    TRACES.held(|| ring::detect_ring(g, w, h, most), || skipping::detect_ring(g, w, h, most))
}
