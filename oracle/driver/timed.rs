//! What is timed: the doors of both sides on pictures of several kinds, and medians by turns.
pub use crate::bench_pictures::{KINDS, SIDES, picture};
use crate::finder::{self, Grids, Ring};
use crate::pic::Pic;
use lcr_core::version::Version;
use lcr_decode::ring::{self, InkMap};
use std::hint::black_box;

#[repr(C)]
struct Clock {
    seconds: i64,
    nanoseconds: i64,
}

unsafe extern "C" {
    fn clock_gettime(which: i32, t: *mut Clock) -> i32;
}

/// The processor's time of this thread in nanoseconds: other programs on the machine take none of it.
pub fn now() -> f64 {
    let mut t = Clock { seconds: 0, nanoseconds: 0 };
    // CLOCK_THREAD_CPUTIME_ID of Linux
    assert_eq!(unsafe { clock_gettime(3, &mut t) }, 0);
    t.seconds as f64 * 1e9 + t.nanoseconds as f64
}

/// The time of one call, from `reps` of them.
fn timed(reps: usize, f: &mut impl FnMut()) -> f64 {
    let t = now();
    (0..reps).for_each(|_| f());
    (now() - t) / reps as f64
}

/// Medians of the times of both sides, by turns, in nanoseconds a call: at least five rounds, then for half a second.
/// A round has as many calls as take a tenth of a millisecond.
pub fn both(mut rust: impl FnMut(), mut ours: impl FnMut()) -> (f64, f64) {
    let reps = (1e5 / timed(1, &mut rust).max(timed(1, &mut ours))).clamp(1.0, 10000.0) as usize;
    let (mut a, mut b, from) = (Vec::new(), Vec::new(), now());
    while a.len() < 5 || (now() - from < 5e8 && a.len() < 501) {
        a.push(timed(reps, &mut rust));
        b.push(timed(reps, &mut ours));
    }
    (median(a), median(b))
}

pub fn median(mut v: Vec<f64>) -> f64 {
    v.sort_by(f64::total_cmp);
    v[v.len() / 2]
}

/// The time of a loop that sums a picture's bytes.
pub fn read(p: &Pic) -> f64 {
    let sum = || { black_box(black_box(&p.g).iter().map(|&b| b as u64).sum::<u64>()); };
    let (a, b) = both(sum, sum);
    a.min(b)
}

pub type Box4 = (u32, u32, u32, u32);

fn four(b: Box4) -> [usize; 4] {
    [b.0, b.1, b.2, b.3].map(|x| x as usize)
}

/// How long the list of a box's outline must be.
pub fn room(b: Box4) -> usize {
    4 * ((b.2 - b.0) + (b.3 - b.1)) as usize
}

pub fn flat(p: &[(f32, f32)]) -> Vec<f32> {
    p.iter().flat_map(|q| [q.0, q.1]).collect()
}

/// The picture door of both sides.
pub fn picture_door(p: &Pic) -> (f64, f64) {
    let mut lent = Grids::fitting(p.w as usize, p.h as usize);
    let times = both(
        || { black_box(InkMap::new(black_box(&p.g), p.w, p.h).regions()); },
        || assert_eq!(lent.call(black_box(&p.g), p.w as usize, p.h as usize), 0),
    );
    let ink = InkMap::new(&p.g, p.w, p.h);
    assert!(lent.levels == ink.threshold && lent.labels == ink.label, "the grids differ");
    assert_eq!(lent.regions[0] as usize, ink.regions().1, "the regions differ");
    times
}

/// The outline door of both sides on a label and a box.
pub fn outline_door(p: &Pic, ink: &InkMap, want: u32, b: Box4) -> (f64, f64) {
    let label = (want != 0).then_some(want);
    let mut out = vec![0f32; room(b)];
    let points = flat(&ring::boundary_points(ink, label, b));
    let times = both(
        || { black_box(ring::boundary_points(black_box(ink), label, b)); },
        || { black_box(finder::outline(&p.g, p.w as usize, p.h as usize, &ink.threshold, &ink.label, want, four(b), &mut out)).unwrap(); },
    );
    assert_eq!(out[..points.len()], points[..], "the outline differs");
    times
}

/// Hull and quad of both sides.
pub fn hull_and_quad(points: &[(f32, f32)]) -> (f64, f64) {
    let list = flat(points);
    let mut out = vec![0f32; list.len()];
    let mut quad = None;
    let times = both(
        || { black_box(ring::quad(&ring::convex_hull(black_box(points)))); },
        || {
            let n = finder::hull(black_box(&list), &mut out).unwrap();
            quad = black_box(finder::quad(&out[..2 * n]));
        },
    );
    let hull = ring::convex_hull(points);
    assert_eq!(out[..2 * hull.len()], flat(&hull)[..], "the hull differs");
    assert_eq!(quad.map(|q| q.to_vec()), ring::quad(&hull).map(|q| flat(&q)), "the quad differs");
    times
}

/// The ring door of both sides, greatest version 64.
pub fn ring_door(p: &Pic, points: &[(f32, f32)]) -> (f64, f64) {
    let list = flat(points);
    let mut lent = Ring::of([list.len(); 3]);
    let times = both(
        || { black_box(ring::attempt(&p.g, p.w, p.h, black_box(points), Version::MAX)); },
        || assert_eq!(lent.call(&p.g, p.w as usize, p.h as usize, black_box(&list), 64), 0),
    );
    let want = crate::attempts::trace_words(&ring::attempt(&p.g, p.w, p.h, points, Version::MAX));
    assert_eq!(lent.words(), want, "the trace differs");
    times
}

/// From the picture to the trace of its largest region, both sides.
pub fn whole_way(p: &Pic) -> (f64, f64) {
    let (w, h) = (p.w as usize, p.h as usize);
    let mut grids = Grids::fitting(w, h);
    let mut list = vec![0f32; room((0, 0, p.w, p.h))];
    let mut lent = Ring::of([list.len(); 3]);
    let mut want = None;
    let times = both(
        || {
            let ink = InkMap::new(black_box(&p.g), p.w, p.h);
            if let Some(r) = ink.regions().0.first() {
                let points = ring::boundary_points(&ink, Some(r.label), r.bbox);
                want = black_box(Some(ring::attempt(&p.g, p.w, p.h, &points, Version::MAX)));
            }
        },
        || {
            assert_eq!(grids.call(black_box(&p.g), w, h), 0);
            let k = grids.regions;
            if k[1] > 0 {
                let b = [k[4], k[5], k[6], k[7]].map(|x| x as usize);
                let n = finder::outline(&p.g, w, h, &grids.levels, &grids.labels, k[2], b, &mut list).unwrap();
                assert_eq!(lent.call(&p.g, w, h, &list[..2 * n], 64), 0);
            }
        },
    );
    if let Some(t) = want {
        assert_eq!(lent.words(), crate::attempts::trace_words(&t), "the way's trace differs");
    }
    times
}
