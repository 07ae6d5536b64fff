//! `bench-leaves`: times of numbers, marks, corners and the lens beside the Rust's, in one run. Each figure is the least of many
//! rounds, the sides by turns, in nanoseconds a call, of the processor. A table in Markdown.
use crate::finder::{Ring as Door, hull as hull_of};
use crate::finder_leaves::*;
use crate::looks::{Look, Ring, ring_of};
use crate::marks::{lumas, positions, side};
use crate::pic::Rng;
use crate::timed::{flat, now};
use lcr_core::version::Version;
use lcr_decode::transform::Transform;
use lcr_decode::{math, ring};
use std::hint::black_box;

/// The least time a call of each side, over rounds of `reps` calls.
fn row(name: &str, reps: usize, mut rust: impl FnMut(usize), mut ours: impl FnMut(usize)) {
    let (mut a, mut b, from) = (f64::MAX, f64::MAX, now());
    let mut rounds = 0;
    while rounds < 9 || (rounds < 60 && now() - from < 2e9) {
        let t = now();
        (0..reps).for_each(&mut rust);
        a = a.min(now() - t);
        let t = now();
        (0..reps).for_each(&mut ours);
        b = b.min(now() - t);
        rounds += 1;
    }
    println!("| {name} | {:.1} | {:.1} | {:.2} |", a / reps as f64, b / reps as f64, b / a);
}

fn roots(r: &mut Rng) {
    let xs: Vec<f32> = (0..4096).map(|_| r.unit() as f32 * 1e6).collect();
    let ws: Vec<f64> = (0..4096).map(|_| r.unit() * 4096.0).collect();
    row("f32 root", 4096, |i| { black_box(black_box(xs[i]).sqrt()); }, |i| { black_box(unsafe { lcr_root(black_box(xs[i])) }); });
    row("f64 to f32", 4096, |i| { black_box(black_box(ws[i]) as f32); }, |i| { black_box(unsafe { lcr_narrowed(black_box(ws[i])) }); });
}

/// Medians; a copy of the list is in both sides' times.
fn medians(r: &mut Rng) {
    for n in [1, 5, 9, 25, 64, 100, 400, 1000, 4096] {
        let lists: Vec<Vec<f32>> = (0..64).map(|_| (0..n).map(|_| r.unit() as f32 * 100.0).collect()).collect();
        let reps = (200_000 / (n + 10)).max(64);
        let (mut v, mut w) = (vec![0f32; n], vec![0f32; n]);
        row(&format!("`median` of {n}"), reps,
            |i| { v.copy_from_slice(&lists[i % 64]); black_box(math::median(black_box(&mut v))); },
            |i| { w.copy_from_slice(&lists[i % 64]); let _ = black_box(median(black_box(&mut w))); });
        row(&format!("`mad_sigma` of {n}"), reps,
            |i| { black_box(math::mad_sigma(black_box(&lists[i % 64]))); },
            |i| { let _ = black_box(mad_sigma(black_box(&lists[i % 64]))); });
    }
}

/// Equations; the Rust works in place, so its times hold the copies.
fn equations(r: &mut Rng) {
    for n in 1..=8usize {
        let sys: Vec<(Vec<f64>, Vec<f64>)> = (0..64).map(|_| ((0..n * n).map(|_| r.unit() * 2.0 - 1.0).collect(), (0..n).map(|_| r.unit()).collect())).collect();
        let (mut a, mut b) = (vec![0f64; n * n], vec![0f64; n]);
        row(&format!("`solve` of size {n}"), 4000,
            |i| { a.copy_from_slice(&sys[i % 64].0); b.copy_from_slice(&sys[i % 64].1); black_box(math::solve(black_box(&mut a), black_box(&mut b), n)); },
            |i| { let s = &sys[i % 64]; let _ = black_box(solve(black_box(&s.0), black_box(&s.1), n)); });
    }
    for (n, rows) in [(3usize, 20usize), (4, 100), (8, 100)] {
        let basis: Vec<f64> = (0..rows * n).map(|_| r.unit() * 2.0 - 1.0).collect();
        let targets: Vec<f64> = (0..rows).map(|_| r.unit()).collect();
        let list: Vec<(Vec<f64>, f64)> = basis.chunks(n).map(|c| c.to_vec()).zip(targets.iter().copied()).collect();
        row(&format!("`least_squares`, {rows} by {n}"), 1000,
            |_| { black_box(math::least_squares(black_box(&list), n)); },
            |_| { let _ = black_box(least_squares(black_box(&basis), black_box(&targets), n)); });
    }
}

/// The Rust's `apply` on a list of places, behind a call as ours is.
#[inline(never)]
fn rust_apply(t: &Transform, uv: &[f32], xy: &mut [f32]) {
    for (c, o) in uv.chunks_exact(2).zip(xy.chunks_exact_mut(2)) {
        (o[0], o[1]) = t.apply(c[0], c[1]);
    }
}

#[inline(never)]
fn rust_one(t: &Transform, u: f32, v: f32) -> (f32, f32) {
    t.apply(u, v)
}

fn transforms(r: &mut Rng) {
    let src = [0.0f32, 0.0, 21.0, 0.0, 21.0, 21.0, 0.0, 21.0];
    let quads: Vec<[f32; 8]> = (0..64).map(|_| { let mut k = 0; src.map(|x| { k += 1; x * 9.0 + 40.0 + r.unit() as f32 * 8.0 + k as f32 * 0.01 }) }).collect();
    let pts = |q: &[f32; 8]| [0, 1, 2, 3].map(|i| (q[2 * i], q[2 * i + 1]));
    row("`from_quad`", 2000,
        |i| { black_box(Transform::from_quad(black_box(pts(&src)), black_box(pts(&quads[i % 64])))); },
        |i| { black_box(from_quad(black_box(&src), black_box(&quads[i % 64]))); });
    for (name, kappa) in [("without a lens", 0.0f32), ("with a lens", 1e-7)] {
        let t = Transform::from_quad(pts(&src), pts(&quads[0])).unwrap().with_radial(100.0, 100.0, kappa);
        let flat: [f64; 11] = t.m.iter().chain(&t.radial).copied().collect::<Vec<_>>().try_into().unwrap();
        let uv: Vec<f32> = (0..2000).map(|_| r.unit() as f32 * 21.0).collect();
        let (mut p, mut q) = (vec![0f32; 2000], vec![0f32; 2000]);
        row(&format!("`apply` {name}, a thousand places a call"), 100,
            |_| rust_apply(black_box(&t), black_box(&uv), black_box(&mut p)),
            |_| { black_box(apply_all(black_box(&flat), black_box(&uv), black_box(&mut q))); });
        assert!(p.iter().zip(&q).all(|(x, y)| x.to_bits() == y.to_bits()));
        row(&format!("`apply` {name}, one place a call"), 1000,
            |i| { black_box(rust_one(black_box(&t), uv[2 * i], uv[2 * i + 1])); },
            |i| { black_box(apply(black_box(&flat), uv[2 * i], uv[2 * i + 1])); });
    }
}

/// One ring of each of the 64 versions, of several kinds of lumas.
fn rings_marks(r: &mut Rng) {
    for (kind, name) in [(5, "a ring's lumas"), (0, "greys"), (6, "a slope"), (4, "NaN and infinities among greys")] {
        let all: Vec<Vec<f32>> = (1..=64).map(|v| lumas(kind, v, positions(v), r)).collect();
        let mut marks: Vec<Vec<bool>> = all.iter().map(|l| vec![false; l.len()]).collect();
        row(&format!("`classify`, {name}"), 64,
            |i| drop(black_box(ring::classify(black_box(&all[i])))),
            |i| assert_eq!(classify(i as u32 + 1, &all[i], &mut marks[i]), 0));
        assert!(all.iter().zip(&marks).all(|(l, m)| ring::classify(l) == *m));
        row(&format!("`correlate`, {name}"), 64,
            |i| { black_box(ring::correlate(black_box(&marks[i]), side(i as u32 + 1))); },
            |i| { black_box(correlate(i as u32 + 1, black_box(&marks[i]))).unwrap(); });
    }
}

/// Rings of 100 to 400 pixels with and without tilt, lens and damage.
fn looks(r: &mut Rng) -> Vec<(Ring, [(f32, f32); 4], Vec<f32>)> {
    let one = |i: usize| {
        let side = 100.0 + r.unit() * 300.0;
        let tilt = if i % 3 == 0 { 0.0 } else { r.unit() * 1.6 };
        let kappa = if i % 2 == 0 { 0.0 } else { (r.unit() - 0.5) * 1e-6 };
        let l = Look { side, tilt, skew: 4.0, kappa, noise: r.unit() * 1.5, damage: if i % 4 == 0 { 0.2 } else { 0.0 }, grid: true };
        let g = ring_of(l, (256.0, 256.0), (10.0, -20.0), r);
        let q = ring::quad(&ring::convex_hull(&g.points)).unwrap_or(g.quad);
        let list = g.points.iter().flat_map(|p| [p.0, p.1]).collect();
        (g, q, list)
    };
    (0..300).map(one).collect()
}

fn fits(r: &mut Rng) {
    let all = looks(r);
    let most = all.iter().map(|g| g.2.len()).max().unwrap();
    let (mut x, mut y) = (vec![0f32; most], vec![0f32; most]);
    let numbers = |i: usize| {
        let (g, q, _) = &all[i];
        [q[0].0, q[0].1, q[1].0, q[1].1, q[2].0, q[2].1, q[3].0, q[3].1, g.centre.0, g.centre.1, 0.0]
    };
    let mut ours = |which: usize, i: usize| { black_box(corners(which, &all[i].2, &mut numbers(i), &mut x, &mut y)); };
    row("`refine_quad`", 300, |i| { black_box(ring::refine_quad(&all[i].0.points, all[i].1)); }, |i| ours(0, i));
    row("`edge_quad`", 300, |i| { black_box(ring::edge_quad(&all[i].0.points, all[i].1)); }, |i| ours(1, i));
    let lens = |i: usize| { black_box(ring::estimate_lens(&all[i].0.points, Some(all[i].1), all[i].0.centre)); };
    row("`estimate_lens`", 300, lens, |i| ours(2, i));
}

/// A square of 40 pixels, 160 points: the parts of an attempt on a small region, and all of it.
fn small_region() {
    let along = |k: usize| 128.5 + k as f32;
    let points: Vec<(f32, f32)> = (0..40).flat_map(|k| [(128.0, along(k)), (168.0, along(k)), (along(k), 128.0), (along(k), 168.0)]).collect();
    let (list, hull, centre) = (flat(&points), ring::convex_hull(&points), (128.0, 128.0));
    let q = ring::quad(&hull).unwrap();
    let (mut x, mut y, mut out) = (vec![0f32; 320], vec![0f32; 320], vec![0f32; 320]);
    let numbers = [flat(&q), vec![centre.0, centre.1, 0.0]].concat();
    row("hull, a square of 40 pixels", 50, |_| { black_box(ring::convex_hull(&points)); }, |_| { black_box(hull_of(&list, &mut out)).unwrap(); });
    let mut ours = |which: usize| { black_box(corners(which, &list, &mut numbers.clone(), &mut x, &mut y)); };
    row("`refine_quad`, the same", 50, |_| { black_box(ring::refine_quad(&points, q)); }, |_| ours(0));
    row("`edge_quad`, the same", 50, |_| { black_box(ring::edge_quad(&points, q)); }, |_| ours(1));
    row("`estimate_lens`, the same", 50, |_| { black_box(ring::estimate_lens(&points, Some(q), centre)); }, |_| ours(2));
    let (gray, mut lent) = (vec![255u8; 65536], Door::of([320; 3]));
    row("ring door, the same", 50, |_| { black_box(ring::attempt(&gray, 256, 256, &points, Version::MAX)); }, |_| { black_box(lent.call(&gray, 256, 256, &list, 64)); });
}

pub fn run() {
    println!("\nLeaves: nanoseconds a call, least of many rounds, the sides by turns.\n");
    println!("| what | Rust | ours | ratio |\n|---|---|---|---|");
    let mut r = Rng(7);
    roots(&mut r);
    medians(&mut r);
    equations(&mut r);
    transforms(&mut r);
    rings_marks(&mut r);
    fits(&mut r);
    small_region();
}
