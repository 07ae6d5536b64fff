//! Boundary points as a ring's edges give them: of any tilt, skew, lens, noise and damage; and wild ones.
use crate::pic::Rng;
use lcr_decode::ring;

pub type P = (f32, f32);
pub type Q = [P; 4];

/// Boundary points as a ring's edges give them, their quad and the lens's centre.
pub struct Ring {
    pub points: Vec<P>,
    pub quad: Q,
    pub centre: P,
}

/// What a ring looks like: side and tilt, how far corners are off a square, the lens, noise in pixels, and
/// the share of a corner that is damaged.
#[derive(Clone, Copy)]
pub struct Look {
    pub side: f64,
    pub tilt: f64,
    pub skew: f64,
    pub kappa: f64,
    pub noise: f64,
    pub damage: f64,
    pub grid: bool,
}

pub fn ring_of(l: Look, centre: (f64, f64), off: (f64, f64), r: &mut Rng) -> Ring {
    let (c, s) = (l.tilt.cos(), l.tilt.sin());
    let h = l.side / 2.0;
    let mut q = [(-h, -h), (h, -h), (h, h), (-h, h)];
    for p in q.iter_mut() {
        let (x, y) = (p.0 + (r.unit() - 0.5) * l.skew, p.1 + (r.unit() - 0.5) * l.skew);
        *p = (off.0 + x * c - y * s, off.1 + x * s + y * c);
    }
    let bent = |x: f64, y: f64| {
        let d = x * x + y * y;
        let f = 1.0 - l.kappa * d + 3.0 * l.kappa * l.kappa * d * d;
        (centre.0 + x * f, centre.1 + y * f)
    };
    let at = |v: f64| if l.grid { (v * 2.0).round() / 2.0 } else { v };
    let mut points = Vec::new();
    for e in 0..4 {
        let (a, b) = (q[e], q[(e + 1) % 4]);
        let n = (b.0 - a.0).abs().max((b.1 - a.1).abs()).ceil().max(1.0) as usize;
        let (hit, depth) = (r.below(4) == 0, r.unit() * 20.0);
        for k in 0..n {
            let t = (k as f64 + 0.5) / n as f64;
            let (mut x, mut y) = bent(a.0 + (b.0 - a.0) * t, a.1 + (b.1 - a.1) * t);
            if hit && t < l.damage {
                (x, y) = (x + depth * (0.5 - t), y + depth * (t - 0.3));
            }
            x += (r.unit() - 0.5) * l.noise;
            y += (r.unit() - 0.5) * l.noise;
            points.push((at(x) as f32, at(y) as f32));
        }
    }
    let quad = q.map(|(x, y)| {
        let (x, y) = bent(x, y);
        (x as f32, y as f32)
    });
    Ring { points, quad, centre: (centre.0 as f32, centre.1 as f32) }
}

pub fn look(r: &mut Rng, most: f64) -> Look {
    Look {
        side: 8.0 + r.unit() * most,
        tilt: if r.chance(0.3) { 0.0 } else { r.unit() * 1.6 },
        skew: if r.chance(0.5) { 0.0 } else { r.unit() * 12.0 },
        kappa: if r.chance(0.4) { 0.0 } else { (r.unit() - 0.5) * 4e-6 },
        noise: if r.chance(0.3) { 0.0 } else { r.unit() * 3.0 },
        damage: if r.chance(0.6) { 0.0 } else { r.unit() * 0.5 },
        grid: r.chance(0.6),
    }
}

/// A ring at random, with a quad that is its own, its hull's, or somewhat off.
pub fn drawn(r: &mut Rng, most: f64) -> Ring {
    let l = look(r, most);
    let centre = (r.range(0, 400) as f64 / 2.0, r.range(0, 400) as f64 / 2.0);
    let off = if r.chance(0.5) { (0.0, 0.0) } else { ((r.unit() - 0.5) * 200.0, (r.unit() - 0.5) * 200.0) };
    let mut g = ring_of(l, centre, off, r);
    if r.chance(0.5) {
        g.quad = ring::quad(&ring::convex_hull(&g.points)).unwrap_or(g.quad);
    }
    if r.chance(0.3) {
        let far = r.unit() as f32 * 30.0;
        for p in g.quad.iter_mut() {
            *p = (p.0 + (r.unit() as f32 - 0.5) * far, p.1 + (r.unit() as f32 - 0.5) * far);
        }
    }
    if r.chance(0.03) {
        g.quad[r.below(4) as usize].0 = wild(r);
    }
    if r.chance(0.03) {
        g.quad[1] = g.quad[0];
    }
    if r.chance(0.1) {
        let keep = r.below(40) as usize;
        g.points.truncate(keep);
    }
    if r.chance(0.05) && !g.points.is_empty() {
        let i = r.below(g.points.len() as u64) as usize;
        g.points[i] = (wild(r), wild(r));
    }
    g
}

pub fn wild(r: &mut Rng) -> f32 {
    match r.below(10) {
        0 => f32::NAN,
        1 => f32::INFINITY,
        2 => f32::NEG_INFINITY,
        3 => -0.0,
        4 => 0.0,
        5 => f32::from_bits(r.next() as u32),
        6 => 1e30 * (r.unit() as f32 - 0.5),
        7 => 1e-40 * (r.unit() as f32 - 0.5),
        _ => (r.unit() as f32 - 0.5) * 300.0,
    }
}

/// Points that the ring door takes. Past its limits a straightened point can be a NaN that this machine makes
/// with its sign set, which the Rust's hull puts first and the rules last.
pub fn tame(points: &mut [P]) {
    let one = |v: &mut f32| *v = if v.is_nan() { 7.0 } else { v.clamp(-32768.0, 32768.0) };
    for p in points {
        one(&mut p.0);
        one(&mut p.1);
    }
}

pub fn list(r: &mut Rng, n: u64) -> Vec<P> {
    let wilds = r.chance(0.3);
    let small = r.chance(0.3);
    (0..n)
        .map(|_| {
            if wilds {
                (wild(r), wild(r))
            } else if small {
                (r.range(0, 20) as f32 / 2.0, r.range(0, 20) as f32 / 2.0)
            } else {
                (r.unit() as f32 * 200.0, r.unit() as f32 * 200.0)
            }
        })
        .collect()
}

/// Points along the four edges of a square that hangs from the middle of its upper edge, `from` pixels from its
/// corners on, each on its edge or a step within.
pub fn rough_edges(r: &mut Rng, side: f64, from: usize, step: f64, raw: &mut Vec<(f64, f64)>) {
    let (h, n) = (side / 2.0, side as usize);
    for i in from..n - from {
        let t = i as f64 + 0.5;
        let mut rough = || step * r.below(2) as f64;
        raw.push((t - h, rough()));
        raw.push((t - h, side - rough()));
        raw.push((-h + rough(), t));
        raw.push((h - rough(), t));
    }
}

/// Points about a centre, bent by a lens.
pub fn bent(raw: &[(f64, f64)], (cx, cy): (f64, f64), k: f64) -> Vec<P> {
    let one = |p: &(f64, f64)| {
        let f = 1.0 - k * (p.0 * p.0 + p.1 * p.1);
        ((cx + p.0 * f) as f32, (cy + p.1 * f) as f32)
    };
    raw.iter().map(one).collect()
}
