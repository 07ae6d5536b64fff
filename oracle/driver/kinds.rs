//! Pictures of sixteen kinds at random.
use crate::pic::{Pic, Rng};
use crate::rings::{draw_ring, photo_ring};

pub const KINDS: u64 = 16;

/// A generated picture of `w` by `h`.
pub fn generate(kind: u64, w: u32, h: u32, r: &mut Rng) -> Pic {
    let (wi, hi) = (w as i64, h as i64);
    let light = if r.chance(0.7) { 255 } else { r.range(80, 255) as u8 };
    let dark = if r.chance(0.7) { 0 } else { r.range(0, light as i64) as u8 };
    let mut p = Pic::new(w, h, light);
    match kind % KINDS {
        // noise at several densities
        0 => {
            let d = [0.02, 0.05, 0.1, 0.2, 0.35, 0.5, 0.7, 0.9, 0.98][r.below(9) as usize];
            for q in p.g.iter_mut() {
                if r.chance(d) {
                    *q = dark;
                }
            }
        }
        // full random greys
        1 => {
            for q in p.g.iter_mut() {
                *q = r.next() as u8;
            }
        }
        // random blobs
        2 | 3 => {
            for _ in 0..r.range(1, 8) {
                let v = if r.chance(0.8) { dark } else { light };
                match r.below(4) {
                    0 => {
                        let (x, y) = (r.range(-8, wi), r.range(-8, hi));
                        p.rect(x, y, x + r.range(1, wi), y + r.range(1, hi), v)
                    }
                    1 => {
                        let (x, y) = (r.range(0, wi) as f64, r.range(0, hi) as f64);
                        p.disc(x, y, r.range(2, wi / 2) as f64, r.range(2, hi / 2) as f64, v)
                    }
                    2 => {
                        let n = r.range(3, 7);
                        let q: Vec<_> = (0..n).map(|_| (r.unit() * w as f64, r.unit() * h as f64)).collect();
                        p.poly(&q, v)
                    }
                    _ => {
                        let a = (r.unit() * w as f64, r.unit() * h as f64);
                        let b = (r.unit() * w as f64, r.unit() * h as f64);
                        p.line(a, b, r.range(1, 9), v)
                    }
                }
            }
            if kind % KINDS == 3 {
                let amp = r.range(1, 60);
                p.noise(r, amp);
            }
        }
        // a drawn ring
        4 => {
            let v = r.range(1, 6) as u8;
            let fit = (w.min(h) / (17 + 4 * v as u32 + 10)).min(16);
            if fit >= 1 {
                p = draw_ring(v, r.range(1, fit as i64) as u32, r.below(4) as u32, r.chance(0.5), w, h);
            } else {
                p.rect(4, 4, wi - 4, hi - 4, dark);
                p.rect(8, 8, wi - 8, hi - 8, light);
            }
        }
        // dots so that cells are ink without runs, runs of 3, 4, 5 in rows or columns
        5 => {
            for cy in 0..h / 8 {
                for cx in 0..w / 8 {
                    if r.chance(0.9) {
                        let (x, y) = (cx as i64 * 8 + r.range(0, 6), cy as i64 * 8 + r.range(0, 6));
                        p.rect(x, y, x + 2, y + 2, dark);
                    }
                }
            }
            for _ in 0..r.range(0, 12) {
                let (x, y, l) = (r.range(0, wi - 1), r.range(0, hi - 1), r.range(3, 5));
                if r.chance(0.5) {
                    p.rect(x, y, x + l, y + 1, dark)
                } else {
                    p.rect(x, y, x + 1, y + l, dark)
                }
            }
        }
        // staircases and collinear corners
        6 => {
            let (sx, sy, n) = (r.range(1, 6), r.range(1, 6), r.range(2, 40));
            let (x0, y0) = (r.range(0, wi / 2), r.range(0, hi / 2));
            for i in 0..n {
                let t = r.range(4, 9);
                p.rect(x0 + i * sx, y0 + i * sy, x0 + i * sx + t, y0 + i * sy + t, dark);
                if r.chance(0.5) {
                    p.rect(wi - x0 - i * sx, y0 + i * sy, wi - x0 - i * sx + t, y0 + i * sy + t, dark);
                }
            }
        }
        // diamond / octagon / regular shapes with equal diagonals
        7 => {
            let (cx, cy) = (wi / 2, hi / 2);
            let (a, c) = (r.range(4, wi.min(hi) / 2), r.range(0, wi.min(hi)));
            for y in 0..hi {
                for x in 0..wi {
                    let (dx, dy) = ((2 * x + 1 - 2 * cx).abs(), (2 * y + 1 - 2 * cy).abs());
                    if dx + dy <= c * 2 && dx.max(dy) <= 2 * a {
                        p.set(x, y, dark);
                    }
                }
            }
        }
        // speckle on shapes
        8 => {
            let (x, y) = (r.range(0, wi / 2), r.range(0, hi / 2));
            p.rect(x, y, x + r.range(8, wi), y + r.range(8, hi), dark);
            for _ in 0..r.range(1, 200) {
                let v = if r.chance(0.5) { dark } else { light };
                let l = r.range(1, 5);
                let (x, y) = (r.range(0, wi - 1), r.range(0, hi - 1));
                if r.chance(0.5) { p.rect(x, y, x + l, y + 1, v) } else { p.rect(x, y, x + 1, y + l, v) }
            }
        }
        // shapes touching the picture's edge
        9 => {
            for _ in 0..r.range(1, 4) {
                let t = r.range(1, 20);
                match r.below(4) {
                    0 => p.rect(0, r.range(0, hi / 2), t, hi, dark),
                    1 => p.rect(wi - t, 0, wi, r.range(1, hi), dark),
                    2 => p.rect(r.range(0, wi / 2), 0, wi, t, dark),
                    _ => p.rect(0, hi - t, r.range(1, wi), hi, dark),
                }
            }
        }
        // thresholds at the fill's limit: flat greys, contrast in few level cells
        10 => {
            let flat = r.range(0, 255) as u8;
            p = Pic::new(w, h, flat);
            for _ in 0..r.range(1, 3) {
                let (cx, cy) = (r.below((w as u64).div_ceil(16)) as i64 * 16, r.below((h as u64).div_ceil(16)) as i64 * 16);
                p.rect(cx, cy, cx + 16, cy + 16, r.range(160, 255) as u8);
                let k = r.range(10, 15);
                for i in 0..k {
                    p.set(cx + i % 16, cy + i / 16, r.range(0, 90) as u8);
                }
            }
            let (x, y) = (r.range(0, wi), r.range(0, hi));
            p.rect(x, y, x + r.range(1, wi), y + r.range(1, hi), r.range(0, 255) as u8);
        }
        // every level cell with its own two greys
        11 => {
            for cy in (0..hi).step_by(16) {
                for cx in (0..wi).step_by(16) {
                    let a = r.next() as u8;
                    let b = if r.chance(0.3) { r.next() as u8 } else { a };
                    let k = r.range(0, 256);
                    for y in cy..(cy + 16).min(hi) {
                        for x in cx..(cx + 16).min(wi) {
                            let v = if r.below(256) < k as u64 { a } else { b };
                            p.set(x, y, v);
                        }
                    }
                }
            }
        }
        // several regions on a lattice, sizes varied
        12 => {
            let step = r.range(60, 130);
            let mut y = r.range(0, 20);
            while y < hi {
                let mut x = r.range(0, 20);
                while x < wi {
                    let (a, b) = (r.range(20, step - 34), r.range(20, step - 34));
                    if r.chance(0.3) {
                        p.disc((x + a / 2) as f64, (y + b / 2) as f64, a as f64 / 2.0, b as f64 / 2.0, dark)
                    } else {
                        p.rect(x, y, x + a, y + b, dark)
                    }
                    x += step;
                }
                y += step;
            }
        }
        // photographed ring with perspective, blur, noise
        13 => {
            let v = r.range(1, 3) as u8;
            let m = w.min(h) as f64;
            let c = r.unit() * 6.3;
            let (ox, oy) = (w as f64 / 2.0, h as f64 / 2.0);
            let mut q = [(0f32, 0f32); 4];
            for (i, s) in q.iter_mut().enumerate() {
                let a = c + i as f64 * core::f64::consts::FRAC_PI_2 + (r.unit() - 0.5) * 0.2;
                let rad = m * (0.35 + 0.12 * r.unit());
                *s = ((ox + rad * a.cos()) as f32, (oy + rad * a.sin()) as f32);
            }
            let rev = r.chance(0.5);
            p = photo_ring(r, v, w, h, q, 0.0, rev, 20, if r.0 & 1 == 0 { 190 } else { 255 }, 2);
            if r.chance(0.4) {
                p.blur(1);
            }
            if r.chance(0.4) {
                p.noise(r, 20);
            }
        }
        // thin lines of 3, 4, 5 px, grid-like
        14 => {
            let t = r.range(3, 5);
            for _ in 0..r.range(1, 6) {
                if r.chance(0.5) {
                    let y = r.range(0, hi - 1);
                    p.rect(r.range(0, wi / 2), y, r.range(wi / 2, wi), y + t, dark)
                } else {
                    let x = r.range(0, wi - 1);
                    p.rect(x, r.range(0, hi / 2), x + t, r.range(hi / 2, hi), dark)
                }
            }
        }
        // blobs from smoothed noise
        _ => {
            let k = r.range(3, 9);
            let (gw, gh) = (wi / k + 2, hi / k + 2);
            let d = 0.2 + 0.5 * r.unit();
            let g: Vec<bool> = (0..gw * gh).map(|_| r.chance(d)).collect();
            for y in 0..hi {
                for x in 0..wi {
                    if g[((y / k) * gw + x / k) as usize] {
                        p.set(x, y, dark);
                    }
                }
            }
        }
    }
    p
}
