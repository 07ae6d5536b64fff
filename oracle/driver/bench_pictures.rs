//! The pictures that are timed, of several kinds. `bench-pictures DIR [SEED]` writes those of `bench` as PGM files.
use crate::pic::{Pic, Rng, draw_ring, photo_ring};

/// The sides of the pictures of `bench`.
pub const SIDES: [u32; 3] = [256, 1024, 4096];
pub const KINDS: [&str; 6] = ["noise", "blobs", "ring", "small regions", "blank", "photograph"];

/// A picture of a kind and a side.
pub fn picture(kind: &str, s: u32, seed: u64) -> Pic {
    let mut r = Rng(seed.wrapping_mul(0x1_0000_0001).wrapping_add(s as u64));
    let mut p = Pic::new(s, s, 255);
    match kind {
        "noise" => p.g.iter_mut().for_each(|q| if r.chance(0.3) { *q = 0 }),
        "blobs" => {
            for _ in 0..(s as u64 * s as u64 / 8000) {
                let (x, y) = (r.range(0, s as i64), r.range(0, s as i64));
                p.rect(x, y, x + r.range(4, 40), y + r.range(4, 40), 0)
            }
        }
        "ring" => {
            let (version, pitch) = if s <= 256 { (10, 3) } else if s <= 1024 { (40, 5) } else { (64, 5) };
            p = draw_ring(version, pitch, 1, true, s, s);
        }
        "small regions" => small_regions(&mut p),
        "photograph" => p = photograph(s, &mut r),
        "spiral" => spiral(&mut p),
        _ => {}
    }
    p
}

/// One cell in each 32 by 32 pixels, as many regions as there can be, and one of 25 cells in the middle.
fn small_regions(p: &mut Pic) {
    let s = p.w as i64;
    for y in (0..s).step_by(32) {
        for x in (0..s).step_by(32) {
            p.rect(x, y, x + 8, y + 8, 0)
        }
    }
    let c = s / 64 * 32;
    p.rect(c - 64, c - 64, c + 96, c + 96, 255);
    p.rect(c, c, c + 40, c + 40, 0);
}

/// One line of ink that winds to the middle, a cell wide, five cells from turn to turn: the longest way of one region.
fn spiral(p: &mut Pic) {
    let s = p.w as i64;
    for k in (0..s / 2).step_by(40) {
        let (a, b) = (k, s - k);
        p.rect(a, a, b, a + 8, 0);
        p.rect(b - 8, a, b, b, 0);
        p.rect(a, b - 8, b, b, 0);
        p.rect(a, a + 40, a + 8, b, 0);
        p.rect(a, a + 40, a + 48, a + 48, 0);
    }
}

/// A slope of greys with four rings as a camera might see them, and noise.
fn photograph(s: u32, r: &mut Rng) -> Pic {
    let mut p = Pic::new(s, s, 0);
    for y in 0..s {
        for x in 0..s {
            p.set(x as i64, y as i64, (140 + (x + 2 * y) * 100 / (3 * s)) as u8);
        }
    }
    for (i, share) in [0.56, 0.36, 0.38, 0.3].into_iter().enumerate() {
        let n = (s as f64 * share) as u32;
        let (left, top) = ((i as u32 % 2) * s * 58 / 100, (i as u32 / 2) * s * 58 / 100);
        let c = n as f64 / 2.0;
        let turn = 0.4 + r.unit();
        let corner = |k: usize| {
            let a = turn + k as f64 * core::f64::consts::FRAC_PI_2;
            let d = c * (0.9 + 0.08 * (k % 2) as f64);
            ((c + d * a.cos()) as f32, (c + d * a.sin()) as f32)
        };
        let tag = photo_ring(r, 2 + i as u8, n, n, [corner(0), corner(1), corner(2), corner(3)], 0.0, i % 2 == 1, 25, 225, 2);
        for y in 0..n.min(s - top) {
            for x in 0..n.min(s - left) {
                let under = p.get(left + x, top + y) as u32;
                p.set((left + x) as i64, (top + y) as i64, (under * tag.get(x, y) as u32 / 255) as u8);
            }
        }
    }
    p.noise(r, 6);
    p
}

/// DIR/SIDE-KIND.pgm of every side, in four digits, and kind.
pub fn write(dir: &str, seed: u64) {
    std::fs::create_dir_all(dir).unwrap();
    for s in SIDES {
        for kind in KINDS {
            std::fs::write(format!("{dir}/{s:04}-{}.pgm", kind.replace(' ', "-")), picture(kind, s, seed).file()).unwrap();
        }
    }
}
