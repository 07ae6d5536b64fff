//! Cases of the ring door: pictures with points, of many kinds, and what the door refuses.
use crate::att::Case;
use crate::looks::{Look, P, bent, ring_of, rough_edges};
use crate::pic::*;
use crate::ring as door;
use lcr_decode::ring::{self, InkMap};

pub fn case(p: Pic, points: &[P], maxv: u32) -> Case {
    Case { w: p.w, h: p.h, maxv, g: p.g, nums: points.iter().flat_map(|p| [p.0, p.1]).collect() }
}

/// The boundary points of a picture's first region, or of all ink.
pub fn outline(p: &Pic, all: bool) -> Vec<P> {
    let ink = InkMap::new(&p.g, p.w, p.h);
    let (kept, _) = ink.regions();
    match kept.first() {
        Some(r) if !all => ring::boundary_points(&ink, Some(r.label), r.bbox),
        _ => ring::boundary_points(&ink, None, (0, 0, p.w, p.h)),
    }
}

/// A drawn ring with some of its cells painted over: its score falls below 0.85.
fn worn(r: &mut Rng, most: u32) -> Pic {
    let cap = ((most / 3).saturating_sub(27) / 4).clamp(1, 12) as i64;
    let v = r.range(1, cap) as u8;
    let n = 17 + 4 * v as i64 + 6;
    let pitch = r.range(3, (most as i64 / (n + 4)).clamp(3, 8));
    let side = ((n + 4) * pitch) as u32;
    let mut p = draw_ring(v, pitch as u32, r.below(4) as u32, r.chance(0.5), side, side);
    let share = 0.2 + 0.5 * r.unit();
    for k in 1..n - 1 {
        for (x, y) in [(k, 0), (k, n - 1), (0, k), (n - 1, k)] {
            if r.chance(share) {
                let (a, b) = ((x + 2) * pitch, (y + 2) * pitch);
                p.rect(a, b, a + pitch, b + pitch, if r.chance(0.5) { 0 } else { 255 });
            }
        }
    }
    p
}

/// Points of edges with a bow, noise and damage, over a ring or another picture.
fn bowed(r: &mut Rng) -> Case {
    let (w, h) = (r.range(60, 260) as u32, r.range(60, 260) as u32);
    let l = Look {
        side: 10.0 + r.unit() * 160.0,
        tilt: if r.chance(0.3) { 0.0 } else { r.unit() * 1.6 },
        skew: if r.chance(0.5) { 0.0 } else { r.unit() * 12.0 },
        kappa: if r.chance(0.3) { 0.0 } else { (r.unit() - 0.5) * 1e-5 },
        noise: if r.chance(0.3) { 0.0 } else { r.unit() * 3.0 },
        damage: if r.chance(0.6) { 0.0 } else { r.unit() * 0.5 },
        grid: r.chance(0.6),
    };
    let centre = (w as f64 / 2.0, h as f64 / 2.0);
    let off = match r.below(4) {
        0 => (0.0, 0.0),
        // an edge through the picture's middle
        1 => (0.0, l.side / 2.0),
        _ => ((r.unit() - 0.5) * 60.0, (r.unit() - 0.5) * 60.0),
    };
    let g = ring_of(l, centre, off, r);
    let p = if r.chance(0.5) { generate(1, w, h, r) } else { Pic::new(w, h, 128) };
    let most = r.range(1, 64) as u32;
    case(p, &g.points, most)
}

/// Any coordinates within the door's limits, few or many points, repeated ones, −0, a thin quad.
fn wild_list(r: &mut Rng) -> Case {
    let (w, h) = match r.below(4) {
        0 => (1, 1),
        1 => (r.range(1, 40) as u32, r.range(1, 40) as u32),
        2 => (96, 96),
        _ => (r.range(1, 4096) as u32, 1),
    };
    let p = generate(1, w, h, r);
    let one = |r: &mut Rng| {
        let e = 10f64.powf(-20.0 + 24.5 * r.unit()) as f32;
        let v = if r.chance(0.5) { e } else { -e };
        if r.chance(0.1) { -0.0 } else { v.clamp(-32768.0, 32768.0) }
    };
    let points: Vec<P> = match r.below(5) {
        0 => (0..r.below(60)).map(|_| (one(r), one(r))).collect(),
        1 => (0..r.below(40)).map(|_| (r.range(-3, 12) as f32 / 2.0, r.range(-3, 12) as f32 / 2.0)).collect(),
        2 => {
            // a quad so thin that some versions have no transform
            let (a, e) = (r.range(90, 1500) as f32, 10f64.powf(-14.6 + 1.6 * r.unit()) as f32);
            vec![(-a, 0.0), (0.0, -e), (a, 0.0), (0.0, e)]
        }
        3 => (0..r.below(400)).map(|_| ((r.unit() - 0.5) as f32 * 65536.0, (r.unit() - 0.5) as f32 * 65536.0)).collect(),
        _ => {
            let k = r.range(4, 9);
            let (c, s) = (w as f64 / 2.0, 20.0 + r.unit() * 300.0);
            (0..k).map(|i| { let a = i as f64 * 6.2832 / k as f64; ((c + s * a.cos()) as f32, (s * a.sin()) as f32) }).collect()
        }
    };
    let most = r.range(1, 64) as u32;
    case(p, &points, most)
}

/// A square whose top edge lies on the middle row, its corners cut a little: where the second pass of the lens takes
/// other corners than the first, an edge runs through the picture's middle and the lens is a NaN.
fn on_row(r: &mut Rng) -> Case {
    let side = 40.0 + 2.0 * r.below(30) as f64;
    let w = 60 + 2 * r.below(20) as u32;
    let (cx, cy) = (w as f64 / 2.0, 30.0);
    let k = (r.unit() - 0.5) * 2e-5;
    let h = side / 2.0;
    let down = 0.25 + r.unit();
    let cut = down * (0.8 + 0.6 * r.unit());
    let mut raw = vec![(-h, down), (h, down), (-h + cut, 0.0), (h - cut, 0.0), (h, side), (-h, side)];
    rough_edges(r, side, 2, 0.25, &mut raw);
    // a point of the middle row stays on it
    let points = bent(&raw, (cx, cy), k);
    case(Pic::new(w, 60, 90), &points, 2)
}

/// A case at random, of a named kind.
pub fn some(r: &mut Rng, most: u32) -> (&'static str, Case) {
    let far = r.chance(0.04);
    let size = if far { 640 } else { most };
    let maxv = |r: &mut Rng, v: u8| match r.below(4) {
        0 => v as u32,
        1 => r.range(1, 64) as u32,
        _ => 64,
    };
    match r.below(22) {
        20 => {
            // every version, three pixels a module, or two, which are too few
            let v = r.range(1, 64) as u8;
            let n = 17 + 4 * v as u32 + 10;
            let pitch = if r.chance(0.8) { 3 } else { 2 };
            let p = draw_ring(v, pitch, r.below(4) as u32, r.chance(0.5), n * pitch, n * pitch);
            let q = outline(&p, true);
            let m = maxv(r, v);
            ("every version", case(p, &q, m))
        }
        21 => ("on the middle row", on_row(r)),
        0..=4 => {
            let s = door::drawn(r, size);
            let m = maxv(r, s.version);
            let q = outline(&s.pic, r.chance(0.6));
            ("drawn", case(s.pic, &q, m))
        }
        5..=8 => {
            let s = door::photographed(r, if far { 400 } else { most });
            let m = maxv(r, s.version);
            let q = outline(&s.pic, r.chance(0.6));
            ("photographed", case(s.pic, &q, m))
        }
        9..=11 => {
            let mut s = door::scene(r, most);
            door::damaged(&mut s, r);
            let m = maxv(r, s.version);
            let q = outline(&s.pic, r.chance(0.6));
            ("damaged", case(s.pic, &q, m))
        }
        12 | 13 => {
            let p = worn(r, most);
            let q = outline(&p, true);
            ("worn", case(p, &q, 64))
        }
        14 => {
            let kind = r.below(KINDS);
            let (w, h) = (r.range(24, 160) as u32, r.range(24, 160) as u32);
            let p = generate(kind, w, h, r);
            let q = outline(&p, r.chance(0.3));
            ("other pictures", case(p, &q, 64))
        }
        15 | 16 => ("bowed lists", bowed(r)),
        17 => {
            // a ring seen by points that are not its own
            let s = door::drawn(r, most);
            let t = door::scene(r, most);
            let q = outline(&t.pic, true);
            ("other points", case(s.pic, &q, 64))
        }
        18 => ("wild lists", wild_list(r)),
        _ => ("refusals", broken(r)),
    }
}

/// A case with one or two things that the door refuses.
fn broken(r: &mut Rng) -> Case {
    let mut c = if r.chance(0.5) { wild_list(r) } else { bowed(r) };
    for _ in 0..r.range(1, 2) {
        match r.below(9) {
            0 => c.w = [0, 4097, u32::MAX][r.below(3) as usize],
            1 => c.h = [0, 4097, u32::MAX][r.below(3) as usize],
            2 => c.g.push(1),
            3 => { c.g.pop(); }
            4 => c.nums.push(1.0),
            5 => c.nums = vec![1.0; 32768 + r.below(3) as usize],
            6 => c.maxv = [0, 65, 255][r.below(3) as usize],
            7 => c.nums.extend([32768.004, -0.0]),
            _ => c.nums.extend([3.0, [f32::NAN, f32::INFINITY, f32::NEG_INFINITY, -32768.004][r.below(4) as usize]]),
        }
    }
    c.nums.truncate(32770);
    c
}

/// Working lists: as long as the list of points, longer, or at times too short.
pub fn rooms(c: &Case, r: &mut Rng) -> [u32; 3] {
    let n = c.nums.len() as u32;
    [0; 3].map(|_| if r.chance(0.02) { n.saturating_sub(1) } else { (n + r.below(4) as u32).min(32770) })
}
