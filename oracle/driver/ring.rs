//! The search over versions and the ring door: `ring_transform`, `ring_lumas`, the loop of
//! `correlate_quad`, `attempt`. Pictures are drawn, photographed and damaged rings, and others.
use crate::calls::{Area, Call, Words, packed, w32, w64};
use crate::looks::{Q, wild};
use crate::pic::*;
use crate::skips;
use crate::smaller::{Layout, Unit};
use lcr_core::version::Version;
use lcr_decode::notes::{self, Note};
use lcr_decode::transform::Transform;
use lcr_decode::{noted, ring};

pub const AREA: Area = Area { name: "ring", stored, random, answer, layout };

type Lens = (f32, f32, f32);

fn side_of(v: u8) -> u16 {
    17 + 4 * v as u16
}

fn bits(v: &[f32]) -> Vec<u32> {
    v.iter().map(|&x| w32(x)).collect()
}

fn numbers(q: &Q) -> Vec<f32> {
    q.iter().flat_map(|p| [p.0, p.1]).collect()
}

fn eleven(t: &Transform) -> Vec<u32> {
    t.m.iter().chain(&t.radial).flat_map(|&x| w64(x)).collect()
}

fn layout(kind: u32) -> Layout {
    match kind {
        900 => Layout::heads(12),
        901 => Layout::heads(26).grid(2, Unit::Byte, 1).sides(0, 1),
        _ => Layout::heads(16).grid(2, Unit::Byte, 1).sides(0, 1),
    }
}

fn quad_of(v: [f32; 8]) -> Q {
    [(v[0], v[1]), (v[2], v[3]), (v[4], v[5]), (v[6], v[7])]
}

fn answer(kind: u32, args: &[u32]) -> Option<Vec<u32>> {
    let mut w = Words(args);
    if kind == 900 {
        let (q, [x, y, k], [side]) = (quad_of(w.singles()?), w.singles()?, w.heads()?);
        let found = ring::ring_transform(&q, side.try_into().ok()?, (x, y, k));
        return w.ended(found.map_or(vec![0, 0], |t| [vec![0, 1], eleven(&t)].concat()));
    }
    let [width, height, n, v] = w.heads()?;
    if !(1..=4096).contains(&width) || !(1..=4096).contains(&height) || n != width * height || !(1..=64).contains(&v) {
        return None;
    }
    if kind == 901 {
        let t = Transform { m: w.doubles(8)?.try_into().ok()?, radial: w.doubles(3)?.try_into().ok()? };
        let list = skips::ring_lumas(&w.bytes(n as usize)?, width, height, &t, side_of(v as u8));
        return w.ended([vec![0], bits(&list)].concat());
    }
    let (q, [x, y, k, outer]) = (quad_of(w.singles()?), w.singles()?);
    if w32(outer) != w32(span(&q)) || args.len() < 26 {
        return None;
    }
    let t = skips::correlate_quad(&w.bytes(n as usize)?, width, height, q, (x, y, k), Version::new_unchecked(v as u8));
    Some([vec![0], scores(&t.scores)].concat())
}

fn transform(q: &Q, l: Lens, side: u16) -> Call {
    AREA.call(900, [bits(&numbers(q)), bits(&[l.0, l.1, l.2]), vec![side as u32]].concat())
}

fn lumas(p: &Pic, t: &Transform, v: u8) -> Call {
    AREA.call(901, [vec![p.w, p.h, p.g.len() as u32, v as u32], eleven(t), packed(&p.g)].concat())
}

/// The outer side of a quad, as `correlate_quad` has it before it tries a version.
fn span(q: &Q) -> f32 {
    let none = Version::new_unchecked(0);
    let (notes, _) = notes::of(|| noted::correlate_quad(&[], 0, 0, *q, (0.0, 0.0, 0.0), 0, none));
    let [Note::Span(span)] = notes[..] else { unreachable!() };
    span
}

pub fn scores(s: &[(Version, f32, usize, bool)]) -> Vec<u32> {
    let mut o = vec![s.len() as u32];
    s.iter().for_each(|s| o.extend([s.0.get() as u32, w32(s.1), s.2 as u32, s.3 as u32]));
    o
}

fn search(p: &Pic, q: &Q, l: Lens, most: u8) -> Call {
    let head = vec![p.w, p.h, p.g.len() as u32, most as u32];
    let args = [head, bits(&numbers(q)), bits(&[l.0, l.1, l.2, span(q)]), packed(&p.g)].concat();
    // the finder wants at least 26 words
    let pad = 26usize.saturating_sub(args.len());
    AREA.call(902, [args, vec![0; pad]].concat())
}

/// A ring in a picture: its corners in pixels without the lens, position 0 first and clockwise unless it is mirrored.
pub struct Scene {
    pub pic: Pic,
    pub quad: Q,
    pub kappa: f32,
    pub version: u8,
}

/// A drawn ring: whole pixels, any version, corner and direction.
pub fn drawn(r: &mut Rng, most: u32) -> Scene {
    let cap = ((most / 2).saturating_sub(27) / 4).clamp(1, 64) as i64;
    let v = if r.chance(0.5) { r.range(1, cap.min(6)) } else { r.range(1, cap) } as u8;
    let n = 17 + 4 * v as u32 + 10;
    let pitch = r.range(2, (most / n).clamp(2, 9) as i64) as u32;
    let (w, h) = (n * pitch + r.below(20) as u32, n * pitch + r.below(20) as u32);
    let (corner, rev) = (r.below(4) as u32, r.chance(0.5));
    let (a, b) = (2.0 * pitch as f32, (2 + 17 + 4 * v as u32 + 6) as f32 * pitch as f32);
    Scene { pic: draw_ring(v, pitch, corner, rev, w, h), quad: [(a, a), (b, a), (b, b), (a, b)], kappa: 0.0, version: v }
}

/// A photographed ring: any corners, a lens of either sign or none, greys, blur, noise.
pub fn photographed(r: &mut Rng, most: u32) -> Scene {
    let cap = ((most as f64 * 0.6 / 2.0) as i64 - 25) / 4;
    let v = if r.chance(0.5) { r.range(1, cap.clamp(1, 4)) } else { r.range(1, cap.clamp(1, 64)) } as u8;
    let least = (17 + 4 * v as u32 + 8) as f64 * 2.2 / 0.6;
    let m = (least + r.unit() * (most as f64 - least).max(1.0)).clamp(60.0, most as f64);
    let (w, h) = (m as u32, (m * (0.9 + 0.1 * r.unit())) as u32);
    let (cx, cy) = (w as f64 / 2.0, h as f64 / 2.0);
    let turn = if r.chance(0.2) { 0.7853981633974483 } else { r.unit() * 6.3 };
    let bend = if r.chance(0.3) { 0.0 } else { 0.2 * r.unit() };
    let mut quad = [(0f32, 0f32); 4];
    for (i, p) in quad.iter_mut().enumerate() {
        let a = turn + i as f64 * core::f64::consts::FRAC_PI_2 + (r.unit() - 0.5) * bend;
        let d = h.min(w) as f64 * (0.42 + 0.04 * r.unit());
        *p = ((cx + d * a.cos()) as f32, (cy + d * a.sin()) as f32);
    }
    let kappa = if r.chance(0.5) { 0.0 } else { (r.unit() - 0.5) * 0.6 / (cx * cx + cy * cy) };
    let dark = r.range(0, 60) as u8;
    let (rev, light, shots) = (r.chance(0.5), if r.chance(0.5) { 255 } else { r.range(150, 240) as u8 }, if m < 200.0 { 2 } else { 1 });
    let mut pic = photo_ring(r, v, w, h, quad, kappa, rev, dark, light, shots);
    if r.chance(0.3) {
        pic.blur(r.range(1, 3));
    }
    if r.chance(0.3) {
        let amp = r.range(1, 40);
        pic.noise(r, amp);
    }
    Scene { pic, quad, kappa: kappa as f32, version: v }
}

/// A corner covered or erased, an edge cut, or a patch somewhere.
pub fn damaged(s: &mut Scene, r: &mut Rng) {
    let q = s.quad;
    let size = ((q[0].0 - q[2].0).abs() + (q[0].1 - q[2].1).abs()) as f64 * 0.5;
    for _ in 0..r.range(1, 3) {
        let c = q[r.below(4) as usize];
        let d = q[r.below(4) as usize];
        let t = if r.chance(0.5) { 0.0 } else { r.unit() as f32 };
        let (x, y) = ((c.0 + (d.0 - c.0) * t) as f64, (c.1 + (d.1 - c.1) * t) as f64);
        let k = size * (0.02 + 0.2 * r.unit());
        let v = if r.chance(0.5) { 255 } else { r.range(0, 60) as u8 };
        if r.chance(0.5) {
            s.pic.disc(x, y, k, k, v);
        } else {
            s.pic.rect((x - k) as i64, (y - k) as i64, (x + k) as i64, (y + k) as i64, v);
        }
    }
}

fn some_picture(r: &mut Rng) -> Pic {
    let (w, h) = (r.range(1, 90) as u32, r.range(1, 90) as u32);
    if r.chance(0.3) {
        return generate(1, w, h, r);
    }
    let kind = r.below(KINDS);
    generate(kind, w.max(24), h.max(24), r)
}

/// A scene, at times damaged; sides up to `most`.
pub fn scene(r: &mut Rng, most: u32) -> Scene {
    let mut s = if r.chance(0.4) { drawn(r, most) } else { photographed(r, most) };
    if r.chance(0.3) {
        damaged(&mut s, r);
    }
    s
}

/// A scene's quad from another corner on, either way, moved a little or much, or with a wild number; and its lens.
fn near(s: &Scene, r: &mut Rng) -> (Q, Lens) {
    let (k, back) = (r.below(4) as usize, r.chance(0.5));
    let mut q = [0, 1, 2, 3].map(|i| s.quad[(k + if back { 4 - i } else { i }) % 4]);
    let far = if r.chance(0.5) { 0.0 } else { r.unit() as f32 * 8.0 };
    for p in q.iter_mut() {
        *p = (p.0 + (r.unit() as f32 - 0.5) * far, p.1 + (r.unit() as f32 - 0.5) * far);
    }
    match r.below(40) {
        0 => q[r.below(4) as usize].0 = wild(r),
        1 => q[r.below(4) as usize].1 = wild(r),
        2 => q[1] = q[0],
        3 => q[2] = ((q[0].0 + q[1].0) / 2.0, (q[0].1 + q[1].1) / 2.0),
        4 => q = q.map(|p| (p.0 - 200.0, p.1 - 100.0)),
        5 => q = [(-740.0, 0.0), (0.0, -1.65e-14), (740.0, 0.0), (0.0, 1.65e-14)],
        6 => q = [(0.0, 0.0); 4].map(|_| (wild(r), wild(r))),
        _ => (),
    }
    let k = match r.below(8) {
        0 => wild(r),
        1 => -0.0,
        2 => (r.unit() as f32 - 0.5) * 1e-4,
        _ => s.kappa,
    };
    let c = (s.pic.w as f32 / 2.0, s.pic.h as f32 / 2.0);
    (q, if r.chance(0.05) { (wild(r), wild(r), k) } else { (c.0, c.1, k) })
}

/// A transform at random: one of a quad, or any eleven numbers.
fn some_map(q: &Q, l: Lens, v: u8, r: &mut Rng) -> Transform {
    if r.chance(0.05) {
        return Transform { m: [0.0; 8].map(|_| wild(r) as f64), radial: [0.0; 3].map(|_| wild(r) as f64) };
    }
    let w = if r.chance(0.1) { r.range(1, 64) as u8 } else { v };
    let mut t = ring::ring_transform(q, side_of(w), l).unwrap_or(Transform { m: [1.0, 0.0, 5.0, 0.0, 1.0, 5.0, 0.0, 0.0], radial: [0.0; 3] });
    if r.chance(0.1) {
        t.m[r.below(8) as usize] = wild(r) as f64;
    }
    t
}

fn search_call(r: &mut Rng, kind: u32, most: u32) -> Call {
    let mut s = scene(r, most);
    let (q, l) = near(&s, r);
    let v = if r.chance(0.7) { s.version } else { r.range(1, 64) as u8 };
    if r.chance(0.1) {
        s.pic = some_picture(r);
    }
    match kind {
        900 => transform(&q, l, if r.chance(0.9) { side_of(v) } else { r.next() as u16 }),
        901 => lumas(&s.pic, &some_map(&q, l, v, r), v),
        _ => search(&s.pic, &q, l, if r.chance(0.5) { 64 } else { v }),
    }
}

fn random(r: &mut Rng) -> Call {
    let kind = 900 + r.below(3) as u32;
    search_call(r, kind, 220)
}

/// A picture of a few pixels.
fn tiny(r: &mut Rng) -> Pic {
    let (w, h) = (r.range(1, 6) as u32, r.range(1, 6) as u32);
    Pic { w, h, g: (0..w * h).map(|_| r.next() as u8).collect() }
}

/// No lens, one about the picture's middle, or one that has a number without a value.
fn some_lens(p: &Pic, r: &mut Rng) -> Lens {
    let c = (p.w as f32 / 2.0, p.h as f32 / 2.0);
    match r.below(4) {
        0 => (c.0, c.1, (r.unit() as f32 - 0.5) * 1e-2),
        1 => [(f32::NAN, c.1, 1e-3), (c.0, f32::NAN, 1e-3), (c.0, c.1, f32::INFINITY)][r.below(3) as usize],
        _ => (c.0, c.1, 0.0),
    }
}

/// A quad with a corner that is no number in one coordinate or in both, that is infinite, or with corners that fall together or into line.
fn broken_quad(r: &mut Rng) -> Q {
    let mut q = [(0.0, 0.0), (90.0, 0.0), (90.0, 90.0), (0.0, 90.0)].map(|p: (f32, f32)| (p.0 + r.unit() as f32, p.1 + r.unit() as f32));
    let (i, way) = (r.below(4) as usize, r.below(8));
    match way {
        0 => q[i].0 = f32::NAN,
        1 => q[i].1 = f32::NAN,
        2 => q[i] = (f32::NAN, f32::NAN),
        3 => q[i].0 = f32::INFINITY,
        4 => q[i].1 = f32::NEG_INFINITY,
        5 => q[i] = q[(i + 1) % 4],
        6 => q = q.map(|p| (p.0, p.0 * 1e-20)),
        _ => q = [(-740.0, 0.0), (0.0, -1.65e-14), (740.0, 0.0), (0.0, 1.65e-14)],
    }
    q
}

/// A transform near the picture with a number that is none or infinite: of x alone, of y alone, or of both.
fn broken_map(p: &Pic, r: &mut Rng) -> Transform {
    let a = p.w as f64 / 20.0;
    let mut t = Transform { m: [a, 0.0, 1.0, 0.0, a, 1.0, 0.0, 0.0], radial: [0.0; 3] };
    t.m[r.below(8) as usize] = [f64::NAN, f64::INFINITY, f64::NEG_INFINITY, 1e300][r.below(4) as usize];
    let l = some_lens(p, r);
    if r.chance(0.4) {
        t.radial = [l.0, l.1, l.2].map(|x| x as f64);
    }
    t
}

/// 220 calls with a sample without a value, half of them of `ring_lumas`.
fn without_values() -> Vec<Call> {
    let (mut o, mut r) = (Vec::new(), Rng(33));
    while o.len() < 220 {
        let (p, v, found) = (tiny(&mut r), r.range(1, 3) as u8, skips::found());
        let call = if o.len() % 2 == 0 { lumas(&p, &broken_map(&p, &mut r), v) } else { search(&p, &broken_quad(&mut r), some_lens(&p, &mut r), v) };
        if skips::found() > found {
            o.push(call);
        }
    }
    o
}

/// Rings of several versions with every corner and direction, wild quads, versions that have no transform; samples without a value.
fn stored() -> Vec<Call> {
    let mut o = Vec::new();
    let mut r = Rng(9);
    for v in 1..=3u8 {
        for pose in 0..8u32 {
            let n = (17 + 4 * v as u32 + 10) * 3;
            let p = draw_ring(v, 3, pose % 4, pose >= 4, n, n);
            let (a, b) = (6.0, (2 + 17 + 4 * v as u32 + 6) as f32 * 3.0);
            let q = [(a, a), (b, a), (b, b), (a, b)];
            o.push(transform(&q, (60.0, 60.0, 0.0), side_of(v)));
            if pose == v as u32 {
                o.push(lumas(&p, &ring::ring_transform(&q, side_of(v), (0.0, 0.0, 0.0)).unwrap(), v));
            }
            o.push(search(&p, &q, (60.0, 60.0, 0.0), 64));
        }
    }
    let flat = [(-740.0, 0.0), (0.0, -1.65e-14), (740.0, 0.0), (0.0, 1.65e-14)];
    for v in [1, 2, 3, 64] {
        o.push(transform(&flat, (0.0, 0.0, 0.0), side_of(v)));
    }
    let p = Pic { w: 3, h: 2, g: vec![1, 20, 90, 140, 200, 255] };
    o.push(search(&p, &flat, (0.0, 0.0, 0.0), 64));
    for m in [f64::NAN, 0.0, 1e300, -1.0] {
        o.push(lumas(&p, &Transform { m: [m, 0.0, 1.0, 0.0, m, 1.0, 0.0, 0.0], radial: [0.0; 3] }, 1));
    }
    for i in 0..60 {
        o.push(search_call(&mut r, 900 + i % 3, 90));
    }
    o.extend(without_values());
    o
}
