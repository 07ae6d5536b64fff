//! Pictures of twelve kinds for the finder's entries, with the tags that were drawn into them: one tag, several, damaged ones, tags
//! beside other ink, no tag, and any picture.
use crate::find::Tag;
use crate::pic::{self, Pic, Rng, generate};
use crate::ring::{Scene, damaged};
use crate::tagged::*;

/// Which picture of each sixteen is of which kind.
pub const SLOTS: u64 = 16;

pub const KINDS: [&str; 12] = [
    "drawn, the ring alone", "drawn, filled", "photographed", "photographed, defocused", "photographed, shaded", "several, drawn",
    "several, photographed", "damaged, drawn", "damaged, photographed", "other ink", "no tag", "any picture",
];

const NO_TAG: usize = 10;
/// The kind whose tags are not known.
pub const ANY: usize = 11;

/// The kinds of pictures with one whole tag that is drawn, and with one that is photographed.
pub fn is_drawn(kind: &str) -> bool {
    KINDS[..2].contains(&kind)
}

pub fn is_photographed(kind: &str) -> bool {
    KINDS[2..5].contains(&kind)
}

pub fn has_several(kind: &str) -> bool {
    KINDS[5..7].contains(&kind)
}

/// Any tag at 2 to 16 pixels a module, a drawn picture of which has sides of about `most` or less where a version fits.
fn want(r: &mut Rng, most: i64) -> Want {
    let pitch = r.range(2, 16);
    let version = r.range(1, ((most / pitch - 27) / 4).clamp(1, 64)) as u8;
    Want { version, pose: r.below(8) as u32, pitch: pitch as u32 }
}

/// The n-th of all versions at all poses; at times at a large pitch, within `room` pixels.
fn every(n: u64, room: u32, r: &mut Rng) -> Want {
    let version = 1 + (n % 64) as u8;
    let most = (room / (27 + 4 * version as u32)).clamp(3, 16) as i64;
    let pitch = if r.chance(0.02) { r.range(3, most) } else if r.chance(0.1) { 2 } else { r.range(3, 4) };
    Want { version, pose: (n / 64 % 8) as u32, pitch: pitch as u32 }
}

/// Lays a picture over another: the darker of both.
fn lay(p: &mut Pic, q: &Pic, left: i64, top: i64) {
    for y in 0..q.h {
        for x in 0..q.w {
            let (a, b, v) = (left + x as i64, top + y as i64, q.get(x, y));
            if a >= 0 && b >= 0 && a < p.w as i64 && b < p.h as i64 && v < p.get(a as u32, b as u32) {
                p.set(a, b, v);
            }
        }
    }
}

fn shifted(mut t: Tag, left: i64, top: i64) -> Tag {
    t.corners = t.corners.map(|p| (p.0 + left as f32, p.1 + top as f32));
    t
}

type Made = (Pic, Vec<Tag>);

/// A tag with more paper around it on the right and below, and at times on the other sides too.
fn placed((q, t): (Pic, Tag), r: &mut Rng) -> Made {
    let (x, y) = if r.chance(0.5) { (0, 0) } else { (r.range(0, 60), r.range(0, 60)) };
    let (w, h) = (q.w + x as u32 + r.below(60) as u32, q.h + y as u32 + r.below(60) as u32);
    let mut p = Pic::new(w.min(4096), h.min(4096), 255);
    lay(&mut p, &q, x, y);
    (p, vec![shifted(t, x, y)])
}

/// Two to six tags in rows.
fn several(r: &mut Rng, make: &dyn Fn(Want, &mut Rng) -> (Pic, Tag)) -> Made {
    let (many, columns, gap) = (2 + r.below(3) + r.below(3), r.range(1, 3) as usize, r.range(16, 70));
    let (mut places, mut w, mut h) = (Vec::new(), 0, 0);
    let mut top = gap;
    let tags: Vec<(Pic, Tag)> = (0..many)
        .map(|_| {
            let t = Want { version: r.range(1, 4) as u8, pose: r.below(8) as u32, pitch: r.range(3, 6) as u32 };
            make(t, r)
        })
        .collect();
    for row in tags.chunks(columns) {
        let mut left = gap;
        for (p, _) in row {
            places.push((left, top));
            left += p.w as i64 + gap;
            w = w.max(left);
        }
        top += row.iter().map(|(p, _)| p.h).max().unwrap_or(0) as i64 + gap;
        h = top;
    }
    let mut p = Pic::new(w as u32, h as u32, 255);
    let mut drawn = Vec::new();
    for ((q, t), (x, y)) in tags.into_iter().zip(places) {
        lay(&mut p, &q, x, y);
        drawn.push(shifted(t, x, y));
    }
    (p, drawn)
}

/// Some of the outer cells painted over, `share` of their number.
fn worn(p: &mut Pic, t: &Tag, share: f64, r: &mut Rng) {
    let q = t.corners.map(|c| (c.0 as f64, c.1 as f64));
    let (cx, cy) = ((q[0].0 + q[2].0) / 2.0, (q[0].1 + q[2].1) / 2.0);
    let cells = 17 + 4 * t.version as i64 + 6;
    for _ in 0..(4.0 * cells as f64 * share) as i64 {
        let e = r.below(4) as usize;
        let (a, b, u) = (q[e], q[(e + 1) % 4], (r.range(1, cells - 2) as f64 + 0.5) / cells as f64);
        // the middle of an outer cell
        let (x, y, inwards) = (a.0 + (b.0 - a.0) * u, a.1 + (b.1 - a.1) * u, 1.0 / cells as f64);
        let (x, y) = (x + (cx - x) * inwards, y + (cy - y) * inwards);
        let half = ((b.0 - a.0).hypot(b.1 - a.1) / cells as f64 / 2.0).max(1.0);
        let v = if r.chance(0.5) { 255 } else { 0 };
        p.rect((x - half).round() as i64, (y - half).round() as i64, (x + half).round() as i64, (y + half).round() as i64, v);
    }
}

/// A corner or an edge covered or erased, cells painted over, or a part cut off at the picture's edge.
fn broken((pic, t): (Pic, Tag), r: &mut Rng) -> Made {
    let mut s = Scene { pic, quad: t.corners, kappa: 0.0, version: t.version };
    match r.below(4) {
        0 | 1 => damaged(&mut s, r),
        2 => worn(&mut s.pic, &t, 0.5 * r.unit(), r),
        _ => {
            let k = r.range(0, s.pic.w as i64 / 6);
            let mut p = Pic::new(s.pic.w, s.pic.h, 255);
            lay(&mut p, &s.pic, -k, k / 3);
            return (p, vec![shifted(t, -k, k / 3)]);
        }
    }
    (s.pic, vec![t])
}

/// Shapes here and there.
fn cluttered(p: &mut Pic, r: &mut Rng) {
    let (w, h) = (p.w as i64, p.h as i64);
    for _ in 0..r.range(1, 6) {
        let (x, y) = (r.range(0, w), r.range(0, h));
        let (a, b) = (r.range(1, w / 4 + 2), r.range(1, h / 4 + 2));
        let v = if r.chance(0.7) { r.below(120) } else { r.below(256) } as u8;
        match r.below(3) {
            0 => p.rect(x, y, x + a, y + b, v),
            1 => p.disc(x as f64, y as f64, a as f64, b as f64, v),
            _ => p.line((x as f64, y as f64), (r.range(0, w) as f64, r.range(0, h) as f64), r.range(1, 8), v),
        }
    }
}

/// No tag: a flat picture, shapes, other kinds of pictures, a frame of cells at random.
fn none(r: &mut Rng, most: i64) -> Pic {
    let (w, h) = (r.range(1, most) as u32, r.range(1, most) as u32);
    let mut p = Pic::new(w, h, if r.chance(0.5) { 255 } else { r.below(256) as u8 });
    match r.below(4) {
        0 => (),
        1 => cluttered(&mut p, r),
        2 => {
            let kinds: Vec<u64> = (0..pic::KINDS).filter(|k| ![4, 13].contains(k)).collect();
            p = generate(kinds[r.below(kinds.len() as u64) as usize], w, h, r);
        }
        _ => {
            let (q, t) = filled(want(r, most), r);
            p = q;
            worn(&mut p, &t, 4.0, r);
        }
    }
    p
}

/// Any picture that the other areas have, at times small, at times long.
fn any(r: &mut Rng, most: i64) -> Pic {
    let (w, h) = match r.below(20) {
        0..8 => (r.range(1, 48), r.range(1, 48)),
        8 => (r.range(1, 4096), r.range(1, 60)),
        9 => (r.range(1, 60), r.range(1, 4096)),
        _ => (r.range(1, most), r.range(1, most)),
    };
    let mut p = generate(r.below(pic::KINDS), w as u32, h as u32, r);
    if r.chance(0.2) {
        cluttered(&mut p, r);
    }
    p
}

/// The picture of a slot, with sides of about `most`; `first` is its tag where it has one.
fn made(slot: u64, first: Want, most: i64, r: &mut Rng) -> (usize, Made) {
    let alone = |t: Want, _: &mut Rng| alone(t);
    match slot {
        0 | 1 => (0, placed(alone(first, r), r)),
        2 | 3 => (1, placed(filled(first, r), r)),
        4..8 => {
            let kind = [2, 2, 3, 4][slot as usize - 4];
            let (mut p, tags) = placed(photographed(first, r), r);
            match kind {
                2 => grained(&mut p, 10, r),
                3 => defocused(&mut p, first.pitch, r),
                _ => shaded(&mut p, r),
            }
            (kind, (p, tags))
        }
        8 => (5, if r.chance(0.5) { several(r, &alone) } else { several(r, &filled) }),
        9 => {
            let (mut p, tags) = several(r, &photographed);
            match r.below(3) {
                0 => grained(&mut p, 20, r),
                1 => shaded(&mut p, r),
                _ => p.blur(1),
            }
            (6, (p, tags))
        }
        10 => (7, if r.chance(0.5) { broken(alone(first, r), r) } else { broken(filled(first, r), r) }),
        11 => (8, broken(photographed(first, r), r)),
        12 | 13 => {
            let (mut p, tags) = placed(if slot == 12 { filled(first, r) } else { photographed(first, r) }, r);
            cluttered(&mut p, r);
            (9, (p, tags))
        }
        14 => (NO_TAG, (none(r, most), Vec::new())),
        _ => (ANY, (any(r, most), Vec::new())),
    }
}

fn shot(slot: u64, first: Want, most: i64, r: &mut Rng) -> Shot {
    let (kind, (pic, tags)) = made(slot, first, most, r);
    Shot { kind: KINDS[kind], pic, tags, pitch: (kind < 2).then_some(first.pitch) }
}

/// Picture i: three slots of sixteen have all versions at all poses in turn, the others sides up to about 330, at times 700
/// or 1,500.
pub fn nth(i: u64, r: &mut Rng) -> Shot {
    let slot = i % SLOTS;
    let most = if r.chance(0.9) { 330 } else if r.chance(0.9) { 700 } else { 1500 };
    let first = match slot {
        0 | 3 => every(i / SLOTS, 4096, r),
        4 => every(i / SLOTS, 2800, r),
        _ => want(r, most),
    };
    shot(slot, first, most, r)
}

/// A picture of a slot with sides up to about 200.
pub fn small(slot: u64, r: &mut Rng) -> Shot {
    let first = Want { version: r.range(1, 3) as u8, pose: r.below(8) as u32, pitch: r.range(2, 6) as u32 };
    shot(slot, first, 200, r)
}
