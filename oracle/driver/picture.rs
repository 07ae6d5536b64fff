//! The picture door: level grid, labels and regions.
//!
//! A call lends lists whose places hold `lent` numbers, so that untouched places show. The Rust has no refusals and no
//! lent lists: the rules' checks are here, and places past those needed are expected as they were lent.
use crate::calls::{Area, Call, Words, packed};
use crate::pic::{KINDS, Pic, Rng, generate, moved};
use crate::smaller::{Layout, Unit};
use lcr_decode::ring::InkMap;

pub const AREA: Area = Area { name: "picture", stored, random, answer, layout: |_| layout() };

/// What a place of a lent list holds before the call.
pub fn lent8(k: usize) -> u8 {
    (k * 7 + 3) as u8
}

pub fn lent32(k: usize) -> u32 {
    (k as u32).wrapping_mul(0x9e37_79b1) | 1
}

pub fn level_cells(w: usize, h: usize) -> usize {
    w.div_ceil(16) * h.div_ceil(16)
}

pub fn region_cells(w: usize, h: usize) -> usize {
    w.div_ceil(8) * h.div_ceil(8)
}

/// The rules' checks 1, 2 and 3.
fn refusal(w: usize, h: usize, bytes: usize, grid: usize, labels: usize, stack: usize) -> u32 {
    let side = |n: usize| (1..=4096).contains(&n);
    if !side(w) || !side(h) {
        1
    } else if bytes != w * h {
        2
    } else if grid < level_cells(w, h) || labels < region_cells(w, h) || stack < region_cells(w, h) {
        3
    } else {
        0
    }
}

/// All regions, kept, and four times label, cells, left, top, right, bottom.
fn regions(ink: &InkMap) -> Vec<u32> {
    let (kept, all) = ink.regions();
    let mut o = vec![all as u32, kept.len() as u32];
    for r in &kept {
        o.extend([r.label, r.cells as u32, r.bbox.0, r.bbox.1, r.bbox.2, r.bbox.3]);
    }
    o.resize(26, 0);
    o
}

/// What the call leaves: the number, the regions, the level grid, the labels. The stack's needed places are open.
struct Outcome {
    refused: u32,
    regions: Vec<u32>,
    grid: Vec<u8>,
    labels: Vec<u32>,
}

impl Outcome {
    fn lists(&self, w: usize, h: usize, stack: usize) -> Vec<u32> {
        let open = if self.refused == 0 { region_cells(w, h) } else { 0 };
        let left = (0..stack).map(|k| if k < open { 0 } else { lent32(k) });
        [packed(&self.grid), self.labels.clone(), left.collect()].concat()
    }
}

fn outcome(s: &[u8], w: usize, h: usize, grid: usize, labels: usize, stack: usize) -> Outcome {
    let refused = refusal(w, h, s.len(), grid, labels, stack);
    let mut o = Outcome { refused, regions: vec![0; 26], grid: (0..grid).map(lent8).collect(), labels: (0..labels).map(lent32).collect() };
    if refused == 0 {
        let ink = InkMap::new(s, w as u32, h as u32);
        o.regions = regions(&ink);
        o.grid[..ink.threshold.len()].copy_from_slice(&ink.threshold);
        o.labels[..ink.label.len()].copy_from_slice(&ink.label);
    }
    o
}

pub fn layout() -> Layout {
    Layout::heads(6).grid(2, Unit::Byte, 1).sides(0, 1)
}

/// 500: the answer. 501: the lists after the call, refused or not; the needed places of an accepted call's stack as 0.
fn answer(kind: u32, args: &[u32]) -> Option<Vec<u32>> {
    let mut words = Words(args);
    let [w, h, n, grid, labels, stack] = words.heads()?.map(|x| x as usize);
    let s = words.bytes(n)?;
    let o = outcome(&s, w, h, grid, labels, stack);
    words.ended(if kind == 501 {
        [vec![0, o.refused], o.lists(w, h, stack)].concat()
    } else if o.refused != 0 {
        vec![o.refused]
    } else {
        [vec![0], o.regions].concat()
    })
}

/// Answer and lists at once: the number, the regions (of an accepted call), the lists. For the C function.
pub fn whole(args: &[u32]) -> Option<Vec<u32>> {
    let mut words = Words(args);
    let [w, h, n, grid, labels, stack] = words.heads()?.map(|x| x as usize);
    let o = outcome(&words.bytes(n)?, w, h, grid, labels, stack);
    let lists = o.lists(w, h, stack);
    words.ended([vec![o.refused], o.regions, lists].concat())
}

fn call(kind: u32, s: &[u8], w: usize, h: usize, grid: usize, labels: usize, stack: usize) -> Call {
    AREA.call(kind, args(s, w, h, grid, labels, stack))
}

fn args(s: &[u8], w: usize, h: usize, grid: usize, labels: usize, stack: usize) -> Vec<u32> {
    [[w, h, s.len(), grid, labels, stack].map(|x| x as u32).to_vec(), packed(s)].concat()
}

/// The words of a call whose lists have the places that it needs and some more.
pub fn fits(p: &Pic, spare: usize) -> Vec<u32> {
    let (w, h) = (p.w as usize, p.h as usize);
    args(&p.g, w, h, level_cells(w, h) + spare, region_cells(w, h) + spare, region_cells(w, h) + spare)
}

fn fitting(kind: u32, p: &Pic, spare: usize) -> Call {
    AREA.call(kind, fits(p, spare))
}

/// The picture of the rules' listing.
fn square() -> Pic {
    let mut p = Pic::new(64, 64, 255);
    p.rect(16, 16, 48, 48, 0);
    p
}

/// Two squares of 16 cells each: equal counts, told apart by their labels alone.
fn pair() -> Pic {
    let mut p = Pic::new(96, 32, 255);
    p.rect(0, 0, 32, 32, 0);
    p.rect(64, 0, 96, 32, 0);
    p
}

/// Nine groups of cells, each of 14 to 20: dropped below 16, equal counts among them, and more than four to keep.
fn crowd(r: &mut Rng) -> Pic {
    let mut p = Pic::new(160, 160, 255);
    for g in 0..9 {
        let (x, y) = (56 * (g % 3), 64 * (g / 3));
        for c in 0..r.range(14, 20) {
            p.rect(x + 8 * (c % 4), y + 8 * (c / 4), x + 8 * (c % 4) + 8, y + 8 * (c / 4) + 8, 0);
        }
    }
    p
}

fn stored() -> Vec<Call> {
    let mut o = vec![fitting(500, &square(), 0), fitting(501, &square(), 3)];
    // every kind of picture at several sides, among them 1, odd ones, and the greatest of the listing
    for (i, (w, h)) in [(1, 1), (1, 160), (160, 1), (7, 9), (16, 16), (17, 15), (33, 64), (80, 48), (95, 129), (160, 160)].into_iter().enumerate() {
        for kind in 0..KINDS {
            if (kind as usize + i) % 3 == 0 || w * h < 2000 {
                let mut r = Rng(1000 * i as u64 + kind);
                let p = generate(kind, w, h, &mut r);
                o.push(fitting(500, &p, 0));
                o.push(fitting(501, &p, 2));
            }
        }
    }
    // equal counts, in all eight positions: which region comes first does not move with the picture
    for m in 0..8 {
        o.push(fitting(500, &moved(&pair(), m), 0));
    }
    for i in 0..6 {
        let p = crowd(&mut Rng(i));
        o.push(fitting(500, &p, 0));
        o.push(fitting(501, &p, 5));
    }
    // refusals, in order, and the lists after them
    let p = square();
    for kind in [500, 501] {
        for (w, h) in [(0, 64), (64, 0), (4097, 1), (1, 4097), (0, 0), (4096, 2), (63, 64), (64, 65)] {
            o.push(call(kind, &p.g, w, h, 20, 70, 70));
        }
        for (g, l, k) in [(15, 64, 64), (16, 63, 64), (16, 64, 63), (0, 0, 0), (16, 64, 64), (15, 63, 63)] {
            o.push(call(kind, &p.g, 64, 64, g, l, k));
        }
        o.push(call(kind, &p.g[..4095], 64, 64, 16, 64, 64));
        o.push(call(kind, &[], 64, 64, 0, 0, 0));
    }
    o
}

fn random(r: &mut Rng) -> Call {
    let kind = 500 + r.below(2) as u32;
    let (w, h) = if r.chance(0.3) { (r.range(1, 40) as u32, r.range(1, 40) as u32) } else { (r.range(1, 160) as u32, r.range(1, 160) as u32) };
    let p = generate(r.below(KINDS), w, h, r);
    if r.chance(0.9) {
        return fitting(kind, &p, r.below(9) as usize);
    }
    let near = |n: usize, r: &mut Rng| (n as i64 + r.range(-2, 2)).max(0) as usize;
    let (w, h) = (w as usize, h as usize);
    let (g, l, k) = (near(level_cells(w, h), r), near(region_cells(w, h), r), near(region_cells(w, h), r));
    let (v, u) = if r.chance(0.3) { (near(w, r), near(h, r)) } else { (w, h) };
    call(kind, &p.g, v, u, g, l, k)
}
