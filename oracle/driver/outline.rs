//! The outline door, hull and quad.
use crate::calls::{Area, Call, Words, packed, w32};
use crate::pic::{self, Pic, Rng};
use crate::smaller::{Layout, Unit};
use lcr_decode::ring::{self, InkMap};

pub const AREA: Area = Area { name: "outline", stored, random, answer, layout };

/// What place k of a lent list holds before the call.
pub fn lent(k: usize) -> f32 {
    k as f32 + 0.25
}

/// A call of the outline door.
pub struct Outline {
    pub want: u32,
    pub w: u32,
    pub h: u32,
    pub bbox: [u32; 4],
    pub bytes: Vec<u8>,
    pub levels: Vec<u8>,
    pub labels: Vec<u32>,
    pub room: usize,
}

impl Outline {
    /// The whole picture's own grids, and a list with some room.
    pub fn of(p: &Pic, want: u32, bbox: [u32; 4], more: usize) -> Outline {
        let ink = InkMap::new(&p.g, p.w, p.h);
        let room = 4 * (bbox[2].saturating_sub(bbox[0]) + bbox[3].saturating_sub(bbox[1])) as usize + more;
        Outline { want, w: p.w, h: p.h, bbox, bytes: p.g.clone(), levels: ink.threshold, labels: ink.label, room }
    }

    /// The rules' checks: 1, 2, 5, 3.
    fn refusal(&self) -> u32 {
        let [x0, y0, x1, y1] = self.bbox;
        let side = |n: u32| (1..=4096).contains(&n);
        let cells = |n: u32| (n.div_ceil(16) as usize, n.div_ceil(8) as usize);
        if !side(self.w) || !side(self.h) {
            1
        } else if self.bytes.len() != (self.w * self.h) as usize {
            2
        } else if !(x0 < x1 && x1 <= self.w && y0 < y1 && y1 <= self.h) {
            5
        } else if self.levels.len() < cells(self.w).0 * cells(self.h).0
            || self.labels.len() < cells(self.w).1 * cells(self.h).1
            || self.room < 4 * ((x1 - x0) + (y1 - y0)) as usize
        {
            3
        } else {
            0
        }
    }

    pub fn args(&self) -> Vec<u32> {
        let [x0, y0, x1, y1] = self.bbox;
        let mut args = vec![self.want, self.w, self.h, x0, y0, x1, y1];
        args.extend([self.bytes.len() as u32, self.levels.len() as u32, self.labels.len() as u32, self.room as u32]);
        args.extend(packed(&self.bytes));
        args.extend(packed(&self.levels));
        args.extend(&self.labels);
        args
    }

    pub fn parse(args: &[u32]) -> Option<Outline> {
        let mut words = Words(args);
        let [want, w, h, x0, y0, x1, y1, n, g, l, room] = words.heads()?;
        let (bytes, levels, labels) = (words.bytes(n as usize)?, words.bytes(g as usize)?, words.take(l as usize)?.to_vec());
        words.ended(Outline { want, w, h, bbox: [x0, y0, x1, y1], bytes, levels, labels, room: room as usize })
    }

    fn call(&self, kind: u32) -> Call {
        AREA.call(kind, self.args())
    }

    /// 600: the number of points and the lent list, or the refusal. 601: the lent list.
    fn answer(&self, kind: u32) -> Vec<u32> {
        let [x0, y0, x1, y1] = self.bbox;
        let n = self.refusal();
        let mut list: Vec<f32> = (0..self.room).map(lent).collect();
        let mut points = 0;
        if n == 0 {
            let mut ink = InkMap::new(&self.bytes, self.w, self.h);
            let (a, b) = (ink.threshold.len(), ink.label.len());
            ink.threshold.copy_from_slice(&self.levels[..a]);
            ink.label.copy_from_slice(&self.labels[..b]);
            let label = if self.want == 0 { None } else { Some(self.want) };
            let p = ring::boundary_points(&ink, label, (x0, y0, x1, y1));
            points = p.len();
            for (k, q) in p.iter().enumerate() {
                list[2 * k] = q.0;
                list[2 * k + 1] = q.1;
            }
        }
        let list = list.iter().map(|&v| w32(v));
        match (kind, n) {
            (600, 0) => [0, points as u32].into_iter().chain(list).collect(),
            (600, n) => vec![n],
            _ => [0].into_iter().chain(list).collect(),
        }
    }
}

fn layout(kind: u32) -> Layout {
    match kind {
        600 | 601 => Layout::heads(11).grid(7, Unit::Byte, 1).grid(8, Unit::Byte, 16).grid(9, Unit::Word, 8).sides(1, 2).bbox(3),
        602 => Layout::heads(1).list(None, Unit::Word, 2),
        _ => Layout::heads(0).list(None, Unit::Word, 2),
    }
}

fn answer(kind: u32, args: &[u32]) -> Option<Vec<u32>> {
    match kind {
        600 | 601 => Some(Outline::parse(args)?.answer(kind)),
        602 => {
            let mut w = Words(args);
            let [m] = w.heads()?;
            Some(hull_words(&w.rest(), m as usize))
        }
        607 => Some(whole_words(&Words(args).rest())),
        _ => Some(quad_words(&Words(args).rest())),
    }
}

fn pairs(p: &[f32]) -> Vec<(f32, f32)> {
    p.chunks_exact(2).map(|c| (c[0], c[1])).collect()
}

/// The Rust's hull, with the rules' total order (every NaN last, all equal), which decides its start only.
fn hull(p: &[(f32, f32)]) -> Vec<(f32, f32)> {
    let plus: Vec<(f32, f32)> = p.iter().map(|q| (num(q.0), num(q.1))).collect();
    ring::convex_hull(&plus)
}

/// Every NaN as the positive one, which `total_cmp` puts last.
fn num(v: f32) -> f32 {
    if v.is_nan() { f32::from_bits(0x7fc0_0000) } else { v }
}

/// Hull and quad of points of pictures up to 1,024 a side, doubled: how many vertices, these, whether there is a quad, its corners.
fn whole_words(p: &[f32]) -> Vec<u32> {
    let vertices = hull(&pairs(p));
    let quad = ring::quad(&vertices);
    let twice = |q: &(f32, f32)| [(q.0 * 2.0) as u32, (q.1 * 2.0) as u32];
    let corners = quad.iter().flatten().flat_map(twice);
    [vertices.len() as u32].into_iter().chain(vertices.iter().flat_map(twice)).chain([quad.is_some() as u32]).chain(corners).collect()
}

fn hull_words(p: &[f32], m: usize) -> Vec<u32> {
    if m < p.len() {
        return vec![3];
    }
    let v = hull(&pairs(p));
    let mut list: Vec<f32> = (0..m).map(lent).collect();
    for (k, q) in v.iter().enumerate() {
        list[2 * k] = q.0;
        list[2 * k + 1] = q.1;
    }
    [0, v.len() as u32].into_iter().chain(list.iter().map(|&v| w32(v))).collect()
}

pub fn hull_call(p: &[f32], m: usize) -> Call {
    AREA.call(602, [m as u32].into_iter().chain(p.iter().map(|&v| w32(v))).collect())
}

fn quad_words(p: &[f32]) -> Vec<u32> {
    let plus: Vec<(f32, f32)> = pairs(p).iter().map(|q| (num(q.0), num(q.1))).collect();
    match ring::quad(&plus) {
        None => vec![0, 0],
        Some(q) => [0, 1].into_iter().chain(q.iter().flat_map(|c| [w32(c.0), w32(c.1)])).collect(),
    }
}

pub fn quad_call(p: &[f32]) -> Call {
    AREA.call(603, p.iter().map(|&v| w32(v)).collect())
}

/// A coordinate: small halves with repeats, halves up to 1,024, small whole numbers, or anything.
fn number(r: &mut Rng, kind: u64) -> f32 {
    match kind {
        0 => r.below(9) as f32 / 2.0,
        1 => r.below(2049) as f32 / 2.0,
        2 => f32::from_bits(r.next() as u32),
        3 => r.below(5) as f32 - 2.0,
        _ => [0.0, -0.0, 1.0, -1.0, 0.5, f32::NAN, f32::INFINITY, f32::NEG_INFINITY, 1e19, -1e19, 1e30, 3.0e38, 1e-40, 4096.0, 3588.5][r.below(15) as usize],
    }
}

/// A list of points, an odd number of numbers now and then.
fn points(r: &mut Rng) -> Vec<f32> {
    let kind = r.below(5);
    let n = if r.chance(0.05) { r.below(120) } else { r.below(14) };
    let mixed = r.chance(0.2);
    let odd = r.chance(0.05) as u64;
    (0..2 * n + odd).map(|_| { let k = if mixed { r.below(5) } else { kind }; number(r, k) }).collect()
}

/// A picture whose cells have some of their levels and labels changed.
fn outline(r: &mut Rng) -> Outline {
    let (w, h) = (r.range(1, 64) as u32, r.range(1, 64) as u32);
    let p = pic::generate(r.next(), w, h, r);
    let (x0, y0) = (r.below(w as u64) as u32, r.below(h as u64) as u32);
    let bbox = [x0, y0, x0 + 1 + r.below((w - x0) as u64) as u32, y0 + 1 + r.below((h - y0) as u64) as u32];
    let mut o = Outline::of(&p, r.below(4) as u32, bbox, r.below(6) as usize);
    if r.chance(0.7) {
        for t in o.levels.iter_mut() {
            if r.chance(0.3) {
                *t = r.next() as u8;
            }
        }
        for l in o.labels.iter_mut() {
            if r.chance(0.4) {
                *l = r.below(4) as u32;
            }
        }
    }
    match r.below(24) {
        0 => o.room = (r.below(4 * (w + h) as u64)) as usize,
        1 => { o.levels.pop(); }
        2 => { o.labels.pop(); }
        3 => { o.bytes.pop(); }
        4 => o.bbox[r.below(4) as usize] = r.range(0, 70) as u32,
        5 => o.w = [0, 1, 4096, 4097, w + 1][r.below(5) as usize],
        6 => o.h = [0, 1, 4096, 4097, h + 1][r.below(5) as usize],
        7 => o.levels.push(9),
        8 => o.labels.push(1),
        _ => {}
    }
    o
}

fn random(r: &mut Rng) -> Call {
    match r.below(7) {
        0 => outline(r).call(600),
        1 => outline(r).call(601),
        2 | 3 | 4 => {
            let p = points(r);
            let m = if r.chance(0.03) { r.below(p.len() as u64 + 1) as usize } else { p.len() + r.below(4) as usize };
            hull_call(&p, m)
        }
        _ => quad_call(&points(r)),
    }
}

/// The rules' example, its edges, small and wild lists, and random ones of every kind.
fn stored() -> Vec<Call> {
    let mut o = Vec::new();
    let mut example = Pic::new(64, 64, 255);
    example.rect(16, 16, 48, 48, 0);
    for kind in [600, 601] {
        for (want, bbox, more) in [(1, [16, 16, 48, 48], 0), (0, [0, 0, 64, 64], 5), (2, [16, 16, 48, 48], 1), (1, [20, 17, 64, 31], 0)] {
            o.push(Outline::of(&example, want, bbox, more).call(kind));
        }
        // each refusal, and two at once: 1 before 2 before 5 before 3
        for k in 0..16 {
            let mut c = Outline::of(&example, 1, [16, 16, 48, 48], 0);
            match k {
                0 => c.w = 0,
                1 => c.w = 4097,
                2 => c.h = 0,
                3 => { c.h = 4097; c.bytes.pop(); }
                4 => { c.bytes.pop(); }
                5 => { c.bytes.push(0); c.bbox[2] = 16; }
                6 => c.bbox[2] = 16,
                7 => c.bbox[2] = 65,
                8 => c.bbox[3] = 16,
                9 => { c.bbox[3] = 65; c.levels.pop(); }
                10 => c.bbox[0] = 48,
                11 => c.bbox[1] = 48,
                12 => { c.levels.pop(); }
                13 => { c.labels.pop(); }
                14 => c.room -= 1,
                _ => { c.room = 0; c.labels.clear(); }
            }
            o.push(c.call(kind));
        }
    }
    // runs of 3, 4 and 5 at every place of a line of 9, along rows and down columns
    for n in 3..=5i64 {
        for at in 0..=9 - n {
            for turned in [false, true] {
                let mut p = Pic::new(9, 9, 255);
                for i in at..at + n {
                    if turned { p.set(4, i, 0) } else { p.set(i, 4, 0) }
                }
                let mut c = Outline::of(&p, 0, [0, 0, 9, 9], 0);
                c.levels.fill(128);
                c.labels.fill(1);
                o.push(c.call(600));
            }
        }
    }
    // hulls and quads: the rules', collinear points, repeats, -0, NaN, single points, rounded products
    let lists: Vec<Vec<f32>> = vec![
        vec![],
        vec![3.0],
        vec![1.0, 1.0, 1.0, 1.0],
        vec![0.0, 0.0, 1.0, 0.0, 2.0, 0.0],
        vec![0.0, 0.0, 4.0, 0.0, 4.0, 4.0, 0.0, 4.0, 2.0, 0.0],
        vec![0.0, 0.0, 4.0, 0.0, 4.0, 4.0, 0.0, 4.0],
        vec![0.0, 1.0, 0.0, 9.0, 4.0, 4.0, -0.0, 5.0, 1.0, 5.0, 2.0, 5.0, 1.0, 4.0],
        vec![4096.0, 0.0, 0.0, 0.0, 3588.5, 3994.0, 500.0, 556.5],
        vec![0.5, 2.0, 0.5, 2.0, 3.0, 2.0, 1.5, 2.0, 3.0, 2.0],
        vec![f32::NAN, 1.0, 2.0, f32::NAN, 3.0, 4.0, f32::NAN, f32::NAN],
        vec![1e20, 0.0, 0.0, 1e20, -1e20, 0.0, 0.0, -1e20],
        vec![1e20, 1e20, -1e20, 1e20, 1e20, -1e20, -1e20, -1e20, 0.0, 3e20],
        vec![f32::INFINITY, 0.0, 0.0, f32::INFINITY, f32::NEG_INFINITY, 0.0, 0.0, f32::NEG_INFINITY],
        vec![-0.0, -0.0, 0.0, 0.0, 0.0, -0.0, -0.0, 0.0],
    ];
    for l in &lists {
        o.push(hull_call(l, l.len()));
        o.push(hull_call(l, l.len() + 3));
        o.push(quad_call(l));
    }
    o.push(hull_call(&lists[4], 9));
    let mut r = Rng(20);
    for _ in 0..400 {
        let p = points(&mut r);
        o.push(hull_call(&p, p.len() + 1));
        o.push(quad_call(&points(&mut r)));
    }
    for _ in 0..60 {
        o.push(outline(&mut r).call(600));
        o.push(outline(&mut r).call(601));
    }
    o
}
