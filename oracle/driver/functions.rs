//! The doors through their C functions, on inputs larger than a call by number takes: every answer, every lent list.
//! A function's entry is that of the same call by number and 10,000.
use crate::attempts;
use crate::calls::{Area, Call, w32};
use crate::cases::{case, outline as points_of};
use crate::finder::{self, Grids, Ring};
use crate::{border, find, finder_find, finder_leaves, listing, marks, math, pgm, transform};
use crate::outline::{self, Outline};
use crate::pic::{KINDS, Pic, Rng, draw_ring, generate};
use crate::picture;
use crate::smaller::Layout;
use lcr_decode::ring::InkMap;

pub const AREA: Area = Area { name: "functions", stored: Vec::new, random, answer, layout };
/// The split of one window, which has a C function only.
pub const SPLITS: Area = Area { name: "splits", stored: Vec::new, random: window, answer, layout };

fn layout(kind: u32) -> Layout {
    match kind {
        10500 => picture::layout(),
        10910 => attempts::layout(),
        _ => (home(kind).layout)(kind - 10000),
    }
}

/// The area of a function's call by number.
fn home(kind: u32) -> &'static Area {
    match kind {
        10100..10200 => &border::AREA,
        10300..10400 => &math::AREA,
        10400..10500 => &transform::AREA,
        10604 => &listing::AREA,
        10605 | 10606 => &pgm::AREA,
        10700..10800 => &marks::AREA,
        10920 | 10921 => &find::AREA,
        _ => &outline::AREA,
    }
}

fn answer(kind: u32, args: &[u32]) -> Option<Vec<u32>> {
    match kind {
        10500 => picture::whole(args),
        10600 => {
            let (a, list) = ((outline::AREA.answer)(600, args)?, (outline::AREA.answer)(601, args)?);
            Some([vec![a[0], if a[0] == 0 { a[1] } else { 0 }], list[1..].to_vec()].concat())
        }
        10700 => Some([(marks::AREA.answer)(700, args)?, (marks::AREA.answer)(701, args)?].concat()),
        10910 => Some([attempts::answer(910, args)?, attempts::answer(911, args)?].concat()),
        _ => (home(kind).answer)(kind - 10000, args),
    }
}

/// What a C function answers.
pub fn direct(kind: u32, args: &[u32]) -> Vec<u32> {
    match kind {
        10500 => picture_words(args),
        10600 => outline_words(args),
        10602 => hull_words(args),
        10603 => {
            let p = crate::calls::singles(args);
            finder::quad(&p).map_or(vec![0, 0], |q| [0, 1].into_iter().chain(q.map(w32)).collect())
        }
        10607 => finder::whole(&crate::calls::singles(args)),
        10910 => ring_words(args),
        10920 | 10921 => finder_find::direct(kind, args),
        _ => finder_leaves::direct(kind, args),
    }
}

/// The points that an accepted call of the outline door lists, or that a call of the hull is handed, as a call of hull and quad in
/// whole numbers: where they are halves from 0 to 1,024, on which the Rust is exact.
pub fn in_wholes(c: &Call) -> Option<Call> {
    let words = match (c.kind % 10000, &c.want[..]) {
        (600, [0, n, list @ ..]) => &list[..2 * *n as usize],
        (602, [0, ..]) => &c.args[1..],
        _ => return None,
    };
    let exact = |v: &f32| (0.0..=1024.0).contains(v) && (v * 2.0).fract() == 0.0 && v.is_sign_positive();
    let p = crate::calls::singles(words);
    (p.len() % 2 == 0 && p.len() <= 32768 && p.iter().all(exact)).then(|| AREA.call(10607, words.to_vec()))
}

fn picture_words(args: &[u32]) -> Vec<u32> {
    let mut words = crate::calls::Words(args);
    let [w, h, n, a, b, c] = words.heads().unwrap().map(|x| x as usize);
    let g = words.bytes(n).unwrap();
    let mut lent = Grids::of(a, b, c);
    let refused = lent.call(&g, w, h);
    // what an accepted call needs of the stack is open
    let open = if refused == 0 { picture::region_cells(w, h) } else { 0 };
    lent.stack[..open].fill(0);
    [vec![refused], lent.regions.to_vec(), crate::calls::packed(&lent.levels), lent.labels, lent.stack].concat()
}

fn outline_words(args: &[u32]) -> Vec<u32> {
    let o = Outline::parse(args).unwrap();
    let mut list: Vec<f32> = (0..o.room).map(outline::lent).collect();
    let (w, h) = (o.w as usize, o.h as usize);
    let n = finder::outline(&o.bytes, w, h, &o.levels, &o.labels, o.want, o.bbox.map(|x| x as usize), &mut list);
    let head = n.map_or_else(|k| [k, 0], |n| [0, n as u32]);
    head.into_iter().chain(list.into_iter().map(w32)).collect()
}

fn hull_words(args: &[u32]) -> Vec<u32> {
    let p = crate::calls::singles(&args[1..]);
    let lent: Vec<f32> = (0..args[0] as usize).map(outline::lent).collect();
    let mut list = lent.clone();
    match finder::hull(&p, &mut list) {
        Ok(n) => [0, n as u32].into_iter().chain(list.into_iter().map(w32)).collect(),
        Err(k) if list == lent => vec![k],
        Err(k) => vec![k, 1],
    }
}

fn ring_words(args: &[u32]) -> Vec<u32> {
    let (c, rooms) = attempts::parse(args).unwrap();
    let mut lent = Ring::of(rooms.map(|n| n as usize));
    let no = lent.call(&c.g, c.w as usize, c.h as usize, &c.nums, c.maxv);
    let past = if no == 0 { c.nums.len() } else { 0 };
    let left = lent.lists.iter().flat_map(|l| l[past.min(l.len())..].iter().map(|&x| w32(x)));
    lent.words().into_iter().chain([0, no]).chain(left).collect()
}

/// The generators' kinds, then cells far enough apart to be regions of their own, a slope of greys under shapes, and
/// pixels here and there.
fn wild(w: u32, h: u32, r: &mut Rng) -> Pic {
    let kind = r.below(KINDS + 3);
    if kind < KINDS {
        return generate(kind, w, h, r);
    }
    let mut p = Pic::new(w, h, 255);
    match kind - KINDS {
        0 => {
            let (step, size) = (r.range(32, 48), r.range(2, 8));
            for y in (0..h as i64).step_by(step as usize) {
                for x in (0..w as i64).step_by(step as usize) {
                    p.rect(x, y, x + size, y + size, 0);
                }
            }
        }
        1 => {
            let (a, b) = (r.range(0, 3) as u32, r.range(1, 3) as u32);
            for y in 0..h {
                for x in 0..w {
                    p.set(x as i64, y as i64, (40 + (a * x + b * y) * 215 / (a * w + b * h)) as u8);
                }
            }
            for _ in 0..r.range(1, 9) {
                let (x, y) = (r.range(0, w as i64), r.range(0, h as i64));
                p.rect(x, y, x + r.range(4, 90), y + r.range(4, 90), r.range(0, 60) as u8);
            }
        }
        _ => {
            let d = [0.0005, 0.002, 0.01, 0.03][r.below(4) as usize];
            p.g.iter_mut().for_each(|q| if r.chance(d) { *q = 0 });
        }
    }
    p
}

/// A picture of sides up to 300, at times up to 1,500, seldom up to 4,096.
fn wide(r: &mut Rng) -> Pic {
    let most = [300, 1500, 4096][if r.chance(0.9) { 0 } else if r.chance(0.95) { 1 } else { 2 }];
    let (w, h) = (r.range(1, most) as u32, r.range(1, most) as u32);
    wild(w, h, r)
}

/// The outline of a region, of all ink, or of a box, in a wide picture.
fn wide_outline(r: &mut Rng) -> Outline {
    let p = wide(r);
    let (kept, _) = InkMap::new(&p.g, p.w, p.h).regions();
    let (w, h) = (p.w as u64, p.h as u64);
    let (want, b) = match kept.first() {
        Some(k) if r.chance(0.5) => (k.label, [k.bbox.0, k.bbox.1, k.bbox.2, k.bbox.3]),
        _ if r.chance(0.5) => (0, [0, 0, p.w, p.h]),
        _ => {
            let (x, y) = (r.below(w), r.below(h));
            (r.below(3) as u32, [x, y, x + 1 + r.below(w - x), y + 1 + r.below(h - y)].map(|n| n as u32))
        }
    };
    Outline::of(&p, want, b, r.below(4) as usize)
}

/// A wide picture's outline, or points on a circle.
fn long_list(r: &mut Rng) -> Vec<f32> {
    if r.chance(0.7) {
        return points_of(&wide(r), r.chance(0.5)).iter().flat_map(|p| [p.0, p.1]).collect();
    }
    let n = if r.chance(0.1) { 16384 } else { r.range(3, 2000) };
    let (c, s, half) = (r.unit() * 2048.0, r.unit() * 2048.0, r.chance(0.5));
    let at = |v: f64| if half { (v * 2.0).round() as f32 / 2.0 } else { v as f32 };
    (0..n).flat_map(|i| { let a = i as f64 * 6.283185307 / n as f64; [at(c + s * a.cos()), at(c + s * a.sin())] }).collect()
}

fn window(r: &mut Rng) -> Call {
    SPLITS.call(10703, marks::window(r))
}

/// A random call of an area with cells, numbers, marks, records or files, by its C function.
fn leaf(r: &mut Rng) -> Call {
    let areas = [border::AREA.random, math::AREA.random, transform::AREA.random, marks::AREA.random, listing::any, pgm::AREA.random];
    loop {
        let c = areas[r.below(6) as usize](r);
        if ![107, 108, 701].contains(&c.kind) {
            return AREA.call(c.kind + 10000, c.args);
        }
    }
}

fn random(r: &mut Rng) -> Call {
    if r.chance(0.8) {
        return leaf(r);
    }
    match r.below(12) {
        0..=2 => {
            let mut args = picture::fits(&wide(r), r.below(5) as usize);
            if r.chance(0.05) {
                // a side or the length of a list that is one less
                let k = [0, 1, 3, 4, 5][r.below(5) as usize];
                args[k] -= 1;
            }
            AREA.call(10500, args)
        }
        3 | 4 => AREA.call(10600, wide_outline(r).args()),
        5 => {
            let p = long_list(r);
            let m = p.len() + r.below(3) as usize;
            AREA.call(10602, [m as u32].into_iter().chain(p.into_iter().map(w32)).collect())
        }
        6 => AREA.call(10603, long_list(r).into_iter().take(2000).map(w32).collect()),
        7 if r.chance(0.5) => AREA.call(10605, pgm::to_read(&pgm::file(&wide(r), 0, r))),
        7 => AREA.call(10606, pgm::to_write(&wide(r), r.range(-1, 9))),
        8 => {
            let most = if r.chance(0.9) { 300 } else { 1024 };
            let p = wild(r.range(1, most) as u32, r.range(1, most) as u32, r);
            AREA.call(10607, points_of(&p, r.chance(0.5)).iter().flat_map(|p| [p.0, p.1]).map(w32).collect())
        }
        9 | 10 => {
            let (kind, args) = find::some(r);
            AREA.call(kind + 10000, args)
        }
        _ => {
            let (_, c, rooms) = attempts::of(r);
            AREA.call(10910, attempts::args(&c, rooms))
        }
    }
}

/// A drawn ring of every version at each of the eight poses, both sides; how many are fixed as they were drawn.
pub fn poses() {
    let (mut count, mut fixed) = (0, 0);
    for v in 1..=64u8 {
        for pose in 0..8u32 {
            let n = 3 * (17 + 4 * v as u32 + 10);
            let p = draw_ring(v, 3, pose % 4, pose >= 4, n, n);
            let q = points_of(&p, true);
            let c = case(p, &q, 64);
            let call = attempts::trace(&c, [c.nums.len() as u32; 3]);
            let got = finder::by_number(910, &call.args);
            if got != call.want {
                println!("differs: version {v} pose {pose}\n  Rust   {:x?}\n  finder {:x?}", call.want, got);
                std::process::exit(1);
            }
            count += 1;
            fixed += (got[11] == 1 && got[12] == v as u32 && got[15] == (pose >= 4) as u32) as u32;
        }
    }
    println!("{count} drawn rings, 64 versions at 8 poses, 0 different, {fixed} fixed at their version and direction");
}
