//! transform: `from_quad`, `with_radial`, `apply`.
use crate::calls::{Area, Call, Words, w32};
use crate::ieee;
use crate::math::longs;
use crate::pic::Rng;
use crate::smaller::Layout;
use lcr_decode::transform::Transform;

pub const AREA: Area = Area { name: "transform", stored, random, answer, layout: |kind| Layout::heads([16, 24, 21][kind as usize % 100]) };

fn points(q: [f32; 8]) -> [(f32, f32); 4] {
    [0, 1, 2, 3].map(|i| (q[2 * i], q[2 * i + 1]))
}

fn bits(q: &[f32]) -> Vec<u32> {
    q.iter().map(|x| x.to_bits()).collect()
}

fn answer(kind: u32, args: &[u32]) -> Option<Vec<u32>> {
    let mut w = Words(args);
    if kind == 401 {
        let (m, radial, [u, v]) = (w.doubles(8)?, w.doubles(3)?, w.singles()?);
        let (x, y) = Transform { m: m.try_into().ok()?, radial: radial.try_into().ok()? }.apply(u, v);
        return w.ended(vec![0, w32(x), w32(y)]);
    }
    let found = Transform::from_quad(points(w.singles()?), points(w.singles()?));
    if kind == 400 {
        return w.ended(found.map_or(vec![0, 0], |t| [vec![0, 1], longs(&t.m)].concat()));
    }
    let ([cx, cy, kappa], [u, v]) = (w.singles()?, w.singles()?);
    w.ended(found.map_or(vec![0, 0], |t| {
        let t = t.with_radial(cx, cy, kappa);
        let (x, y) = t.apply(u, v);
        [vec![0, 1], longs(&t.m), longs(&t.radial), vec![w32(x), w32(y)]].concat()
    }))
}

fn from_quad(src: [f32; 8], dst: [f32; 8]) -> Call {
    AREA.call(400, [bits(&src), bits(&dst)].concat())
}

fn apply(m: [f64; 8], radial: [f64; 3], u: f32, v: f32) -> Call {
    AREA.call(401, [longs(&m), longs(&radial), bits(&[u, v])].concat())
}

fn whole(src: [f32; 8], dst: [f32; 8], lens: [f32; 3], u: f32, v: f32) -> Call {
    AREA.call(402, [bits(&src), bits(&dst), bits(&lens), bits(&[u, v])].concat())
}

/// Four corners: a square moved and bent a little, collinear ones, equal ones, whole numbers, any f32.
fn quad(r: &mut Rng) -> [f32; 8] {
    let how = r.below(8);
    let (s, ox, oy) = (r.unit() as f32 * 400.0 + 1.0, r.unit() as f32 * 1000.0, r.unit() as f32 * 1000.0);
    let mut q = [ox, oy, ox + s, oy, ox + s, oy + s, ox, oy + s];
    match how {
        0..=3 => q.iter_mut().for_each(|x| *x += (r.unit() as f32 - 0.5) * s * 0.3),
        4 => q = [0, 1, 2, 3, 4, 5, 6, 7].map(|_| r.range(-3, 3) as f32),
        5 => q = [0.0, 0.0, 1.0, 1.0, 2.0, 2.0, r.range(0, 3) as f32, r.range(0, 3) as f32],
        6 => q = [0; 8].map(|_| f32::from_bits(ieee::word(r))),
        _ => {
            let k = r.below(8) as usize;
            q[k] = f32::from_bits(ieee::word(r));
        }
    }
    q
}

fn lens(r: &mut Rng) -> [f32; 3] {
    match r.below(5) {
        0 => [0.0, 0.0, 0.0],
        1 => [10.0, 20.0, -0.0],
        2 => [0; 3].map(|_| f32::from_bits(ieee::word(r))),
        _ => [r.unit() as f32 * 1000.0, r.unit() as f32 * 1000.0, (r.unit() as f32 - 0.5) * 1e-6],
    }
}

fn place(r: &mut Rng) -> f32 {
    match r.below(8) {
        0 => f32::from_bits(ieee::word(r)),
        1..=3 => r.range(-5, 280) as f32 + 0.5,
        _ => r.unit() as f32 * 300.0 - 10.0,
    }
}

fn number(r: &mut Rng) -> f64 {
    match r.below(10) {
        0 => f64::from_bits(r.next()),
        1 => [0.0, -0.0, f64::NAN, f64::INFINITY, -f64::INFINITY, 1e-9, -1e-9, 9.9e-10, 1e-310, 3.5e38][r.below(10) as usize],
        2 => r.range(-3, 3) as f64,
        _ => r.unit() * 20.0 - 10.0,
    }
}

fn stored() -> Vec<Call> {
    let mut o = Vec::new();
    let mut r = Rng(20401);
    let unit = [0.0f32, 0.0, 1.0, 0.0, 1.0, 1.0, 0.0, 1.0];
    let side = unit.map(|x| x * 21.0);
    for d in [unit, side, [10.0, 12.0, 90.0, 9.0, 101.5, 99.0, 8.0, 88.5], [0.0; 8], [1.0, 1.0, 1.0, 1.0, 5.0, 5.0, 9.0, 9.0]] {
        o.push(from_quad(unit, d));
        o.push(from_quad(side, d));
        o.push(from_quad(d, side));
        for l in [[0.0; 3], [50.0, 50.0, 1e-6], [50.0, 50.0, -1e-6], [0.0, 0.0, -0.0], [1.0, 2.0, f32::NAN], [0.0, 0.0, 1e30]] {
            for (u, v) in [(0.0, 0.0), (0.5, 0.5), (-2.5, 20.5), (23.0, -3.0), (f32::NAN, 1.0), (f32::INFINITY, 0.0), (3e38, -3e38)] {
                o.push(whole(side, d, l, u, v));
            }
        }
    }
    // one corner of each kind of word, in each place
    for w in [0x8000_0000, 1, 0x7f80_0000, 0xff80_0000, 0x7fc0_0000, 0x7f7f_ffff, 0x3f80_0001] {
        for k in 0..8 {
            let mut q = side;
            q[k] = f32::from_bits(w);
            o.push(from_quad(q, side));
            o.push(from_quad(side, q));
        }
    }
    // the divisor's guard: just below, at and above 1e-9, of either sign, and NaN
    for w in [0.0, 1e-9, -1e-9, 9.999999e-10, 1.0000001e-9, 2e-9, -2e-9, 1e-30, f64::NAN, f64::INFINITY] {
        let m = [1.0, 2.0, 3.0, -1.0, 0.5, 7.0, w - 1.0, 0.0];
        o.push(apply(m, [0.0; 3], 1.0, 0.0));
        o.push(apply([1.0, 0.0, 0.0, 0.0, 1.0, 0.0, 0.0, w], [0.0; 3], 1.0, -1.0));
        o.push(apply([w, 0.0, 0.0, 0.0, 1.0, w, 0.0, 0.0], [3.0, 4.0, w], 1.0, -1.0));
    }
    // pixels at the limits of f32: subnormal, overflowing, ties
    for x in [1e-310, 1e-45, 7e-46, 1.1754943e-38, 3.4028235e38, 3.4028235677973366e38, 3.4028236e38, 1e300, -0.0, 16777217.0, 16777219.0, 0.1] {
        o.push(apply([0.0, 0.0, x, 0.0, 0.0, -x, 0.0, 0.0], [0.0; 3], 1.0, 1.0));
    }
    for _ in 0..400 {
        o.push(from_quad(quad(&mut r), quad(&mut r)));
        let (s, d, l) = (quad(&mut r), quad(&mut r), lens(&mut r));
        o.push(whole(s, d, l, place(&mut r), place(&mut r)));
        let (m, k) = ([0; 8].map(|_| number(&mut r)), [0; 3].map(|_| number(&mut r)));
        o.push(apply(m, k, place(&mut r), place(&mut r)));
    }
    o
}

fn random(r: &mut Rng) -> Call {
    match r.below(4) {
        0 => from_quad(quad(r), quad(r)),
        1 => {
            let mut k = [0; 3].map(|_| number(r));
            if r.chance(0.5) {
                k[2] = 0.0;
            }
            apply([0; 8].map(|_| number(r)), k, place(r), place(r))
        }
        _ => {
            let side = 17.0 + 4.0 * r.range(1, 64) as f32;
            let src = [0.0, 0.0, side, 0.0, side, side, 0.0, side];
            let (d, l) = (quad(r), lens(r));
            whole(if r.chance(0.7) { src } else { quad(r) }, d, l, place(r), place(r))
        }
    }
}
