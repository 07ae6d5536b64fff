//! ieee: the root, f64 to f32, abs, max, finiteness, the total order, casts to whole numbers.
use crate::calls::{w32, w64, Area, Call, Words};
use crate::pic::Rng;
use crate::smaller::Layout;

pub const AREA: Area = Area { name: "ieee", stored, random, answer, layout: |_| Layout::heads(2) };

fn f64_of(low: u32, high: u32) -> f64 {
    f64::from_bits(low as u64 | (high as u64) << 32)
}

/// The rules' order: a NaN last, all equal; −0 before +0.
fn before(x: f32, y: f32) -> bool {
    !x.is_nan() && (y.is_nan() || x.total_cmp(&y).is_lt())
}

/// The rules' greater value: of −0 and +0 it is +0, of a NaN and a number the number.
fn most(x: f32, y: f32) -> f32 {
    if x == 0.0 && y == 0.0 { if x.is_sign_negative() { y } else { x } } else { x.max(y) }
}

fn call(kind: u32, a: u32, b: u32) -> Call {
    AREA.call(kind, vec![a, b])
}

fn answer(kind: u32, args: &[u32]) -> Option<Vec<u32>> {
    let mut words = Words(args);
    let [a, b] = words.heads()?;
    let (x, y, w) = (f32::from_bits(a), f32::from_bits(b), f64_of(a, b));
    words.ended(match kind {
        200 => vec![0, w32(x.sqrt())],
        201 => vec![0, w32(w as f32)],
        202 => vec![0, w32(x.abs())],
        203 => vec![&[0u32][..], &w64(w.abs())].concat(),
        204 => vec![0, w32(most(x, y))],
        205 => vec![0, x.is_finite() as u32],
        206 => vec![0, before(x, y) as u32],
        207 => vec![0, x as u32],
        _ => vec![0, x as u8 as u32],
    })
}

/// Zeros, subnormals, limits, powers of two and their neighbours, infinities, NaNs of either sign.
pub fn words() -> Vec<u32> {
    let mut o = vec![0, 1, 2, 3, 0x7f_fffe, 0x7f_ffff, 0x80_0000, 0x80_0001, 0x7f7f_fffe, 0x7f7f_ffff, 0x7f80_0000, 0x7f80_0001, 0x7fc0_0000, 0x7fff_ffff];
    for e in [1, 2, 3, 60, 100, 125, 126, 127, 128, 129, 130, 133, 134, 135, 149, 150, 151, 157, 158, 159, 160, 200, 253, 254] {
        for t in [0, 1, 0x3f_ffff, 0x40_0000, 0x7f_ffff] {
            o.push(e << 23 | t);
        }
    }
    let n = o.clone();
    o.extend(n.iter().map(|w| w | 0x8000_0000));
    o
}

/// f64 patterns round every f32 of `words`: the value itself, half a step off, and neighbours of both.
fn doubles() -> Vec<u64> {
    let mut o = Vec::new();
    for w in words() {
        let b = (f32::from_bits(w) as f64).to_bits();
        for d in [0i64, 1, -1, 0x0fff_ffff, 0x1000_0000, 0x1000_0001, -0x0fff_ffff, -0x1000_0000, -0x1000_0001] {
            o.push(b.wrapping_add(d as u64));
        }
    }
    // subnormal results: every place at which the last kept digit can stand, with ties
    for e in 0x35f..=0x382u64 {
        for t in [0, 1, 1 << 51, (1 << 51) + 1, (1 << 52) - 1, 3 << 50, 1 << 28, 1 << 29, 3 << 28] {
            o.extend([e << 52 | t, 1 << 63 | e << 52 | t]);
        }
    }
    o.extend([1, 0x000f_ffff_ffff_ffff, 0x0010_0000_0000_0000, 0x7fef_ffff_ffff_ffff, 0x7ff0_0000_0000_0000, 0x7ff0_0000_0000_0001, 0xfff8_0000_0000_0000]);
    o.extend([0x47ef_ffff_efff_ffff, 0x47ef_ffff_f000_0000, 0x47ef_ffff_f000_0001, 0x47f0_0000_0000_0000]);
    o
}

fn stored() -> Vec<Call> {
    let mut o = Vec::new();
    let all = words();
    for &w in &all {
        for kind in [200, 202, 205, 207, 208] {
            o.push(call(kind, w, 0));
        }
    }
    for v in [0.0f32, 0.5, 0.999, 1.0, 1.5, 254.9, 255.0, 255.5, 256.0, 4294967040.0, 4294967296.0, 1e10, -0.5, -1.0, -1e10] {
        for kind in [200, 207, 208] {
            o.push(call(kind, v.to_bits(), 0));
        }
    }
    for b in doubles() {
        o.push(call(201, b as u32, (b >> 32) as u32));
        o.push(call(203, b as u32, (b >> 32) as u32));
    }
    for &a in all.iter().step_by(7) {
        for &b in all.iter().step_by(5) {
            o.push(call(204, a, b));
            o.push(call(206, a, b));
        }
    }
    for a in [0, 0x8000_0000, 0x7fc0_0000, 0xffc0_0000, 0x7f80_0000, 0xff80_0000, 0x3f80_0000] {
        for b in [0, 0x8000_0000, 0x7fc0_0000, 0xffc0_0000, 0x7f80_0000, 0xff80_0000, 0x3f80_0000] {
            o.push(call(204, a, b));
            o.push(call(206, a, b));
        }
    }
    o
}

/// An f32 word: any pattern, a square's neighbour, or a special one.
pub fn word(r: &mut Rng) -> u32 {
    match r.below(6) {
        0 => words()[r.below(words().len() as u64) as usize],
        1 => {
            let x = r.range(0, 1 << 24) as f32;
            (x * x).to_bits().wrapping_add(r.range(-2, 2) as u32)
        }
        2 => (r.range(-4, 70000) as f32 * 0.5).to_bits(),
        _ => r.next() as u32,
    }
}

fn random(r: &mut Rng) -> Call {
    let kind = r.range(200, 208) as u32;
    if kind == 201 || kind == 203 {
        // near an f32, near the middle of two, or any pattern
        let b = match r.below(4) {
            0 => r.next(),
            1 => (f32::from_bits(word(r)) as f64).to_bits().wrapping_add(r.range(-2, 2) as u64),
            2 => (f32::from_bits(word(r)) as f64).to_bits().wrapping_add(0x1000_0000).wrapping_add(r.range(-2, 2) as u64),
            _ => (r.range(0x35e, 0x384) as u64) << 52 | (r.below(2) << 63) | (r.next() >> 12) >> r.below(52) << r.below(52) & 0x000f_ffff_ffff_ffff,
        };
        return call(kind, b as u32, (b >> 32) as u32);
    }
    let (a, b) = (word(r), word(r));
    call(kind, a, if r.chance(0.1) { a } else { b })
}
