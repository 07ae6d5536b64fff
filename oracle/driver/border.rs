//! lcr_core: versions, ring marks, cells and positions.
use crate::calls::{Area, Call, Words};
use crate::pic::Rng;
use crate::smaller::Layout;
use lcr_core::border;
use lcr_core::version::Version;

pub const AREA: Area = Area { name: "border", stored, random, answer, layout: |_| Layout::heads(3) };

/// The rules' checks of cells: 8, then 12.
fn refusal(kind: u32, v: u32, x: i32, y: i32) -> Option<u32> {
    let range = -32768..=32767;
    if kind == 108 && !(1..=64).contains(&v) {
        Some(0)
    } else if kind != 107 && !(1..=64).contains(&v) {
        Some(8)
    } else if (101..=103).contains(&kind) && !(range.contains(&x) && range.contains(&y)) {
        Some(12)
    } else {
        None
    }
}

fn pair(c: (i32, i32)) -> Vec<u32> {
    vec![0, c.0 as u32, c.1 as u32]
}

fn call(kind: u32, v: u32, a: u32, b: u32) -> Call {
    AREA.call(kind, vec![v, a, b])
}

fn answer(kind: u32, args: &[u32]) -> Option<Vec<u32>> {
    let mut w = Words(args);
    let [v, a, b] = w.heads()?;
    w.ended(match refusal(kind, v, a as i32, b as i32) {
        Some(0) => vec![0, 0],
        Some(n) => vec![n],
        None => accepted(kind, v, a, b),
    })
}

fn accepted(kind: u32, v: u32, a: u32, b: u32) -> Vec<u32> {
    let (x, y) = (a as i32, b as i32);
    let p = a as usize + ((b as usize) << 32);
    let side = if kind == 107 { 21 } else { Version::new_unchecked(v as u8).side() };
    match kind {
        100 => vec![0, side as u32, border::positions(side) as u32],
        101 => vec![0, border::shell(x, y, side) as u32],
        102 => {
            let (e, t) = border::edge_and_offset(x, y, side);
            vec![0, e as u32, t as u32]
        }
        103 => border::position(x, y, side).map_or(vec![0, 0], |p| vec![0, 1, p as u32]),
        104 => pair(border::outer_cell(p, side)),
        105 => pair(border::inner_cell(p, side)),
        106 => vec![0, border::sequence_light(side, p) as u32],
        107 => vec![0, border::is_two_deep(p) as u32],
        _ => vec![0, (0..32).map(|k| (border::sequence_light(side, p % 65536 + k) as u32) << k).sum()],
    }
}

/// Every version: its sides, every mark, corners and their neighbours, the cells round each corner;
/// limits and refusals.
fn stored() -> Vec<Call> {
    let mut o = Vec::new();
    for v in (0..=66).chain([127, 128, 255, 256, 257, 320, u32::MAX]) {
        o.push(call(100, v, 0, 0));
    }
    for v in 1..=64u32 {
        let (n, q, side) = (16 * v + 88, 4 * v + 22, 17 + 4 * v as i32);
        for p in (0..n).step_by(32) {
            o.push(call(108, v, p, 0));
        }
        let near = [0, 1, 2, q - 1, q, q + 1, 2 * q - 1, 2 * q, 2 * q + 1, 3 * q - 1, 3 * q, 3 * q + 1, n - 1, n, n + 1, 5 * n];
        for p in near {
            for kind in 104..=107 {
                o.push(call(kind, v, p, 0));
            }
        }
        for (x, y) in [(-3, -3), (-2, -2), (-3, -2), (-2, -3), (-1, -1), (0, 0), (side + 2, -3), (side + 1, -2), (side + 2, side + 2),
                       (side + 1, side + 1), (side, side), (-3, side + 2), (-4, 0), (0, side + 3), (side / 2, side + 1), (-2, side / 2)] {
            for kind in 101..=103 {
                o.push(call(kind, v, x as u32, y as u32));
            }
        }
    }
    for v in [0, 1, 64, 65, 200, 257] {
        for (x, y) in [(-32768, 0), (-32769, 0), (32767, 5), (32768, 5), (0, -32768), (0, -32769), (7, 32767), (7, 32768), (i32::MIN, i32::MAX), (i32::MAX, i32::MIN)] {
            for kind in 101..=103 {
                o.push(call(kind, v, x as u32, y as u32));
            }
        }
        for kind in 104..=107 {
            for p in [0, 1, 2, 3, 17, u32::MAX] {
                for high in [0, 1, u32::MAX] {
                    o.push(call(kind, v, p, high));
                }
            }
        }
    }
    o
}

/// A number that is mostly no version, now and then past a byte.
fn odd(r: &mut Rng) -> u32 {
    if r.chance(0.5) { r.below(258) as u32 } else { r.next() as u32 }
}

fn random(r: &mut Rng) -> Call {
    let kind = r.range(100, 108) as u32;
    let v = if r.chance(0.05) { odd(r) } else { r.range(1, 64) as u32 };
    let side = 17 + 4 * v as i64;
    if kind < 104 {
        let mut c = || match r.below(8) {
            0 => r.next() as u32,
            1 => r.range(-40000, 40000) as u32,
            2 => r.range(-5, 2) as u32,
            3 => r.range(side - 2, side + 5) as u32,
            _ => r.range(-8, side + 8) as u32,
        };
        return call(kind, v, c(), c());
    }
    let high = if r.chance(0.1) { r.next() as u32 } else { 0 };
    let p = if r.chance(0.2) { r.next() as u32 } else { r.below(3000) as u32 };
    call(kind, v, p, high)
}
