//! The ring door's calls: `attempt` on pictures and points of many kinds.
use crate::att::{Case, pairs, refused};
use crate::calls::{Area, Call, Words, packed, start, w32, w64};
use crate::cases::{rooms, some};
use crate::pic::Rng;
use crate::ring as door;
use crate::skips;
use crate::smaller::{Layout, Unit};
use lcr_core::version::Version;
use lcr_decode::ring::{RingFix, RingTrace};

pub const AREA: Area = Area { name: "attempt", stored, random, answer, layout: |_| layout() };

/// A ring in words: 1, version, agreement, corner order, the transform; or words 0.
fn fix_words(f: &Option<RingFix>, t: &RingTrace) -> Vec<u32> {
    let Some(f) = f else { return vec![0; 27] };
    let s = t.scores.iter().find(|s| s.0 == f.version).unwrap();
    let mut o = vec![1, f.version.get() as u32, w32(f.agreement), s.2 as u32, s.3 as u32];
    o.extend(f.transform.m.iter().chain(&f.transform.radial).flat_map(|&x| w64(x)));
    o
}

pub fn trace_words(t: &RingTrace) -> Vec<u32> {
    let mut o = vec![0, t.hull_len as u32];
    match &t.quad {
        None => o.extend([0; 9]),
        Some(q) => o.extend([1].into_iter().chain(q.iter().flat_map(|p| [w32(p.0), w32(p.1)]))),
    }
    o.extend(fix_words(&t.fix, t));
    o.extend(fix_words(&t.fallback, t));
    o.extend(door::scores(&t.scores));
    o
}

pub fn args(c: &Case, rooms: [u32; 3]) -> Vec<u32> {
    let mut o = vec![c.w, c.h, c.maxv, c.g.len() as u32, c.nums.len() as u32, rooms[0], rooms[1], rooms[2]];
    o.extend(packed(&c.g));
    o.extend(c.nums.iter().map(|&x| w32(x)));
    o
}

pub fn traced(c: &Case) -> RingTrace {
    skips::attempt(&c.g, c.w, c.h, &pairs(&c.nums), Version::new_unchecked(c.maxv as u8))
}

pub fn layout() -> Layout {
    Layout::heads(8).grid(3, Unit::Byte, 1).list(Some(4), Unit::Word, 2).sides(0, 1)
}

/// A call's case and the lengths of its working lists.
pub fn parse(args: &[u32]) -> Option<(Case, [u32; 3])> {
    let mut words = Words(args);
    let [w, h, maxv, n, m, a, b, c] = words.heads()?;
    let g = words.bytes(n as usize)?;
    let nums = words.take(m as usize)?.iter().map(|&x| f32::from_bits(x)).collect();
    words.ended((Case { w, h, maxv, g, nums }, [a, b, c]))
}

/// 910: the trace, or the refusal. 911: what the call leaves of its working lists past the places that it needs.
pub fn answer(kind: u32, args: &[u32]) -> Option<Vec<u32>> {
    let (c, rooms) = parse(args)?;
    let no = refused(&c, rooms);
    if kind == 910 {
        return Some(no.map_or_else(|| trace_words(&traced(&c)), |n| vec![n]));
    }
    let past = if no.is_some() { 0 } else { c.nums.len() as u32 };
    let left = rooms.into_iter().flat_map(|n| (past..n).map(|k| w32((k % 1000) as f32)));
    Some([0, no.unwrap_or(0)].into_iter().chain(left).collect())
}

/// The trace of a call.
pub fn trace(c: &Case, rooms: [u32; 3]) -> Call {
    AREA.call(910, args(c, rooms))
}

/// What a call leaves of its working lists.
fn left(c: &Case, rooms: [u32; 3]) -> Call {
    AREA.call(911, args(c, rooms))
}

/// Case i of a seed, as `compare attempt` makes it.
pub fn nth(seed: u64, i: u64) -> (&'static str, Case, [u32; 3]) {
    of(&mut start(seed, i))
}

pub fn of(r: &mut Rng) -> (&'static str, Case, [u32; 3]) {
    let (kind, c) = some(r, 220);
    let rooms = rooms(&c, r);
    (kind, c, rooms)
}

/// Case i of a seed, as the program `attempt` reads it.
pub fn bytes(seed: u64, i: u64) -> Vec<u8> {
    crate::att::encode(&nth(seed, i).1)
}

fn random(r: &mut Rng) -> Call {
    let (_, c, rooms) = of(r);
    // the list of an answer by number has 16,384 places
    let short = rooms.iter().map(|&n| n as usize).sum::<usize>() < 16000 || (refused(&c, rooms).is_none() && c.nums.len() < 32000);
    if short && r.chance(0.3) { left(&c, rooms) } else { trace(&c, rooms) }
}

/// The case that stands for a number among those that are stored.
pub fn small(i: u64) -> (&'static str, Case, [u32; 3]) {
    let mut r = Rng(910 + i);
    let (kind, c) = some(&mut r, 110);
    let rooms = rooms(&c, &mut r);
    (kind, c, rooms)
}

/// Two small cases of each kind and of each way through the door, as `picks` found them.
#[rustfmt::skip]
const PICKED: &[u64] = &[
    0, 1, 2, 3, 4, 5, 6, 7, 8, 9, 10, 11, 12, 13, 14, 15, 16, 17, 18, 20, 21, 22, 25, 26,
    27, 28, 31, 39, 45, 51, 52, 59, 62, 73, 78, 82, 84, 90, 93, 98, 104, 108, 109, 118, 120, 123, 139, 144,
    153, 178, 232, 233, 252, 270, 302, 319, 363, 446, 448, 690, 807, 907, 958, 975, 1186, 1667, 1982, 2184, 2353,
];

/// The picked cases' traces, and their working lists.
fn stored() -> Vec<Call> {
    let mut o = Vec::new();
    for &i in PICKED {
        let (_, c, rooms) = small(i);
        o.push(trace(&c, rooms));
        let l = left(&c, rooms);
        if l.want.len() < 4000 {
            o.push(l);
        }
    }
    o
}
