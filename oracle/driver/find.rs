//! The finder's entries, 920 `find` and 921 `tags`: the Rust's `trace`, and the tags by the Rust's own functions.
//!
//! A call's words: the sides, the greatest version, how many bytes, the lengths of the seven lent lists, the bytes. An answer's:
//! the refusal or 0, whether a refused call has written to an out-parameter, then every number that the C function answers,
//! to the bit, and what it leaves of the lists.
use crate::calls::{Area, Call, Words, packed, w32, w64};
use crate::looks::Q;
use crate::pic::{Pic, Rng};
use crate::picture::{lent8, lent32, level_cells, region_cells};
use crate::skips;
use crate::smaller::{Layout, Unit};
use crate::trays;
use lcr_core::version::Version;
use lcr_decode::ring::{self, InkMap, RingFix, RingTrace};

pub const AREA: Area = Area { name: "find", stored: Vec::new, random, answer, layout: |_| layout() };

fn layout() -> Layout {
    Layout::heads(11).grid(3, Unit::Byte, 1).sides(0, 1)
}

/// The places that a picture needs of levels, labels, stack, points, straight, cand and buf.
pub fn needs(w: usize, h: usize) -> [usize; 7] {
    let four = 4 * (w + h);
    [level_cells(w, h), region_cells(w, h), region_cells(w, h), four, four, four, four]
}

/// A call: the bytes, the sides and the greatest version as they are said, and the lengths of the lent lists.
#[derive(Clone)]
pub struct Asked {
    pub g: Vec<u8>,
    pub w: usize,
    pub h: usize,
    pub most: u32,
    pub rooms: [usize; 7],
}

impl Asked {
    /// A call whose lists have the places that it needs, at times some more.
    pub fn of(p: &Pic, most: u32, r: &mut Rng) -> Asked {
        let (w, h) = (p.w as usize, p.h as usize);
        let rooms = needs(w, h).map(|n| n + (r.below(4) * r.below(50)) as usize);
        Asked { g: p.g.clone(), w, h, most, rooms }
    }

    fn parse(args: &[u32]) -> Option<Asked> {
        let mut words = Words(args);
        let [w, h, most, n, rooms @ ..] = words.heads::<11>()?;
        let g = words.bytes(n as usize)?;
        words.ended(Asked { g, w: w as usize, h: h as usize, most, rooms: rooms.map(|n| n as usize) })
    }

    pub fn args(&self) -> Vec<u32> {
        let mut o = vec![self.w as u32, self.h as u32, self.most, self.g.len() as u32];
        o.extend(self.rooms.map(|n| n as u32));
        o.extend(packed(&self.g));
        o
    }

    /// The checks in their order: 1, a side; 2, the bytes; 3, a lent list; 8, the greatest version.
    pub fn refusal(&self) -> u32 {
        let side = |n: usize| (1..=4096).contains(&n);
        if !side(self.w) || !side(self.h) {
            1
        } else if self.g.len() != self.w * self.h {
            2
        } else if self.rooms.iter().zip(needs(self.w, self.h)).any(|(&n, need)| n < need) {
            3
        } else if !(1..=64).contains(&self.most) {
            8
        } else {
            0
        }
    }

    /// The same call with something that is refused, at times two such things.
    pub fn broken(mut self, r: &mut Rng) -> Asked {
        let needs = needs(self.w, self.h);
        for _ in 0..if r.chance(0.3) { 2 } else { 1 } {
            match r.below(8) {
                0 => self.w = [0, 4097, 4098, 65536 + self.w, u32::MAX as usize][r.below(5) as usize],
                1 => self.h = [0, 4097, 4098, 65536 + self.h, u32::MAX as usize][r.below(5) as usize],
                2 => self.g.push(9),
                3 => drop(self.g.pop()),
                4 | 5 => { let k = r.below(7) as usize; self.rooms[k] = needs[k] - 1 }
                _ => self.most = [0, 65, 256, 257, 65537, 1 << 31, u32::MAX][r.below(7) as usize],
            }
        }
        self
    }
}

/// The lent lists, whose places hold marks before a call: levels, labels, stack; points, straight, cand and buf.
#[derive(Clone, PartialEq)]
pub struct Lists {
    pub levels: Vec<u8>,
    pub labels: Vec<u32>,
    pub stack: Vec<u32>,
    pub four: [Vec<f32>; 4],
}

impl Lists {
    pub fn lent(rooms: [usize; 7]) -> Lists {
        Lists {
            levels: (0..rooms[0]).map(lent8).collect(),
            labels: (0..rooms[1]).map(lent32).collect(),
            stack: (0..rooms[2]).map(lent32).collect(),
            four: [3, 4, 5, 6].map(|k| (0..rooms[k]).map(|i| (i % 1000) as f32 - 1000.0 * k as f32).collect()),
        }
    }

    /// What a call leaves: of a refused one every place; of an accepted one levels and labels, and of the other lists, whose
    /// needed places are open, those past them.
    pub fn words(&self, a: &Asked, refused: u32) -> Vec<u32> {
        let open = if refused == 0 { needs(a.w, a.h) } else { [0; 7] };
        let mut o = packed(&self.levels);
        o.extend(&self.labels);
        o.extend(self.stack.iter().skip(open[2]));
        self.four.iter().zip(&open[3..]).for_each(|(l, &n)| o.extend(l.iter().skip(n).map(|&x| w32(x))));
        o
    }
}

/// A tag: version, fraction of positions that agree, whether it runs anticlockwise, and the corners of the outer square in
/// pixels, that of position 0 first, then along rising positions.
#[derive(Clone, Debug, PartialEq)]
pub struct Tag {
    pub version: u8,
    pub agreement: f32,
    pub mirrored: bool,
    pub corners: Q,
}

/// The tag of a trace's fix.
pub fn tag(t: &RingTrace) -> Option<Tag> {
    let f = t.fix.as_ref()?;
    let (lo, hi) = (-3.0, f.version.side() as f32 + 3.0);
    let corners = [(lo, lo), (hi, lo), (hi, hi), (lo, hi)].map(|(u, v)| f.transform.apply(u, v));
    let mirrored = t.scores.iter().find(|s| s.0 == f.version).unwrap().3;
    Some(Tag { version: f.version.get(), agreement: f.agreement, mirrored, corners })
}

/// The tags of the kept regions' own fixes, in the regions' order.
fn own(p: (&[u8], u32, u32), ink: &InkMap, most: Version) -> Vec<Tag> {
    let attempt = |r: &ring::Region| skips::attempt(p.0, p.1, p.2, &ring::boundary_points(ink, Some(r.label), r.bbox), most);
    ink.regions().0.iter().filter_map(|r| tag(&attempt(r))).collect()
}

/// The tags of a picture: the kept regions' own; where there is none, that of what the Rust finds.
pub fn tags(g: &[u8], w: u32, h: u32, most: u32) -> Vec<Tag> {
    let most = Version::new_unchecked(most as u8);
    let own = own((g, w, h), &InkMap::new(g, w, h), most);
    if own.is_empty() { tag(&skips::trace(g, w, h, most)).into_iter().collect() } else { own }
}

/// What the Rust finds in a picture.
pub struct Seen {
    pub trace: RingTrace,
    /// of the kept regions
    pub own: Vec<Tag>,
    levels: Vec<u8>,
    labels: Vec<u32>,
}

impl Seen {
    pub fn of(a: &Asked) -> Seen {
        let (w, h, most) = (a.w as u32, a.h as u32, Version::new_unchecked(a.most as u8));
        let ink = InkMap::new(&a.g, w, h);
        let own = own((&a.g, w, h), &ink, most);
        Seen { trace: skips::trace(&a.g, w, h, most), own, levels: ink.threshold, labels: ink.label }
    }

    /// As `tags` has them.
    pub fn tags(&self) -> Vec<Tag> {
        if self.own.is_empty() { tag(&self.trace).into_iter().collect() } else { self.own.clone() }
    }

    /// What a call of an entry is to answer.
    pub fn words(&self, kind: u32, a: &Asked) -> Vec<u32> {
        let mut lists = Lists::lent(a.rooms);
        lists.levels[..self.levels.len()].copy_from_slice(&self.levels);
        lists.labels[..self.labels.len()].copy_from_slice(&self.labels);
        let said = if kind == 920 { trace_words(&self.trace) } else { tags_words(&self.tags()) };
        [vec![0, 0], said, lists.words(a, 0)].concat()
    }
}

/// The fifteen numbers of a ring, 0 where there is none.
fn fifteen(f: &Option<RingFix>, t: &RingTrace) -> Vec<u32> {
    let Some(f) = f else { return vec![0; 30] };
    let s = t.scores.iter().find(|s| s.0 == f.version).unwrap();
    let head = [f.version.get() as f64, f.agreement as f64, s.2 as f64, s.3 as u8 as f64];
    head.iter().chain(&f.transform.m).chain(&f.transform.radial).flat_map(|&x| w64(x)).collect()
}

/// Regions, vertices, whether there is a quad, its eight numbers, how many scores, 256 numbers of them, fix and fallback.
pub fn trace_words(t: &RingTrace) -> Vec<u32> {
    let mut o = vec![t.regions as u32, t.hull_len as u32, t.quad.is_some() as u32];
    o.extend(t.quad.iter().flatten().flat_map(|p| [w32(p.0), w32(p.1)]));
    o.resize(11, 0);
    o.push(t.scores.len() as u32);
    o.extend(t.scores.iter().flat_map(|s| [s.0.get() as f32, s.1, s.2 as f32, s.3 as u8 as f32].map(w32)));
    o.resize(12 + 256, 0);
    o.extend(fifteen(&t.fix, t));
    o.extend(fifteen(&t.fallback, t));
    o
}

/// How many tags, and 44 numbers of them.
pub fn tags_words(tags: &[Tag]) -> Vec<u32> {
    let mut o = vec![tags.len() as u32];
    for t in tags {
        o.extend([t.version as f32, t.agreement, t.mirrored as u8 as f32].map(w32));
        o.extend(t.corners.iter().flat_map(|p| [w32(p.0), w32(p.1)]));
    }
    o.resize(45, 0);
    o
}

/// What the entries answer; to a refused call the number, and every place as it was lent.
fn answer(kind: u32, args: &[u32]) -> Option<Vec<u32>> {
    let a = Asked::parse(args)?;
    Some(match a.refusal() {
        0 => Seen::of(&a).words(kind, &a),
        n => [vec![n, 0], Lists::lent(a.rooms).words(&a, n)].concat(),
    })
}

/// The call that is asked, for the words of the C functions.
pub fn asked(args: &[u32]) -> Asked {
    Asked::parse(args).expect("a call")
}

/// A call on a small picture of any kind, at times refused.
pub fn some(r: &mut Rng) -> (u32, Vec<u32>) {
    let slot = r.below(trays::SLOTS);
    let shot = trays::small(slot, r);
    let most = if r.chance(0.7) { 64 } else { r.range(1, 64) as u32 };
    let a = Asked::of(&shot.pic, most, r);
    (920 + r.below(2) as u32, if r.chance(0.1) { a.broken(r).args() } else { a.args() })
}

fn random(r: &mut Rng) -> Call {
    let (kind, args) = some(r);
    AREA.call(kind, args)
}
