//! `found PICTURES SEED [FIRST]`: `lcr_find` and `lcr_tags` beside the Rust on pictures of twelve kinds, equal to the bit, and how
//! many of the tags that were drawn each way of calling finds.
use crate::calls::{Call, start, w64};
use crate::find::{AREA, Asked, Seen, Tag, tag};
use crate::pic::Rng;
use crate::tagged::Shot;
use crate::{compare, finder_find, functions, skips, tallies, trays};
use lcr_core::version::Version;
use lcr_decode::ring::{self, InkMap, RingFix};
use std::time::Instant;

/// What was called, and what differs.
#[derive(Default)]
struct Held {
    compared: u64,
    refused: [u64; 9],
    different: u64,
}

impl Held {
    /// A call of both entries, held against what is due; the first that differs is told and kept.
    fn hold(&mut self, a: &Asked, due: &dyn Fn(u32) -> Vec<u32>, place: &str, seed: u64) {
        for kind in [920, 921] {
            let (want, got) = (due(kind), finder_find::answer(kind, a));
            if want != got {
                self.told(place, if kind == 920 { "find" } else { "tags" });
                if self.different == 1 {
                    compare::keep(&functions::AREA, seed, &Call { kind: kind + 10000, args: a.args(), want }, place);
                }
            }
        }
    }

    fn told(&mut self, place: &str, what: &str) {
        self.different += 1;
        if self.different <= 10 {
            println!("DIFFERENT: {place}, {what}");
        }
    }

    /// A call that is refused on purpose: the number, every list and every out-parameter as before.
    fn refuse(&mut self, a: Asked, place: &str, seed: u64) {
        let no = a.refusal();
        self.refused[no as usize] += 2;
        let args = a.args();
        self.hold(&a, &|kind| (AREA.answer)(kind, &args).unwrap(), place, seed);
    }
}

/// How the Rust's fix was found.
#[derive(Clone, Copy, PartialEq)]
pub enum By {
    Region,
    AllInk,
    Fallback,
}

/// A picture's tags and what each way of calling answers: the kept regions' own fixes, `find`, `tags`.
pub struct Answers {
    pub shot: Shot,
    pub ways: [Vec<Tag>; 3],
    pub by: Option<By>,
}

fn by(a: &Asked, seen: &Seen, most: Version) -> Option<By> {
    seen.trace.fix.as_ref()?;
    if !seen.own.is_empty() {
        return Some(By::Region);
    }
    let (w, h) = (a.w as u32, a.h as u32);
    let all = || skips::attempt(&a.g, w, h, &ring::boundary_points(&InkMap::new(&a.g, w, h), None, (0, 0, w, h)), most);
    Some(if seen.trace.regions > 1 && all().fix.is_some() { By::AllInk } else { By::Fallback })
}

fn fix_bits(f: &Option<RingFix>) -> Option<(Version, u32, Vec<[u32; 2]>)> {
    let numbers = |f: &RingFix| f.transform.m.iter().chain(&f.transform.radial).map(|&x| w64(x)).collect();
    f.as_ref().map(|f| (f.version, f.agreement.to_bits(), numbers(f)))
}

/// A picture on both sides, at times with a call that is refused.
fn one(shot: Shot, r: &mut Rng, held: &mut Held, place: &str, seed: u64) -> Answers {
    let least = shot.tags.iter().map(|t| t.version).max().unwrap_or(1);
    let most = if r.chance(0.75) { 64 } else { r.range(least as i64, 64) as u32 };
    let a = Asked::of(&shot.pic, most, r);
    if r.chance(0.15) {
        let broken = a.clone().broken(r);
        if broken.refusal() != 0 {
            held.refuse(broken, place, seed);
        }
    }
    let seen = Seen::of(&a);
    held.compared += 2;
    held.hold(&a, &|kind| seen.words(kind, &a), place, seed);
    let most = Version::new_unchecked(most as u8);
    if fix_bits(&skips::detect_ring(&a.g, a.w as u32, a.h as u32, most)) != fix_bits(&seen.trace.fix) {
        held.told(place, "detect_ring beside trace");
    }
    let by = by(&a, &seen, most);
    let ways = [seen.own.clone(), tag(&seen.trace).into_iter().collect(), seen.tags()];
    Answers { shot, ways, by }
}

/// Pictures from number `first` on. Exits with 1 where anything differs.
pub fn run(pictures: u64, seed: u64, first: u64) {
    let (mut held, mut tallies, from) = (Held::default(), tallies::Tallies::default(), Instant::now());
    for i in first..first + pictures {
        let mut r = start(seed, i);
        let shot = trays::nth(i, &mut r);
        let place = format!("picture {i} of seed {seed} ({}, {} by {})", shot.kind, shot.pic.w, shot.pic.h);
        tallies.add(&one(shot, &mut r, &mut held, &place, seed));
    }
    tallies.print();
    let refused = |n: usize| format!("{} by {n}", held.refused[n]);
    let all: u64 = held.refused.iter().sum();
    println!("\n{pictures} pictures from seed {seed} in {:.0} seconds", from.elapsed().as_secs_f64());
    println!("{} calls of find and tags compared, {all} refused on purpose ({}), {} different", held.compared, [1, 2, 3, 8].map(refused).join(", "), held.different);
    std::process::exit((held.different != 0) as i32);
}
