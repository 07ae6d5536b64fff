//! Ring marks: `classify` and `correlate`, and the split of one window (by its C function only). Marks are bits, 32 to a word, lowest first.
use crate::calls::{Area, Call, Words, w32};
use crate::pic::Rng;
use crate::smaller::{Layout, Unit};
use lcr_core::border;
use lcr_decode::{counting, notes, ring};

pub const AREA: Area = Area { name: "marks", stored, random, answer, layout };

pub fn positions(v: u32) -> usize {
    16 * v as usize + 88
}

pub fn side(v: u32) -> u16 {
    17 + 4 * v as u16
}

fn known(v: u32) -> bool {
    (1..=64).contains(&v)
}

pub fn bits(marks: &[bool]) -> Vec<u32> {
    marks.chunks(32).map(|c| c.iter().enumerate().map(|(k, &b)| (b as u32) << k).sum()).collect()
}

/// The rules' checks: 8, then 11 for lumas or marks that are not as many as positions.
fn refusal(v: u32, lengths: &[usize]) -> Option<u32> {
    if !known(v) {
        Some(8)
    } else if lengths.iter().any(|&n| n != positions(v)) {
        Some(11)
    } else {
        None
    }
}

fn layout(kind: u32) -> Layout {
    if kind == 703 {
        return Layout::heads(0).list(None, Unit::Word, 1);
    }
    if kind == 702 { Layout::heads(2).list(Some(1), Unit::Bit, 1) } else { Layout::heads(2).list(None, Unit::Word, 1) }
}

fn answer(kind: u32, args: &[u32]) -> Option<Vec<u32>> {
    let mut w = Words(args);
    if kind == 703 {
        return Some(split(&w.rest()));
    }
    let [v, n] = w.heads()?;
    let n = n as usize;
    if kind != 702 {
        return Some(classified(kind, v, n, &w.rest()));
    }
    let words = w.take(n.div_ceil(32))?;
    let marks: Vec<bool> = (0..n).map(|k| words[k / 32] >> (k % 32) & 1 == 1).collect();
    w.ended(correlated(v, &marks))
}

/// 700: the answer; 701: the m lent marks after the call, which are lent with every third light.
fn classified(kind: u32, v: u32, m: usize, lumas: &[f32]) -> Vec<u32> {
    match refusal(v, &[lumas.len(), m]) {
        None => [vec![0], bits(&ring::classify(lumas))].concat(),
        Some(_) if kind == 701 => [vec![0], bits(&(0..m).map(|k| k % 3 == 0).collect::<Vec<_>>())].concat(),
        Some(n) => vec![n],
    }
}

/// The split of a window after four rounds, of the thresholds that it had, and the first round, from the second on, whose split has the
/// bits of the one before, any NaN as any NaN, or 4.
fn settled(told: &[f32]) -> (f32, u32) {
    // a round with an empty side leaves the split, and so do those after it
    let after: Vec<f32> = (1..=4).map(|k| *told.get(k).unwrap_or(told.last().unwrap())).collect();
    (after[3], (2..=4).find(|&k| w32(after[k - 1]) == w32(after[k - 2])).unwrap_or(4) as u32)
}

/// 703: of the Rust, which splits the window round each position: of 33 positions that of position 16 has them all in order.
fn split(values: &[f32]) -> Vec<u32> {
    if !(4..=33).contains(&values.len()) {
        return vec![9];
    }
    if values.iter().any(|x| !x.is_finite()) {
        return vec![10];
    }
    let from = if values.len() < 17 { 16 } else { 0 };
    let mut lumas = [f32::NAN; 33];
    lumas[from..from + values.len()].copy_from_slice(values);
    let (split, round) = settled(&notes::rounds(|| counting::classify(&lumas))[16 - from]);
    vec![0, w32(split), round]
}

/// How many windows settle at which round, in one ring of each version, by kind of lumas: a table in Markdown.
pub fn rounds(seed: u64) {
    println!("| lumas | windows | round 2 | round 3 | round 4, or none |\n|---|---|---|---|---|");
    for (kind, name) in [(5, "a ring's"), (0, "greys"), (6, "a ring's on a slope"), (10, "a slope")] {
        let (mut g, mut n) = (Rng(seed), [0; 5]);
        for v in 1..=64 {
            let list = lumas(kind, v, positions(v), &mut g);
            notes::rounds(|| counting::classify(&list)).iter().for_each(|told| n[settled(told).1 as usize] += 1);
        }
        println!("| {name} | {} | {} | {} | {} |", n[2] + n[3] + n[4], n[2], n[3], n[4]);
    }
}

/// Score, corner and reversal as the Rust has them; the eight counts, an addition, by the rules' maps.
fn correlated(v: u32, marks: &[bool]) -> Vec<u32> {
    if let Some(n) = refusal(v, &[marks.len()]) {
        return vec![n];
    }
    let (score, corner, reversed) = ring::correlate(marks, side(v));
    let (n, q) = (positions(v), 4 * v as usize + 22);
    let count = |r: usize, back: bool| (0..n).filter(|&p| marks[(r * q + if back { n - p } else { p }) % n] == border::sequence_light(side(v), p)).count() as u32;
    let eight = (0..8).map(|k| count(k % 4, k >= 4));
    [vec![0, w32(score), corner as u32, reversed as u32], eight.collect()].concat()
}

fn classify(kind: u32, v: u32, m: usize, lumas: &[f32]) -> Call {
    AREA.call(kind, [vec![v, m as u32], lumas.iter().map(|x| x.to_bits()).collect()].concat())
}

fn correlate(v: u32, marks: &[bool]) -> Call {
    AREA.call(702, [vec![v, marks.len() as u32], bits(marks)].concat())
}

/// The marks of a ring seen at a pose, a share of them turned over.
fn posed(v: u32, r: usize, back: bool, damage: f64, g: &mut Rng) -> Vec<bool> {
    let (n, q) = (positions(v), 4 * v as usize + 22);
    let mut m = vec![false; n];
    for p in 0..n {
        m[(r * q + if back { n - p } else { p }) % n] = border::sequence_light(side(v), p) ^ g.chance(damage);
    }
    m
}

const KINDS: u64 = 12;

/// Lumas of one of `KINDS` kinds.
pub fn lumas(kind: u64, v: u32, n: usize, g: &mut Rng) -> Vec<f32> {
    let special = [f32::NAN, f32::INFINITY, f32::NEG_INFINITY, 3.4e38, -3.4e38, 0.0, -0.0, 1e-45, -1e-45];
    let ring = |p: usize, g: &mut Rng| (if border::sequence_light(side(v), p) { 200.0 } else { 40.0 }) + 60.0 * g.unit() as f32;
    let flat = g.below(256) as f32;
    let steps = g.range(1, 80) as usize;
    (0..n)
        .map(|p| match kind {
            0 => g.below(256) as f32,
            1 => f32::from_bits(g.next() as u32),
            2 => ((g.unit() - 0.5) * 6.8e38) as f32,
            3 => flat,
            4 => if g.chance(0.3) { special[g.below(3) as usize] } else { g.below(256) as f32 },
            5 => ring(p, g),
            6 => p as f32 * 0.3 + ring(p, g) / 4.0,
            7 => if p % steps == 0 { g.below(256) as f32 } else { f32::NAN },
            8 => special[g.below(9) as usize],
            9 => if p / 20 % 2 == 0 { flat } else { ring(p, g) },
            10 => p as f32 / n as f32 * 255.0,
            _ => if g.chance(0.02) { special[g.below(9) as usize] } else { ring(p, g) },
        })
        .collect()
}

/// Every version: its marks at each pose whole and damaged, both constants, random ones, and lumas of one kind
/// after the other; of versions 1 and 2 lumas of all kinds; limits and refusals.
fn stored() -> Vec<Call> {
    let mut g = Rng(701);
    let mut o = Vec::new();
    for v in 1..=64u32 {
        let n = positions(v);
        for k in 0..8 {
            o.push(correlate(v, &posed(v, k % 4, k >= 4, 0.0, &mut g)));
            o.push(correlate(v, &posed(v, k % 4, k >= 4, 0.2, &mut g)));
        }
        o.push(correlate(v, &vec![false; n]));
        o.push(correlate(v, &vec![true; n]));
        o.push(correlate(v, &(0..n).map(|_| g.chance(0.5)).collect::<Vec<_>>()));
        o.push(classify(700, v, n, &lumas(v as u64 % KINDS, v, n, &mut g)));
    }
    for v in 1..=2u32 {
        for kind in 0..KINDS {
            o.push(classify(700, v, positions(v), &lumas(kind, v, positions(v), &mut g)));
        }
    }
    for v in [0, 1, 2, 64, 65, 255, 257u32] {
        let n = if known(v) { positions(v) } else { 104 };
        for (a, b) in [(n, n), (n - 1, n), (n, n - 1), (n + 1, n), (n, n + 1), (0, 0), (n, 0), (0, n)] {
            for kind in [700, 701] {
                o.push(classify(kind, v, b, &vec![7.0; a]));
            }
            o.push(correlate(v, &vec![true; a]));
        }
    }
    o.push(classify(700, 1, 2048, &vec![7.0; 2048]));
    o.push(correlate(64, &vec![true; 2048]));
    o
}

fn random(g: &mut Rng) -> Call {
    let v = if g.chance(0.02) { g.below(256) as u32 } else { g.range(1, 64) as u32 };
    let n = if known(v) { positions(v) } else { 104 };
    let near = |g: &mut Rng| if g.chance(0.02) { g.below(2049) as usize } else { n };
    if g.chance(0.5) {
        let (a, m) = (near(g), near(g));
        let kind = g.below(KINDS);
        let list = lumas(kind, if known(v) { v } else { 1 }, a, g);
        return classify(if g.chance(0.2) { 701 } else { 700 }, v, m, &list);
    }
    let a = near(g);
    if a == n && known(v) && g.chance(0.6) {
        let damage = g.unit() * 0.6;
        let (r, back) = (g.below(4) as usize, g.chance(0.5));
        return correlate(v, &posed(v, r, back, damage, g));
    }
    let light = g.unit();
    correlate(v, &(0..a).map(|_| g.chance(light)).collect::<Vec<_>>())
}

/// A window of numbers, at times too short, too long or with one that is not finite.
pub fn window(g: &mut Rng) -> Vec<u32> {
    let n = if g.chance(0.03) { g.below(40) } else { g.range(4, 34) as u64 } as usize;
    let (v, big) = (g.range(1, 65) as u32, g.chance(0.5));
    let list = match g.below(KINDS + 4) {
        kind if kind < KINDS => lumas(kind, v, 104, g)[..n].to_vec(),
        // few values, so that rounds settle late or at once; sums that pass the greatest f32, to one side or to both; zeros of both signs
        12 => (0..n).map(|_| [0.0, 1.0, 2.0, 255.0][g.below(4) as usize]).collect(),
        13 => (0..n).map(|_| if big { 3e38 } else { [3e38, -3e38][g.below(2) as usize] }).collect(),
        14 => (0..n).map(|_| [0.0, -0.0, 1e-45, -1e-45][g.below(4) as usize]).collect(),
        _ => (0..n).map(|k| (1.5f32 + g.unit() as f32 * 0.2).powi(k as i32)).collect(),
    };
    let spare = g.below(256) as f32;
    let wild = g.chance(0.03);
    list.into_iter().map(|x| if x.is_finite() || wild { x } else { spare }.to_bits()).collect()
}
