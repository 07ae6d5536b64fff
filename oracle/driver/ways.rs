//! The ways through the ring door that a case takes: how the lens, the quads and the search end.
use crate::att::{Case, noted, refused};
use crate::attempts::{args, nth, small, traced};
use lcr_decode::notes::Note;
use lcr_decode::ring::RingTrace;
use std::collections::{BTreeMap, BTreeSet};

/// The ways through the door that a case takes, as the Rust notes them.
pub fn ways(c: &Case, rooms: [u32; 3]) -> Vec<String> {
    if let Some(n) = refused(c, rooms) {
        return vec![format!("refused {n}")];
    }
    let mut o: Vec<String> = Vec::new();
    let mut add = |s: &str| o.push(s.to_string());
    let (mut pass, mut both, mut fixed, mut tops) = (0, false, Vec::new(), Vec::new());
    for n in noted(c) {
        match n {
            Note::Pass => pass += 1,
            Note::End(why) => add(&format!("estimate: {why}, pass {pass}")),
            Note::Lens((.., k)) => add(if k.is_nan() { "lens NaN" } else if k > 0.0 { "lens above 0" } else if k < 0.0 { "lens below 0" } else { "no lens" }),
            Note::Hull(None) => add("no quad"),
            Note::Refined(_, same) => add(if same { "quad not refined" } else { "quad refined" }),
            Note::Edges(None, _) => add("no edge quad"),
            Note::Edges(Some(_), true) => add("edge quad the same"),
            Note::Edges(Some(_), false) => both = true,
            Note::Tried(fix) => fixed.push(fix),
            Note::Top(score) => tops.push(score),
            _ => (),
        }
    }
    if both {
        add(match (&fixed[..], &tops[..]) {
            ([true], _) => "both quads: edge quad fixed",
            ([_, true], _) => "both quads: refined quad fixed",
            (_, [a, b]) if a == b => "both quads: equal scores",
            (_, [a, b]) if a > b => "both quads: edge quad's score",
            _ => "both quads: refined quad's score",
        });
    }
    let t = traced(c);
    if t.quad.is_some() {
        o.extend(endings(&t));
    }
    o
}

/// How the search over versions ends.
fn endings(t: &RingTrace) -> Vec<String> {
    let mut o: Vec<String> = Vec::new();
    let mut add = |s: &str| o.push(s.to_string());
    if t.scores.is_empty() {
        add("no version tried");
    }
    if t.scores.iter().enumerate().any(|(i, s)| s.0.get() as usize != i + 1) {
        add("a version skipped");
    }
    let best = t.scores.iter().map(|s| s.1).max_by(f32::total_cmp);
    if t.scores.iter().filter(|s| Some(s.1) == best).count() > 1 {
        add("two greatest scores");
    }
    add(if t.fix.is_some() { "fix" } else if t.fallback.is_some() { "fallback" } else { "neither fix nor fallback" });
    if let Some(f) = &t.fix {
        let s = t.scores.iter().find(|s| s.0 == f.version).unwrap();
        add(&format!("fix at corner {}, {}", s.2, if s.3 { "mirrored" } else { "not mirrored" }));
    }
    o
}

/// How often each kind and each way is met among the first `count` random cases of a seed, by the Rust alone.
pub fn run(seed: u64, count: u64) {
    let mut met: BTreeMap<String, u64> = BTreeMap::new();
    let mut versions = BTreeSet::new();
    for i in 0..count {
        let (kind, c, rooms) = nth(seed, i);
        *met.entry(format!("kind: {kind}")).or_default() += 1;
        ways(&c, rooms).into_iter().for_each(|w| *met.entry(w).or_default() += 1);
        if refused(&c, rooms).is_none() {
            versions.extend(traced(&c).fix.map(|f| f.version.get()));
        }
    }
    println!("{count} attempts from seed {seed}, {} versions fixed", versions.len());
    met.iter().for_each(|(k, n)| println!("{n:>8} {k}"));
}

/// The numbers of the cases to store: two small ones of each kind and of each way.
pub fn picks() {
    let mut met: BTreeMap<String, u64> = BTreeMap::new();
    for i in 0..2500 {
        let (kind, c, rooms) = small(i);
        if args(&c, rooms).len() > 4000 {
            continue;
        }
        let mut all = ways(&c, rooms);
        all.push(kind.to_string());
        if all.iter().all(|w| met.get(w).is_some_and(|&n| n >= 2)) {
            continue;
        }
        all.into_iter().for_each(|w| *met.entry(w).or_default() += 1);
        print!("{i}, ");
    }
    println!();
}
