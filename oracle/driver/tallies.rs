//! How many of the tags that were drawn each way of calling finds, as tables in Markdown.
use crate::find::Tag;
use crate::found::{Answers, By};
use crate::trays;
use std::collections::{BTreeMap, BTreeSet};

/// The mean length of an outer side, in pixels.
fn side(t: &Tag) -> f32 {
    let q = t.corners;
    (0..4).map(|i| (q[i].0 - q[(i + 1) % 4].0).hypot(q[i].1 - q[(i + 1) % 4].1)).sum::<f32>() / 4.0
}

/// The greatest distance of two tags' corners, first from first and so on.
fn apart(a: &Tag, b: &Tag) -> f32 {
    let far = |m: f32, (p, q): (&(f32, f32), &(f32, f32))| m.max((p.0 - q.0).hypot(p.1 - q.1));
    a.corners.iter().zip(&b.corners).fold(0.0, far)
}

/// The pixels of a module.
fn module(t: &Tag) -> f32 {
    side(t) / (17 + 4 * t.version as u32 + 6) as f32
}

/// Whether an answer is a tag that was drawn: its version, its direction, and every corner within a quarter of a side.
fn is(drawn: &Tag, t: &Tag) -> bool {
    t.version == drawn.version && t.mirrored == drawn.mirrored && apart(t, drawn) < side(drawn) / 4.0
}

/// Whether every corner of an answer is within a module of one of another's.
fn same_place(a: &Tag, b: &Tag) -> bool {
    let near = |p: &(f32, f32)| b.corners.iter().any(|q| (p.0 - q.0).hypot(p.1 - q.1) <= module(a));
    a.corners.iter().all(near)
}

/// What one way of calling has answered.
#[derive(Clone, Copy, Default)]
struct Way {
    /// tags that were drawn, at their version and pose
    found: u64,
    /// of these, with every corner within a module
    close: u64,
    /// answers of a version that no tag of the picture has
    version: u64,
    /// answers of a tag's version, at another pose or place
    pose: u64,
}

impl Way {
    fn add(&mut self, drawn: &[Tag], answers: &[Tag]) {
        let met: Vec<&Tag> = drawn.iter().filter(|d| answers.iter().any(|t| is(d, t))).collect();
        self.found += met.len() as u64;
        self.close += met.iter().filter(|d| answers.iter().any(|t| is(d, t) && apart(d, t) <= module(d))).count() as u64;
        for t in answers.iter().filter(|t| !drawn.iter().any(|d| is(d, t))) {
            if drawn.iter().any(|d| d.version == t.version) { self.pose += 1 } else { self.version += 1 }
        }
    }
    fn sum(self, o: Way) -> Way {
        Way { found: self.found + o.found, close: self.close + o.close, version: self.version + o.version, pose: self.pose + o.pose }
    }
}

/// The pictures of a kind: how many, their tags, and the three ways: kept regions only, `find`, `tags`.
#[derive(Clone, Copy, Default)]
struct Row {
    pictures: u64,
    rings: u64,
    ways: [Way; 3],
    all_ink: u64,
    fallback: u64,
    /// calls of `tags` with two answers or more, and those of which two are in the same place
    two: u64,
    same: u64,
}

impl Row {
    fn add(&mut self, a: &Answers) {
        let drawn = &a.shot.tags;
        self.pictures += 1;
        if a.shot.kind == trays::KINDS[trays::ANY] {
            return;
        }
        self.rings += drawn.len() as u64;
        self.ways.iter_mut().zip(&a.ways).for_each(|(w, answers)| w.add(drawn, answers));
        let right = drawn.iter().any(|d| a.ways[1].iter().any(|t| is(d, t)));
        self.all_ink += (right && a.by == Some(By::AllInk)) as u64;
        self.fallback += (right && a.by == Some(By::Fallback)) as u64;
        let tags = &a.ways[2];
        self.two += (tags.len() > 1) as u64;
        self.same += (0..tags.len()).any(|i| (0..i).any(|j| same_place(&tags[i], &tags[j]))) as u64;
    }

    fn sum(self, o: &Row) -> Row {
        Row {
            pictures: self.pictures + o.pictures, rings: self.rings + o.rings, ways: [0, 1, 2].map(|k| self.ways[k].sum(o.ways[k])),
            all_ink: self.all_ink + o.all_ink, fallback: self.fallback + o.fallback, two: self.two + o.two, same: self.same + o.same,
        }
    }

    fn line(&self, name: &str) {
        let each = |f: &dyn Fn(&Way) -> u64| self.ways.iter().map(|w| f(w).to_string()).collect::<Vec<_>>();
        let (found, version, pose) = (each(&|w| w.found).join(" | "), each(&|w| w.version).join(", "), each(&|w| w.pose).join(", "));
        println!("| {name} | {} | {} | {found} | {} | {} | {} | {version} | {pose} |", self.pictures, self.rings, self.all_ink, self.fallback, self.ways[1].close);
    }
}

#[derive(Default)]
pub struct Tallies {
    kinds: BTreeMap<&'static str, Row>,
    /// drawn tags by pixels a module: rings alone and filled ones; how many, by kept regions, by `find`
    pitches: BTreeMap<u32, [[u64; 3]; 2]>,
    /// versions and poses of the tags of a kind; a pose is a direction and the corner that is first, from the upper left
    poses: BTreeMap<&'static str, BTreeSet<(u8, bool, usize)>>,
}

/// The place of a tag's first corner among its corners clockwise from the upper left.
fn first_corner(t: &Tag) -> usize {
    let q = t.corners;
    let (cx, cy) = (q.iter().map(|p| p.0).sum::<f32>() / 4.0, q.iter().map(|p| p.1).sum::<f32>() / 4.0);
    match (q[0].0 < cx, q[0].1 < cy) {
        (true, true) => 0,
        (false, true) => 1,
        (false, false) => 2,
        _ => 3,
    }
}

impl Tallies {
    pub fn add(&mut self, a: &Answers) {
        self.kinds.entry(a.shot.kind).or_default().add(a);
        let poses = self.poses.entry(a.shot.kind).or_default();
        poses.extend(a.shot.tags.iter().map(|t| (t.version, t.mirrored, first_corner(t))));
        if let Some(pitch) = a.shot.pitch {
            let n = &mut self.pitches.entry(pitch).or_default()[(a.shot.kind != trays::KINDS[0]) as usize];
            let met = |k: usize| a.ways[k].iter().any(|t| is(&a.shot.tags[0], t)) as u64;
            *n = [n[0] + 1, n[1] + met(0), n[2] + met(1)];
        }
    }

    /// All kinds that are so, in one row.
    fn sum(&self, so: fn(&str) -> bool) -> Row {
        self.kinds.iter().filter(|(k, _)| so(k)).fold(Row::default(), |s, (_, r)| s.sum(r))
    }

    pub fn print(&self) {
        println!("Found: the version that was drawn, its direction, and every corner within a quarter of a side; in two columns three numbers: kept");
        println!("regions only, find, tags.\n");
        println!("| pictures | how many | tags drawn | kept regions only | find | tags | find by all ink only | find by a promoted fallback | find within a module | wrong version | other pose or place |");
        println!("|---|---|---|---|---|---|---|---|---|---|---|");
        trays::KINDS[..trays::ANY].iter().for_each(|k| self.kinds.get(k).copied().unwrap_or_default().line(k));
        self.sum(trays::is_drawn).line("**all drawn**");
        self.sum(trays::is_photographed).line("**all photographed**");
        self.sum(trays::has_several).line("**several**");
        println!("\n| pixels a module | rings alone | kept regions only | find | filled | kept regions only | find |\n|---|---|---|---|---|---|---|");
        self.pitches.iter().for_each(|(p, [a, b])| println!("| {p} | {} | {} | {} | {} | {} | {} |", a[0], a[1], a[2], b[0], b[1], b[2]));
        println!();
        for k in &trays::KINDS[..3] {
            println!("{k}: {} of the 512 versions at poses", self.poses.get(k).map_or(0, |s| s.len()));
        }
        let all = self.sum(|_| true);
        println!("any picture, whose tags are not known: {}", self.kinds.get(trays::KINDS[trays::ANY]).map_or(0, |r| r.pictures));
        println!("calls of tags with two answers or more: {}; with two in the same place, every corner within a module: {}", all.two, all.same);
    }
}
