//! A failing call made smaller: sides cut, lists shortened, words set to 0, for as long as it fails and time is left.
use std::time::{Duration, Instant};

/// What an element of a list takes.
#[derive(Clone, Copy, PartialEq)]
pub enum Unit {
    Bit,
    Byte,
    Word,
    Long,
}

/// A list of a call: the head word that counts it (none: all words that are left), its elements, how many of them go
/// together, and for a grid over the picture the side of its cells.
#[derive(Clone, Copy)]
pub struct List {
    pub count: Option<usize>,
    pub unit: Unit,
    pub step: usize,
    pub cell: Option<usize>,
}

/// Where the parts of a call's words are: head words, then lists; which heads are the picture's sides and the first of
/// a box's four.
#[derive(Clone, Default)]
pub struct Layout {
    pub heads: usize,
    pub lists: Vec<List>,
    pub sides: Option<(usize, usize)>,
    pub bbox: Option<usize>,
}

impl Layout {
    pub fn heads(heads: usize) -> Layout {
        Layout { heads, ..Layout::default() }
    }
    pub fn list(mut self, count: Option<usize>, unit: Unit, step: usize) -> Layout {
        self.lists.push(List { count, unit, step, cell: None });
        self
    }
    pub fn grid(mut self, count: usize, unit: Unit, cell: usize) -> Layout {
        self.lists.push(List { count: Some(count), unit, step: 1, cell: Some(cell) });
        self
    }
    pub fn sides(mut self, w: usize, h: usize) -> Layout {
        self.sides = Some((w, h));
        self
    }
    pub fn bbox(mut self, at: usize) -> Layout {
        self.bbox = Some(at);
        self
    }
}

/// A call's words by their parts; elements are numbers.
#[derive(Clone)]
struct Parts {
    heads: Vec<u32>,
    lists: Vec<Vec<u64>>,
    tail: Vec<u32>,
}

fn words_of(n: usize, unit: Unit) -> usize {
    match unit {
        Unit::Bit => n.div_ceil(32),
        Unit::Byte => n.div_ceil(4),
        Unit::Word => n,
        Unit::Long => 2 * n,
    }
}

fn width(unit: Unit) -> (usize, u32) {
    match unit {
        Unit::Bit => (32, 1),
        Unit::Byte => (4, 8),
        _ => (1, 32),
    }
}

fn elements(words: &[u32], n: usize, unit: Unit) -> Vec<u64> {
    if unit == Unit::Long {
        return words.chunks(2).map(|c| c[0] as u64 | (c[1] as u64) << 32).collect();
    }
    let (per, bits) = width(unit);
    (0..n).map(|k| words[k / per] as u64 >> (k % per * bits as usize) & ((1 << bits) - 1)).collect()
}

fn words(list: &[u64], unit: Unit) -> Vec<u32> {
    if unit == Unit::Long {
        return list.iter().flat_map(|&x| [x as u32, (x >> 32) as u32]).collect();
    }
    let (per, bits) = width(unit);
    list.chunks(per).map(|c| c.iter().enumerate().fold(0, |w, (k, &x)| w | (x as u32) << (k * bits as usize))).collect()
}

fn parts(l: &Layout, args: &[u32]) -> Option<Parts> {
    let (heads, mut rest) = args.split_at_checked(l.heads)?;
    let mut lists = Vec::new();
    for f in &l.lists {
        let n = f.count.map_or(rest.len(), |c| heads[c] as usize);
        let (a, b) = rest.split_at_checked(words_of(n, f.unit))?;
        lists.push(elements(a, n, f.unit));
        rest = b;
    }
    Some(Parts { heads: heads.to_vec(), lists, tail: rest.to_vec() })
}

fn joined(l: &Layout, p: &Parts) -> Vec<u32> {
    let mut heads = p.heads.clone();
    for (f, list) in l.lists.iter().zip(&p.lists) {
        if let Some(c) = f.count {
            heads[c] = list.len() as u32;
        }
    }
    let lists = l.lists.iter().zip(&p.lists).flat_map(|(f, list)| words(list, f.unit));
    heads.iter().copied().chain(lists).chain(p.tail.iter().copied()).collect()
}

/// The part of a grid of w by h pixels that is left of its first, or last, v by u pixels; what follows the grid stays.
fn cut(list: &[u64], cell: usize, (w, h): (usize, usize), (v, u): (usize, usize), last: bool) -> Vec<u64> {
    let (cw, ch, cv, cu) = (w.div_ceil(cell), h.div_ceil(cell), v.div_ceil(cell), u.div_ceil(cell));
    if list.len() < cw * ch {
        return list.to_vec();
    }
    let (x, y) = if last { (cw - cv, ch - cu) } else { (0, 0) };
    let rows = (y..y + cu).flat_map(|r| list[r * cw + x..r * cw + x + cv].iter().copied());
    rows.chain(list[cw * ch..].iter().copied()).collect()
}

/// The search for a smaller call: what must still fail, and when to end.
struct Search<'a> {
    layout: &'a Layout,
    fails: &'a mut dyn FnMut(&[u32]) -> bool,
    end: Instant,
    best: Parts,
    tries: u64,
}

impl Search<'_> {
    fn over(&self) -> bool {
        Instant::now() >= self.end
    }

    /// Takes the parts if their call fails.
    fn take(&mut self, p: Parts) -> bool {
        if self.over() {
            return false;
        }
        self.tries += 1;
        let yes = (self.fails)(&joined(self.layout, &p));
        if yes {
            self.best = p;
        }
        yes
    }

    fn cropped(&self, v: usize, u: usize, last: bool) -> Parts {
        let (a, b) = self.layout.sides.unwrap();
        let mut p = self.best.clone();
        let (w, h) = (p.heads[a] as usize, p.heads[b] as usize);
        for (f, list) in self.layout.lists.iter().zip(p.lists.iter_mut()) {
            if let Some(cell) = f.cell {
                *list = cut(list, cell, (w, h), (v, u), last);
            }
        }
        (p.heads[a], p.heads[b]) = (v as u32, u as u32);
        if let Some(at) = self.layout.bbox {
            for (k, side) in [(0, v), (1, u), (2, v), (3, u)] {
                p.heads[at + k] = p.heads[at + k].min(side as u32);
            }
        }
        p
    }

    /// Smaller sides: half, or a few pixels less.
    fn sides(&mut self) -> bool {
        let Some((a, b)) = self.layout.sides else { return false };
        let mut any = false;
        loop {
            let (w, h) = (self.best.heads[a] as usize, self.best.heads[b] as usize);
            if w == 0 || h == 0 || w > 4096 || h > 4096 {
                return any;
            }
            let less = |n: usize| [n / 2, n.saturating_sub(16), n - 1].into_iter().filter(move |&m| m > 0 && m < n);
            let tries: Vec<(usize, usize)> = less(w).map(|v| (v, h)).chain(less(h).map(|u| (w, u))).collect();
            if !tries.into_iter().any(|(v, u)| [false, true].into_iter().any(|last| { let p = self.cropped(v, u, last); self.take(p) })) {
                return any;
            }
            any = true;
        }
    }

    /// Shorter lists: a half of what is left dropped, then smaller parts.
    fn lists(&mut self) -> bool {
        let mut any = false;
        for i in 0..self.layout.lists.len() {
            let List { step, cell, .. } = self.layout.lists[i];
            let mut size = (self.best.lists[i].len() / 2 / step * step).max(step);
            // a picture's bytes go by its sides; without them only large parts do
            let step = if cell.is_some() { (size / 8).max(step) } else { step };
            loop {
                let mut at = 0;
                while at + size <= self.best.lists[i].len() && !self.over() {
                    let mut p = self.best.clone();
                    p.lists[i].drain(at..at + size);
                    if self.take(p) { any = true } else { at += size }
                }
                if size <= step {
                    break;
                }
                size = (size / 2 / step * step).max(step);
            }
        }
        any
    }

    /// Words set to 0: all of a list, then halves of it, down to one; head words to 0, halved or one less.
    fn zeros(&mut self) -> bool {
        let mut any = false;
        for i in 0..self.best.lists.len() {
            let mut size = self.best.lists[i].len();
            while size > 0 && !self.over() {
                for at in (0..self.best.lists[i].len()).step_by(size) {
                    let to = (at + size).min(self.best.lists[i].len());
                    if self.best.lists[i][at..to].iter().any(|&x| x != 0) {
                        let mut p = self.best.clone();
                        p.lists[i][at..to].fill(0);
                        any |= self.take(p);
                    }
                }
                size /= 2;
            }
        }
        for i in 0..self.best.heads.len() {
            if self.layout.lists.iter().any(|f| f.count == Some(i)) {
                continue;
            }
            for less in [|_| 0, |x: u32| x / 2, |x: u32| x - 1] {
                while self.best.heads[i] != 0 && !self.over() {
                    let mut p = self.best.clone();
                    p.heads[i] = less(p.heads[i]);
                    if !self.take(p) {
                        break;
                    }
                    any = true;
                }
            }
        }
        any
    }
}

/// The words of a smaller call that fails too, and how many were tried, within some seconds.
pub fn smaller(layout: &Layout, args: &[u32], seconds: f64, fails: &mut dyn FnMut(&[u32]) -> bool) -> (Vec<u32>, u64) {
    let Some(best) = parts(layout, args) else { return (args.to_vec(), 0) };
    if joined(layout, &best) != args {
        return (args.to_vec(), 0);
    }
    let mut s = Search { layout, fails, end: Instant::now() + Duration::from_secs_f64(seconds), best, tries: 0 };
    while s.sides() | s.lists() | s.zeros() {}
    (joined(layout, &s.best), s.tries)
}
