//! The C functions of the finder's entries, behind safe ones: lent lists, out-parameters that hold marks before a call, and
//! the words of the answers as find.rs has them; times of both sides.
use crate::calls::{w32, w64};
use crate::find::{Asked, Lists, asked, needs, tags, tags_words, trace_words};
use crate::pic::Pic;
use crate::timed::both;
use lcr_core::version::Version;
use lcr_decode::ring;
use std::hint::black_box;

#[rustfmt::skip]
unsafe extern "C" {
    fn lcr_find(gray: *const u8, n: usize, w: usize, h: usize, most: u32, levels: *mut u8, a: usize, labels: *mut u32, b: usize,
        stack: *mut u32, c: usize, points: *mut f32, d: usize, straight: *mut f32, e: usize, cand: *mut f32, f: usize,
        buf: *mut f32, g: usize, regions: *mut usize, hull: *mut usize, found: *mut bool, quad: *mut f32, tried: *mut usize,
        scores: *mut f32, fix: *mut f64, fallback: *mut f64) -> u32;
    fn lcr_tags(gray: *const u8, n: usize, w: usize, h: usize, most: u32, levels: *mut u8, a: usize, labels: *mut u32, b: usize,
        stack: *mut u32, c: usize, points: *mut f32, d: usize, straight: *mut f32, e: usize, cand: *mut f32, f: usize,
        buf: *mut f32, g: usize, many: *mut usize, tags: *mut f32) -> u32;
}

const MARK: u8 = 0xa5;

/// The lists that `find` is lent, and its answer.
#[derive(PartialEq)]
pub struct Find {
    pub lists: Lists,
    regions: usize,
    hull: usize,
    found: u8,
    quad: [f32; 8],
    tried: usize,
    scores: [f32; 256],
    rings: [[f64; 15]; 2],
}

impl Find {
    pub fn of(rooms: [usize; 7]) -> Find {
        let (lists, many) = (Lists::lent(rooms), usize::MAX);
        Find { lists, regions: many, hull: many, found: MARK, quad: [-1.0; 8], tried: many, scores: [-1.0; 256], rings: [[-1.0; 15]; 2] }
    }

    /// 0, or the refusal.
    pub fn call(&mut self, g: &[u8], w: usize, h: usize, most: u32) -> u32 {
        let (a, b, c, [d, e, f, k]) = (&mut self.lists.levels, &mut self.lists.labels, &mut self.lists.stack, &mut self.lists.four);
        let [fix, fallback] = &mut self.rings;
        unsafe {
            lcr_find(
                g.as_ptr(), g.len(), w, h, most, a.as_mut_ptr(), a.len(), b.as_mut_ptr(), b.len(), c.as_mut_ptr(), c.len(),
                d.as_mut_ptr(), d.len(), e.as_mut_ptr(), e.len(), f.as_mut_ptr(), f.len(), k.as_mut_ptr(), k.len(),
                &mut self.regions, &mut self.hull, (&raw mut self.found).cast(), self.quad.as_mut_ptr(), &mut self.tried,
                self.scores.as_mut_ptr(), fix.as_mut_ptr(), fallback.as_mut_ptr(),
            )
        }
    }

    /// Whether the out-parameters hold their marks.
    fn marked(&self) -> bool {
        let counts = [self.regions, self.hull, self.tried] == [usize::MAX; 3] && self.found == MARK;
        counts && self.quad == [-1.0; 8] && self.scores == [-1.0; 256] && self.rings == [[-1.0; 15]; 2]
    }

    /// What is answered, as `trace_words` has it.
    pub fn words(&self) -> Vec<u32> {
        let mut o = vec![self.regions as u32, self.hull as u32, self.found as u32];
        o.extend(self.quad.map(w32));
        o.push(self.tried as u32);
        o.extend(self.scores.map(w32));
        o.extend(self.rings.iter().flatten().flat_map(|&x| w64(x)));
        o
    }
}

/// The lists that `tags` is lent, and its answer.
pub struct Tags {
    pub lists: Lists,
    many: usize,
    tags: [f32; 44],
}

impl Tags {
    pub fn of(rooms: [usize; 7]) -> Tags {
        Tags { lists: Lists::lent(rooms), many: usize::MAX, tags: [-1.0; 44] }
    }

    /// 0, or the refusal.
    pub fn call(&mut self, g: &[u8], w: usize, h: usize, most: u32) -> u32 {
        let (a, b, c, [d, e, f, k]) = (&mut self.lists.levels, &mut self.lists.labels, &mut self.lists.stack, &mut self.lists.four);
        unsafe {
            lcr_tags(
                g.as_ptr(), g.len(), w, h, most, a.as_mut_ptr(), a.len(), b.as_mut_ptr(), b.len(), c.as_mut_ptr(), c.len(),
                d.as_mut_ptr(), d.len(), e.as_mut_ptr(), e.len(), f.as_mut_ptr(), f.len(), k.as_mut_ptr(), k.len(),
                &mut self.many, self.tags.as_mut_ptr(),
            )
        }
    }

    fn marked(&self) -> bool {
        self.many == usize::MAX && self.tags == [-1.0; 44]
    }

    /// What is answered, as `tags_words` has it.
    pub fn words(&self) -> Vec<u32> {
        [vec![self.many as u32], self.tags.map(w32).to_vec()].concat()
    }
}

/// The words of a call: of a refused one the number and whether an out-parameter was written.
fn answered(refused: u32, marked: bool, words: Vec<u32>, lists: Vec<u32>) -> Vec<u32> {
    if refused == 0 { [vec![0, 0], words, lists].concat() } else { [vec![refused, !marked as u32], lists].concat() }
}

/// What the C function of an entry, 920 or 921, answers.
pub fn answer(kind: u32, a: &Asked) -> Vec<u32> {
    if kind == 920 {
        let mut l = Find::of(a.rooms);
        let no = l.call(&a.g, a.w, a.h, a.most);
        answered(no, l.marked(), l.words(), l.lists.words(a, no))
    } else {
        let mut l = Tags::of(a.rooms);
        let no = l.call(&a.g, a.w, a.h, a.most);
        answered(no, l.marked(), l.words(), l.lists.words(a, no))
    }
}

/// The same by a call's words; entries 10,920 and 10,921.
pub fn direct(kind: u32, args: &[u32]) -> Vec<u32> {
    answer(kind - 10000, &asked(args))
}

/// Times of `find` beside the Rust's `detect_ring`, greatest version 64.
pub fn find_times(p: &Pic) -> (f64, f64) {
    let (w, h) = (p.w as usize, p.h as usize);
    let mut lent = Find::of(needs(w, h));
    let times = both(
        || { black_box(ring::detect_ring(black_box(&p.g), p.w, p.h, Version::MAX)); },
        || assert_eq!(lent.call(black_box(&p.g), w, h, 64), 0),
    );
    assert_eq!(lent.words(), trace_words(&ring::trace(&p.g, p.w, p.h, Version::MAX)), "the trace differs");
    times
}

/// Times of `tags` beside `detect_ring` too, which ends at the first fix, where `tags` tries every kept region.
pub fn tags_times(p: &Pic) -> (f64, f64) {
    let (w, h) = (p.w as usize, p.h as usize);
    let mut lent = Tags::of(needs(w, h));
    let times = both(
        || { black_box(ring::detect_ring(black_box(&p.g), p.w, p.h, Version::MAX)); },
        || assert_eq!(lent.call(black_box(&p.g), w, h, 64), 0),
    );
    assert_eq!(lent.words(), tags_words(&tags(&p.g, p.w, p.h, 64)), "the tags differ");
    times
}
