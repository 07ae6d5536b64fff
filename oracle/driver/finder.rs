//! The finder's C functions, behind safe ones.
use crate::calls::{w32, w64};
use crate::picture::{lent8, lent32, level_cells, region_cells};
use std::cell::RefCell;

#[rustfmt::skip]
unsafe extern "C" {
    fn lcr_call(kind: u32, args: *const u32, n: usize, out: *mut u32, m: usize) -> usize;
    fn lcr_picture(gray: *const u8, n: usize, w: usize, h: usize, levels: *mut u8, g: usize, labels: *mut u32, l: usize,
        stack: *mut u32, k: usize, regions: *mut u32) -> u32;
    fn lcr_outline(gray: *const u8, n: usize, levels: *const u8, g: usize, labels: *const u32, l: usize, want: u32, w: usize, h: usize,
        x0: usize, y0: usize, x1: usize, y1: usize, out: *mut f32, m: usize, points: *mut usize) -> u32;
    fn lcr_convex_hull(p: *const f32, n: usize, out: *mut f32, m: usize, vertices: *mut usize) -> u32;
    fn lcr_quad(p: *const f32, n: usize, quad: *mut f32) -> u32;
    fn lcr_doubled(p: *const f32, n: usize, out: *mut u32, m: usize) -> u32;
    fn lcr_whole_hull(p: *const u32, n: usize, out: *mut u32, m: usize, vertices: *mut usize) -> u32;
    fn lcr_whole_quad(p: *const u32, n: usize, quad: *mut u32) -> u32;
    fn lcr_attempt(gray: *const u8, n: usize, w: usize, h: usize, points: *const f32, m: usize, most: u32,
        straight: *mut f32, a: usize, cand: *mut f32, b: usize, buf: *mut f32, c: usize, hull: *mut usize, found: *mut bool,
        quad: *mut f32, tried: *mut usize, scores: *mut f32, fix: *mut f64, fallback: *mut f64) -> u32;
}

const MARK: u32 = 0xdead_beef;

thread_local! {
    /// Room for an answer, all of it marked before a call.
    static OUT: RefCell<Vec<u32>> = RefCell::new(vec![MARK; 16384]);
}

/// What an entry answers to a call's words; words that it wrote past its answer are part of it.
pub fn by_number(kind: u32, args: &[u32]) -> Vec<u32> {
    OUT.with_borrow_mut(|out| {
        let n = unsafe { lcr_call(kind, args.as_ptr(), args.len(), out.as_mut_ptr(), out.len()) };
        let last = out.iter().rposition(|&w| w != MARK).map_or(0, |k| k + 1);
        let answer = out[..n.max(last)].to_vec();
        out[..last].fill(MARK);
        answer
    })
}

/// The lists that the picture door is lent, and its regions.
pub struct Grids {
    pub levels: Vec<u8>,
    pub labels: Vec<u32>,
    pub stack: Vec<u32>,
    pub regions: [u32; 26],
}

impl Grids {
    pub fn of(levels: usize, labels: usize, stack: usize) -> Grids {
        Grids {
            levels: (0..levels).map(lent8).collect(),
            labels: (0..labels).map(lent32).collect(),
            stack: (0..stack).map(lent32).collect(),
            regions: [0; 26],
        }
    }

    /// The places that a picture needs.
    pub fn fitting(w: usize, h: usize) -> Grids {
        Grids::of(level_cells(w, h), region_cells(w, h), region_cells(w, h))
    }

    pub fn call(&mut self, g: &[u8], w: usize, h: usize) -> u32 {
        let (a, b, c) = (&mut self.levels, &mut self.labels, &mut self.stack);
        unsafe {
            lcr_picture(
                g.as_ptr(), g.len(), w, h, a.as_mut_ptr(), a.len(), b.as_mut_ptr(), b.len(), c.as_mut_ptr(), c.len(),
                self.regions.as_mut_ptr(),
            )
        }
    }
}

/// A count, or the refusal of a call that was to leave it as it was.
fn counted(refused: u32, n: usize) -> Result<usize, u32> {
    match (refused, n) {
        (0, n) => Ok(n),
        (k, usize::MAX) => Err(k),
        (k, _) => Err(1000 + k),
    }
}

/// How many points the outline door gives, or its refusal.
#[allow(clippy::too_many_arguments)]
pub fn outline(g: &[u8], w: usize, h: usize, levels: &[u8], labels: &[u32], want: u32, b: [usize; 4], out: &mut [f32]) -> Result<usize, u32> {
    let mut n = usize::MAX;
    let refused = unsafe {
        lcr_outline(
            g.as_ptr(), g.len(), levels.as_ptr(), levels.len(), labels.as_ptr(), labels.len(), want, w, h, b[0], b[1], b[2], b[3],
            out.as_mut_ptr(), out.len(), &mut n,
        )
    };
    counted(refused, n)
}

/// How many vertices the hull has, or the refusal.
pub fn hull(p: &[f32], out: &mut [f32]) -> Result<usize, u32> {
    let mut n = usize::MAX;
    counted(unsafe { lcr_convex_hull(p.as_ptr(), p.len(), out.as_mut_ptr(), out.len(), &mut n) }, n)
}

pub fn quad(p: &[f32]) -> Option<[f32; 8]> {
    let mut q = [0f32; 8];
    (unsafe { lcr_quad(p.as_ptr(), p.len(), q.as_mut_ptr()) } == 0).then_some(q)
}

/// Hull and quad in whole numbers: how many vertices, these, whether there is a quad, its corners; or a refusal.
pub fn whole(p: &[f32]) -> Vec<u32> {
    let (mut doubled, mut out, mut n, mut q) = (vec![0; p.len()], vec![0; p.len()], 0, [0u32; 8]);
    let mut no = unsafe { lcr_doubled(p.as_ptr(), p.len(), doubled.as_mut_ptr(), doubled.len()) };
    if no == 0 {
        no = unsafe { lcr_whole_hull(doubled.as_ptr(), doubled.len(), out.as_mut_ptr(), out.len(), &mut n) };
    }
    if no != 0 {
        return vec![no];
    }
    out.truncate(2 * n);
    let found = unsafe { lcr_whole_quad(out.as_ptr(), out.len(), q.as_mut_ptr()) } == 0;
    let corners = if found { &q[..] } else { &[] };
    [&[n as u32], &out[..], &[found as u32], corners].concat()
}

/// The lists that the ring door is lent, and its answer.
pub struct Ring {
    pub lists: [Vec<f32>; 3],
    refused: u32,
    hull: usize,
    found: bool,
    quad: [f32; 8],
    tried: usize,
    scores: [f32; 256],
    rings: [[f64; 15]; 2],
}

impl Ring {
    pub fn of(rooms: [usize; 3]) -> Ring {
        let lists = rooms.map(|n| (0..n).map(|k| (k % 1000) as f32).collect());
        Ring { lists, refused: 0, hull: usize::MAX, found: false, quad: [-1.0; 8], tried: usize::MAX, scores: [-1.0; 256], rings: [[-1.0; 15]; 2] }
    }

    /// 0, or the refusal.
    pub fn call(&mut self, g: &[u8], w: usize, h: usize, points: &[f32], most: u32) -> u32 {
        let ([a, b, c], [fix, fallback]) = (&mut self.lists, &mut self.rings);
        self.refused = unsafe {
            lcr_attempt(
                g.as_ptr(), g.len(), w, h, points.as_ptr(), points.len(), most, a.as_mut_ptr(), a.len(), b.as_mut_ptr(), b.len(),
                c.as_mut_ptr(), c.len(), &mut self.hull, &mut self.found, self.quad.as_mut_ptr(), &mut self.tried,
                self.scores.as_mut_ptr(), fix.as_mut_ptr(), fallback.as_mut_ptr(),
            )
        };
        self.refused
    }

    /// The answer as the words of entry 910; a refused call was to leave it as it was.
    pub fn words(&self) -> Vec<u32> {
        if self.refused != 0 {
            let left = self.hull == usize::MAX && self.tried == usize::MAX && self.quad == [-1.0; 8] && self.scores == [-1.0; 256];
            return if left && self.rings == [[-1.0; 15]; 2] { vec![self.refused] } else { vec![self.refused, 1] };
        }
        let mut o = vec![0, self.hull as u32, self.found as u32];
        o.extend(self.quad.map(w32));
        self.rings.iter().for_each(|r| o.extend(ring_words(r)));
        o.push(self.tried as u32);
        let score = |s: &[f32]| [s[0] as u32, w32(s[1]), s[2] as u32, s[3] as u32];
        o.extend(self.scores.chunks(4).take(self.tried).flat_map(score));
        o
    }
}

/// A located ring's words, as entry 910 has them.
fn ring_words(r: &[f64; 15]) -> Vec<u32> {
    if r[0] == 0.0 {
        return vec![0; 27];
    }
    let mut o = vec![1, r[0] as u32, w32(r[1] as f32), r[2] as u32, r[3] as u32];
    o.extend(r[4..].iter().flat_map(|&x| w64(x)));
    o
}
