//! Calls by number, as crate `calls` of the finder has them: what is asked, and what the Rust answers.
//! `vectors` writes those that are stored; compare.rs makes each on both sides.
use crate::pic::Rng;
use crate::smaller::Layout;
use std::io::Write;

pub struct Call {
    pub kind: u32,
    pub args: Vec<u32>,
    pub want: Vec<u32>,
}

pub fn w32(v: f32) -> u32 {
    if v.is_nan() { 0x7fc0_0000 } else { v.to_bits() }
}

pub fn w64(v: f64) -> [u32; 2] {
    let b = if v.is_nan() { 0x7ff8_0000_0000_0000 } else { v.to_bits() };
    [b as u32, (b >> 32) as u32]
}

pub fn packed(bytes: &[u8]) -> Vec<u32> {
    bytes.chunks(4).map(|c| c.iter().rev().fold(0, |w, &b| (w << 8) | b as u32)).collect()
}

pub fn singles(words: &[u32]) -> Vec<f32> {
    words.iter().map(|&w| f32::from_bits(w)).collect()
}

/// A call's words, taken from the front.
pub struct Words<'a>(pub &'a [u32]);

impl<'a> Words<'a> {
    pub fn take(&mut self, n: usize) -> Option<&'a [u32]> {
        let (a, b) = self.0.split_at_checked(n)?;
        self.0 = b;
        Some(a)
    }
    pub fn heads<const N: usize>(&mut self) -> Option<[u32; N]> {
        self.take(N)?.try_into().ok()
    }
    pub fn singles<const N: usize>(&mut self) -> Option<[f32; N]> {
        Some(self.heads()?.map(f32::from_bits))
    }
    pub fn doubles(&mut self, n: usize) -> Option<Vec<f64>> {
        let one = |c: &[u32]| f64::from_bits(c[0] as u64 | (c[1] as u64) << 32);
        Some(self.take(n.checked_mul(2)?)?.chunks(2).map(one).collect())
    }
    pub fn bytes(&mut self, n: usize) -> Option<Vec<u8>> {
        let mut b: Vec<u8> = self.take(n.div_ceil(4))?.iter().flat_map(|w| w.to_le_bytes()).collect();
        b.truncate(n);
        Some(b)
    }
    /// An f32 a word, all that are left.
    pub fn rest(&mut self) -> Vec<f32> {
        singles(std::mem::take(&mut self.0))
    }
    /// Something, where no words are left.
    pub fn ended<T>(&self, t: T) -> Option<T> {
        self.0.is_empty().then_some(t)
    }
}

/// Where the random numbers of call i of a seed start.
pub fn start(seed: u64, i: u64) -> Rng {
    Rng(seed.wrapping_mul(0x1_0000_0001).wrapping_add(i))
}

/// An area: the calls that are stored for the gate, one call at random, what the Rust answers to a call's words (none
/// where they are no call), and where the parts of these words are.
pub struct Area {
    pub name: &'static str,
    pub stored: fn() -> Vec<Call>,
    pub random: fn(&mut Rng) -> Call,
    pub answer: fn(u32, &[u32]) -> Option<Vec<u32>>,
    pub layout: fn(u32) -> Layout,
}

impl Area {
    /// A call with the Rust's answer.
    pub fn call(&self, kind: u32, args: Vec<u32>) -> Call {
        let want = (self.answer)(kind, &args).expect("a call");
        Call { kind, args, want }
    }
}

pub fn vectors(area: &Area) {
    let mut o = Vec::new();
    for c in (area.stored)() {
        for w in [c.kind, c.args.len() as u32, c.want.len() as u32].iter().chain(&c.args).chain(&c.want) {
            o.extend(w.to_le_bytes());
        }
    }
    std::io::stdout().write_all(&o).unwrap();
}

/// What the entries are called.
pub fn name(kind: u32) -> String {
    let by_number = match kind % 10000 {
        100 => "version", 101 => "shell", 102 => "edge_and_offset", 103 => "position", 104 => "outer_cell", 105 => "inner_cell",
        106 => "sequence_light", 107 => "is_two_deep", 108 => "32 marks", 200 => "f32 root", 201 => "f64 to f32", 202 => "f32 abs",
        203 => "f64 abs", 204 => "max", 205 => "is_finite", 206 => "total order", 207 => "f32 to u32", 208 => "f32 to u8",
        300 => "solve", 301 => "least_squares", 302 => "median", 303 => "mad_sigma", 400 => "from_quad", 401 => "apply",
        402 => "from_quad, with_radial, apply", 500 => "picture door", 501 => "picture door's lists", 600 => "outline door",
        601 => "outline door's list", 602 => "convex_hull", 603 => "quad", 604 => "listing", 605 => "pgm_read", 606 => "pgm_write", 607 => "hull and quad in whole numbers",
        700 => "classify", 701 => "classify's marks", 702 => "correlate", 703 => "split", 800 => "tls_line", 801 => "refit_middle", 802 => "intersect", 803 => "refine_quad", 804 => "edge_quad",
        805 => "same_quad", 806 => "bow_fit", 807 => "estimate_lens", 808 => "undistort", 900 => "ring_transform", 901 => "ring_lumas",
        902 => "correlate_quad's scores", 910 => "ring door", 920 => "find", 921 => "tags", _ => "ring door's lists",
    };
    by_number.to_string()
}
