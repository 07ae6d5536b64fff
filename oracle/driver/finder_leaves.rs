//! The finder's C functions of the leaves, behind safe ones; the words that each answers, as the call by number has them.
use crate::calls::{Words, packed, singles, w32, w64};
use crate::marks::bits;
use crate::picture::lent8;

#[rustfmt::skip]
unsafe extern "C" {
    pub fn lcr_root(x: f32) -> f32;
    pub fn lcr_narrowed(x: f64) -> f32;
    fn lcr_version(version: u32, side: *mut u16, positions: *mut usize) -> u32;
    fn lcr_shell(version: u32, x: i32, y: i32, depth: *mut usize) -> u32;
    fn lcr_edge_and_offset(version: u32, x: i32, y: i32, edge: *mut usize, offset: *mut i32) -> u32;
    fn lcr_position(version: u32, x: i32, y: i32, position: *mut usize) -> u32;
    fn lcr_outer_cell(version: u32, p: usize, x: *mut i32, y: *mut i32) -> u32;
    fn lcr_inner_cell(version: u32, p: usize, x: *mut i32, y: *mut i32) -> u32;
    fn lcr_sequence_light(version: u32, p: usize, light: *mut bool) -> u32;
    fn lcr_median(v: *mut f32, n: usize, median: *mut f32) -> u32;
    fn lcr_mad_sigma(v: *const f32, n: usize, sigma: *mut f32) -> u32;
    fn lcr_solve(a: *const f64, la: usize, b: *const f64, lb: usize, n: usize, x: *mut f64) -> u32;
    fn lcr_least_squares(a: *const f64, la: usize, b: *const f64, lb: usize, n: usize, x: *mut f64) -> u32;
    fn lcr_from_quad(src: *const f32, dst: *const f32, t: *mut f64) -> u32;
    fn lcr_with_radial(t: *mut f64, cx: f32, cy: f32, kappa: f32) -> u32;
    fn lcr_apply(t: *const f64, u: f32, v: f32, x: *mut f32, y: *mut f32) -> u32;
    fn lcr_apply_all(t: *const f64, uv: *const f32, n: usize, xy: *mut f32, m: usize) -> u32;
    fn lcr_listing(input: *const u8, n: usize, text: *mut u8, len: *mut usize) -> u32;
    fn lcr_pgm_read(file: *const u8, n: usize, width: *mut usize, height: *mut usize, at: *mut usize) -> u32;
    fn lcr_pgm_write(gray: *const u8, n: usize, width: usize, height: usize, out: *mut u8, m: usize, len: *mut usize) -> u32;
    fn lcr_classify(version: u32, lumas: *const f32, n: usize, marks: *mut bool, m: usize) -> u32;
    fn lcr_split(values: *const f32, n: usize, split: *mut f32, round: *mut u32) -> u32;
    fn lcr_correlate(version: u32, marks: *const bool, n: usize, score: *mut f32, corner: *mut usize, reversed: *mut bool, counts: *mut u16) -> u32;
    fn lcr_refine_quad(p: *const f32, n: usize, q: *mut f32, m: usize, buf: *mut f32, k: usize) -> u32;
    fn lcr_edge_quad(p: *const f32, n: usize, q: *mut f32, m: usize, cand: *mut f32, c: usize, buf: *mut f32, k: usize) -> u32;
    fn lcr_estimate_lens(p: *const f32, n: usize, q: *mut f32, m: usize, straight: *mut f32, c: usize, buf: *mut f32, k: usize) -> u32;
}

pub fn median(v: &mut [f32]) -> Result<f32, u32> {
    let mut x = 0.0;
    let n = unsafe { lcr_median(v.as_mut_ptr(), v.len(), &mut x) };
    if n == 0 { Ok(x) } else { Err(n) }
}

pub fn mad_sigma(v: &[f32]) -> Result<f32, u32> {
    let mut x = 0.0;
    let n = unsafe { lcr_mad_sigma(v.as_ptr(), v.len(), &mut x) };
    if n == 0 { Ok(x) } else { Err(n) }
}

/// 255 where there is no solution.
pub fn solve(a: &[f64], b: &[f64], n: usize) -> Result<[f64; 8], u32> {
    let mut x = [0f64; 8];
    let k = unsafe { lcr_solve(a.as_ptr(), a.len(), b.as_ptr(), b.len(), n, x.as_mut_ptr()) };
    if k == 0 { Ok(x) } else { Err(k) }
}

pub fn least_squares(a: &[f64], b: &[f64], n: usize) -> Result<[f64; 8], u32> {
    let mut x = [0f64; 8];
    let k = unsafe { lcr_least_squares(a.as_ptr(), a.len(), b.as_ptr(), b.len(), n, x.as_mut_ptr()) };
    if k == 0 { Ok(x) } else { Err(k) }
}

pub fn from_quad(src: &[f32; 8], dst: &[f32; 8]) -> Option<[f64; 11]> {
    let mut t = [0f64; 11];
    (unsafe { lcr_from_quad(src.as_ptr(), dst.as_ptr(), t.as_mut_ptr()) } == 0).then_some(t)
}

pub fn apply_all(t: &[f64; 11], uv: &[f32], xy: &mut [f32]) -> u32 {
    unsafe { lcr_apply_all(t.as_ptr(), uv.as_ptr(), uv.len(), xy.as_mut_ptr(), xy.len()) }
}

pub fn apply(t: &[f64; 11], u: f32, v: f32) -> (f32, f32) {
    let (mut x, mut y) = (0.0, 0.0);
    unsafe { lcr_apply(t.as_ptr(), u, v, &mut x, &mut y) };
    (x, y)
}

pub fn classify(version: u32, lumas: &[f32], marks: &mut [bool]) -> u32 {
    unsafe { lcr_classify(version, lumas.as_ptr(), lumas.len(), marks.as_mut_ptr(), marks.len()) }
}

pub fn correlate(version: u32, marks: &[bool]) -> Result<(f32, usize, bool, [u16; 8]), u32> {
    let (mut s, mut r, mut b, mut c) = (0.0, 0, false, [0; 8]);
    let n = unsafe { lcr_correlate(version, marks.as_ptr(), marks.len(), &mut s, &mut r, &mut b, c.as_mut_ptr()) };
    if n == 0 { Ok((s, r, b, c)) } else { Err(n) }
}

/// `refine_quad`, `edge_quad` or `estimate_lens` (of eleven numbers), in the place of its numbers; working lists x and y.
pub fn corners(which: usize, p: &[f32], q: &mut [f32], x: &mut [f32], y: &mut [f32]) -> u32 {
    let (q, m, a, k, b, l) = (q.as_mut_ptr(), q.len(), x.as_mut_ptr(), x.len(), y.as_mut_ptr(), y.len());
    unsafe {
        match which {
            0 => lcr_refine_quad(p.as_ptr(), p.len(), q, m, a, k),
            1 => lcr_edge_quad(p.as_ptr(), p.len(), q, m, a, k, b, l),
            _ => lcr_estimate_lens(p.as_ptr(), p.len(), q, m, a, k, b, l),
        }
    }
}

fn solution(x: Result<[f64; 8], u32>) -> Vec<u32> {
    match x {
        Ok(x) => [0, 1].into_iter().chain(x.into_iter().flat_map(w64)).collect(),
        Err(255) => vec![0, 0],
        Err(n) => vec![n],
    }
}

/// Cells and positions: 10100 to 10106.
fn cell_words(kind: u32, args: &[u32]) -> Vec<u32> {
    let (v, x, y) = (args[0], args[1] as i32, args[2] as i32);
    let p = args[1] as usize | (args[2] as usize) << 32;
    let (mut side, mut n, mut a, mut b, mut light) = (0u16, 0usize, 0i32, 0i32, false);
    let (refused, words) = unsafe {
        match kind {
            10100 => (lcr_version(v, &mut side, &mut n), vec![0, side as u32, n as u32]),
            10101 => (lcr_shell(v, x, y, &mut n), vec![0, n as u32]),
            10102 => (lcr_edge_and_offset(v, x, y, &mut n, &mut a), vec![0, n as u32, a as u32]),
            10103 => (lcr_position(v, x, y, &mut n), vec![0, 1, n as u32]),
            10104 => (lcr_outer_cell(v, p, &mut a, &mut b), vec![0, a as u32, b as u32]),
            10105 => (lcr_inner_cell(v, p, &mut a, &mut b), vec![0, a as u32, b as u32]),
            _ => (lcr_sequence_light(v, p, &mut light), vec![0, light as u32]),
        }
    };
    match refused {
        0 => words,
        255 => vec![0, 0],
        n => vec![n],
    }
}

/// 10604: the lines, with zeros behind them; a refused call was to leave text and length as they were.
fn listing_words(args: &[u32]) -> Vec<u32> {
    let input = Words(&args[1..]).bytes(args[0] as usize).unwrap();
    let lent: Vec<u8> = (0..512).map(lent8).collect();
    let (mut text, mut len) = (lent.clone(), usize::MAX);
    let refused = unsafe { lcr_listing(input.as_ptr(), input.len(), text.as_mut_ptr(), &mut len) };
    if refused != 0 && text == lent && len == usize::MAX {
        text = format!("refused {refused}\n").into_bytes();
        len = text.len();
    }
    match text.split_at_checked(len) {
        Some((lines, rest)) if rest.iter().all(|&b| b == 0) => [vec![0, len as u32], packed(lines)].concat(),
        _ => vec![u32::MAX],
    }
}

/// 10605: sides and place, which a refused call was to leave as they were. 10606: how many bytes, likewise, then every place.
fn pgm_words(kind: u32, args: &[u32]) -> Vec<u32> {
    let mut words = Words(args);
    if kind == 10605 {
        let [n] = words.heads().unwrap();
        let file = words.bytes(n as usize).unwrap();
        let mut got = [usize::MAX; 3];
        let [w, h, at] = &mut got;
        let refused = unsafe { lcr_pgm_read(file.as_ptr(), file.len(), w, h, at) };
        let left = refused != 0 && got == [usize::MAX; 3];
        return if left { vec![refused] } else { [refused].into_iter().chain(got.map(|n| n as u32)).collect() };
    }
    let [w, h, n, m, high_w, high_h] = words.heads().unwrap();
    let g = words.bytes(n as usize).unwrap();
    let side = |low: u32, high: u32| low as usize | (high as usize) << 32;
    let (mut out, mut len): (Vec<u8>, _) = ((0..m as usize).map(lent8).collect(), usize::MAX);
    let refused = unsafe { lcr_pgm_write(g.as_ptr(), g.len(), side(w, high_w), side(h, high_h), out.as_mut_ptr(), out.len(), &mut len) };
    let count = if refused != 0 && len == usize::MAX { 0 } else { len as u32 };
    [vec![refused, count], packed(&out)].concat()
}

/// Whether many places at once have the pixels that they have one by one: two places and an odd number, which is not
/// read; places of the list past the pixels stay untouched.
fn alike(t: &[f64; 11], u: f32, v: f32) -> bool {
    let (a, b) = (apply(t, u, v), apply(t, v, u));
    let mut xy = [f32::MAX; 6];
    let refused = apply_all(t, &[u, v, v, u, u], &mut xy);
    let same = |x: f32, y: f32| w32(x) == w32(y);
    let pixels = [a.0, a.1, b.0, b.1, f32::MAX, f32::MAX];
    let short = apply_all(t, &[u, v], &mut [0.0]);
    refused == 0 && short == 3 && xy.iter().zip(pixels).all(|(&x, y)| same(x, y))
}

fn transform_words(kind: u32, args: &[u32]) -> Vec<u32> {
    let mut w = Words(args);
    if kind == 10401 {
        let t: [f64; 11] = w.doubles(11).unwrap().try_into().unwrap();
        let [u, v] = w.singles().unwrap();
        let (x, y) = apply(&t, u, v);
        return if alike(&t, u, v) { vec![0, w32(x), w32(y)] } else { vec![u32::MAX] };
    }
    let Some(mut t) = from_quad(&w.singles().unwrap(), &w.singles().unwrap()) else { return vec![0, 0] };
    if kind == 10400 {
        return [0, 1].into_iter().chain(t[..8].iter().flat_map(|&x| w64(x))).collect();
    }
    let ([cx, cy, kappa], [u, v]) = (w.singles().unwrap(), w.singles::<2>().unwrap());
    unsafe { lcr_with_radial(t.as_mut_ptr(), cx, cy, kappa) };
    let (x, y) = apply(&t, u, v);
    [vec![0, 1], t.iter().flat_map(|&x| w64(x)).collect(), vec![w32(x), w32(y)]].concat()
}

/// 10703: the split and its round; a refused call leaves both.
fn split_words(values: &[f32]) -> Vec<u32> {
    let (mut split, mut round) = (0.5, 7);
    match unsafe { lcr_split(values.as_ptr(), values.len(), &mut split, &mut round) } {
        0 => vec![0, w32(split), round],
        n if (split, round) == (0.5, 7) => vec![n],
        n => vec![n, 1],
    }
}

/// 10700: the answer, then the lent marks after the call. 10702: the pose and the eight counts.
fn marks_words(kind: u32, args: &[u32]) -> Vec<u32> {
    let (v, n) = (args[0], args[1] as usize);
    if kind == 10700 {
        let mut marks: Vec<bool> = (0..n).map(|k| k % 3 == 0).collect();
        let refused = classify(v, &singles(&args[2..]), &mut marks);
        let head = if refused == 0 { [vec![0], bits(&marks)].concat() } else { vec![refused] };
        return [head, vec![0], bits(&marks)].concat();
    }
    let marks: Vec<bool> = (0..n).map(|k| args[2 + k / 32] >> (k % 32) & 1 == 1).collect();
    match correlate(v, &marks) {
        Ok((s, r, b, c)) => [vec![0, w32(s), r as u32, b as u32], c.map(|x| x as u32).to_vec()].concat(),
        Err(n) => vec![n],
    }
}

fn math_words(kind: u32, args: &[u32]) -> Vec<u32> {
    if kind >= 10302 {
        let mut v = singles(args);
        let x = if kind == 10302 { median(&mut v) } else { mad_sigma(&v) };
        let left = if kind == 10302 { v.iter().map(|&x| w32(x)).collect() } else { vec![] };
        return x.map_or_else(|n| vec![n], |x| [vec![0, w32(x)], left].concat());
    }
    let mut w = Words(args);
    let [n, la, lb] = w.heads().unwrap().map(|x| x as usize);
    let (a, b) = (w.doubles(la).unwrap(), w.doubles(lb).unwrap());
    solution(if kind == 10300 { solve(&a, &b, n) } else { least_squares(&a, &b, n) })
}

/// What a leaf's C function answers.
pub fn direct(kind: u32, args: &[u32]) -> Vec<u32> {
    match kind {
        10100..10200 => cell_words(kind, args),
        10300..10400 => math_words(kind, args),
        10400..10500 => transform_words(kind, args),
        10604 => listing_words(args),
        10605 | 10606 => pgm_words(kind, args),
        10703 => split_words(&singles(args)),
        _ => marks_words(kind, args),
    }
}
