//! A safe wrapper of the ring finder: `find` and `tags` from a picture to its rings; the doors `map`, `outline` and `attempt`
//! step by step; hull and quad of an outline in whole numbers, `whole_outline`; the ink of boxes, `darkness`; PGM files, `pgm_read` and `pgm_write`; proof rings, `draw_ring` and `read_ring`; and
//! how often noise makes an outline, `rows_without` and `rows_with`.
//!
//! Link with liblcr_ring.a (`rt lib` in crates/lcr_ring makes it). include/lcr_ring.h says what each function takes and gives.
//! The lists that the doors want are made here, as long as they must be, so that no caller meets a refusal for one.

/// Why a call is refused: the rules' number.
#[derive(Debug, Clone, Copy, PartialEq, Eq)]
pub struct Refusal(pub u32);

impl std::fmt::Display for Refusal {
    fn fmt(&self, f: &mut std::fmt::Formatter) -> std::fmt::Result {
        let what = match self.0 {
            1 => "a side outside 1 to 4,096 pixels",
            2 => "bytes not width times height",
            3 => "a list is too short",
            5 => "a box that is not within the picture",
            6 => "an odd list of points, or more than 16,384",
            7 => "a coordinate not finite, or beyond 32,768",
            8 => "a version outside 1 to 64",
            14 => "no PGM header (P5) within the first 4,096 bytes",
            15 => "a PGM maximum value other than 255",
            16 => "a pitch outside 1 to 16, a corner outside 0 to 3, or a picture too small for the ring",
            17 => "a shortest run outside 2 to 8",
            18 => "a box with its sides exchanged, or past the picture's edge",
            21 => "a coordinate that is no half of a whole number from 0 to 8,192",
            22 => "more than 60 pixels, or a place not below their number",
            _ => "refused",
        };
        write!(f, "{what} (refusal {})", self.0)
    }
}

impl std::error::Error for Refusal {}

/// A region: its label, how many cells of 8 by 8 pixels it has, and its box in pixels, right and bottom exclusive.
#[derive(Debug, Clone, Copy, PartialEq, Eq)]
pub struct Region {
    pub label: u32,
    pub cells: u32,
    pub left: u32,
    pub top: u32,
    pub right: u32,
    pub bottom: u32,
}

/// What the picture door finds: thresholds, labels, how many regions there are, and the kept ones, largest first.
#[derive(Debug, Clone)]
pub struct Map {
    pub levels: Vec<u8>,
    pub labels: Vec<u32>,
    pub all: u32,
    pub kept: Vec<Region>,
}

/// A located ring: its version, the fraction of positions that agree, the quad's corner where position 0 is, whether
/// it runs backwards, and the transform's eleven numbers.
#[derive(Debug, Clone, Copy, PartialEq)]
pub struct Ring {
    pub version: u8,
    pub agreement: f32,
    pub corner: u8,
    pub mirrored: bool,
    pub map: [f64; 11],
}

/// An attempt's trace: vertices of the hull that was searched and its quad, of straightened points where a lens is found,
/// each version's (version, agreement, corner, mirrored), the ring,
/// and the ring under the relaxed rule, which is looked for only where there is no `fix`.
#[derive(Debug, Clone, PartialEq)]
pub struct Trace {
    pub hull: usize,
    pub quad: Option<[(f32, f32); 4]>,
    pub scores: Vec<(u8, f32, u8, bool)>,
    pub fix: Option<Ring>,
    pub fallback: Option<Ring>,
}

/// What the finder answers: how many regions the picture has, kept or not, and the trace of the try that stands.
#[derive(Debug, Clone, PartialEq)]
pub struct Found {
    pub regions: usize,
    pub trace: Trace,
}

/// A tag: its version, the fraction of positions that agree, whether the ring runs backwards, as in a mirror, and the
/// corners of its outer square in pixels, in the ring's own order: that of position 0 first.
#[derive(Debug, Clone, Copy, PartialEq)]
pub struct Tag {
    pub version: u8,
    pub agreement: f32,
    pub mirrored: bool,
    pub corners: [(f32, f32); 4],
}

#[rustfmt::skip]
unsafe extern "C" {
    fn lcr_picture(gray: *const u8, n: usize, width: usize, height: usize, levels: *mut u8, l: usize, labels: *mut u32, m: usize,
        stack: *mut u32, k: usize, regions: *mut u32) -> u32;
    fn lcr_darkness(gray: *const u8, n: usize, levels: *const u8, l: usize, width: usize, height: usize, boxes: *const u32, b: usize,
        table: *mut u32, t: usize, counts: *mut u32, c: usize) -> u32;
    fn lcr_outline(gray: *const u8, n: usize, levels: *const u8, l: usize, labels: *const u32, m: usize, want: u32, width: usize,
        height: usize, x0: usize, y0: usize, x1: usize, y1: usize, out: *mut f32, o: usize, points: *mut usize) -> u32;
    fn lcr_doubled(points: *const f32, n: usize, out: *mut u32, m: usize) -> u32;
    fn lcr_whole_hull(points: *const u32, n: usize, out: *mut u32, m: usize, vertices: *mut usize) -> u32;
    fn lcr_whole_quad(vertices: *const u32, n: usize, quad: *mut u32) -> u32;
    fn lcr_attempt(gray: *const u8, n: usize, width: usize, height: usize, points: *const f32, m: usize, most: u32,
        straight: *mut f32, a: usize, cand: *mut f32, b: usize, buf: *mut f32, c: usize, hull: *mut usize, found: *mut bool,
        quad: *mut f32, tried: *mut usize, scores: *mut f32, fix: *mut f64, fallback: *mut f64) -> u32;
    fn lcr_find(gray: *const u8, n: usize, width: usize, height: usize, most: u32, levels: *mut u8, l: usize, labels: *mut u32,
        m: usize, stack: *mut u32, k: usize, points: *mut f32, p: usize, straight: *mut f32, a: usize, cand: *mut f32, b: usize,
        buf: *mut f32, c: usize, regions: *mut usize, hull: *mut usize, found: *mut bool, quad: *mut f32, tried: *mut usize,
        scores: *mut f32, fix: *mut f64, fallback: *mut f64) -> u32;
    fn lcr_tags(gray: *const u8, n: usize, width: usize, height: usize, most: u32, levels: *mut u8, l: usize, labels: *mut u32,
        m: usize, stack: *mut u32, k: usize, points: *mut f32, p: usize, straight: *mut f32, a: usize, cand: *mut f32, b: usize,
        buf: *mut f32, c: usize, many: *mut usize, tags: *mut f32) -> u32;
    fn lcr_pgm_read(file: *const u8, n: usize, width: *mut usize, height: *mut usize, at: *mut usize) -> u32;
    fn lcr_pgm_write(gray: *const u8, n: usize, width: usize, height: usize, out: *mut u8, m: usize, len: *mut usize) -> u32;
    fn lcr_draw_ring(version: u32, pitch: u32, corner: u32, reversed: bool, gray: *mut u8, n: usize, width: usize, height: usize) -> u32;
    fn lcr_read_ring(version: u32, pitch: u32, gray: *const u8, n: usize, width: usize, height: usize, marks: *mut bool, m: usize) -> u32;
    fn lcr_rows_without(run: u32, length: u32, count: *mut u64) -> u32;
    fn lcr_rows_with(run: u32, length: u32, first: u32, last: u32, count: *mut u64) -> u32;
}

fn told(no: u32) -> Result<(), Refusal> {
    if no == 0 { Ok(()) } else { Err(Refusal(no)) }
}

/// How many cells of n by n pixels a picture has; none where the doors refuse a side.
fn cells(width: usize, height: usize, n: usize) -> usize {
    if width <= 4096 && height <= 4096 { width.div_ceil(n) * height.div_ceil(n) } else { 0 }
}

/// The lists that the finder is lent.
struct Lent {
    levels: Vec<u8>,
    labels: Vec<u32>,
    stack: Vec<u32>,
    numbers: [Vec<f32>; 4],
}

impl Lent {
    fn of(width: usize, height: usize) -> Lent {
        let n = if width <= 4096 && height <= 4096 { 4 * (width + height) } else { 0 };
        let grid = cells(width, height, 8);
        let levels = vec![0; cells(width, height, 16)];
        Lent { levels, labels: vec![0; grid], stack: vec![0; grid], numbers: std::array::from_fn(|_| vec![0.0; n]) }
    }
}

/// The picture door: a picture of one byte a pixel, row by row.
pub fn map(gray: &[u8], width: usize, height: usize) -> Result<Map, Refusal> {
    let Lent { mut levels, mut labels, mut stack, .. } = Lent::of(width, height);
    let mut r = [0u32; 26];
    // SAFETY: each pointer is that of a list of the length beside it, and no two overlap.
    told(unsafe {
        lcr_picture(
            gray.as_ptr(), gray.len(), width, height, levels.as_mut_ptr(), levels.len(), labels.as_mut_ptr(), labels.len(),
            stack.as_mut_ptr(), stack.len(), r.as_mut_ptr(),
        )
    })?;
    let kept = r[2..].chunks_exact(6).take(r[1] as usize);
    let region = |k: &[u32]| Region { label: k[0], cells: k[1], left: k[2], top: k[3], right: k[4], bottom: k[5] };
    Ok(Map { levels, labels, all: r[0], kept: kept.map(region).collect() })
}

/// How many ink pixels each box has: left, top, right, bottom in pixels, the last two exclusive. The whole table is made for each call.
pub fn darkness(gray: &[u8], width: usize, height: usize, map: &Map, boxes: &[[u32; 4]]) -> Result<Vec<u32>, Refusal> {
    let places = if width <= 4096 && height <= 4096 { (width + 1) * (height + 1) } else { 0 };
    let (numbers, mut table, mut counts) = (boxes.concat(), vec![0; places], vec![0; boxes.len()]);
    // SAFETY: as above.
    told(unsafe {
        lcr_darkness(
            gray.as_ptr(), gray.len(), map.levels.as_ptr(), map.levels.len(), width, height, numbers.as_ptr(), numbers.len(),
            table.as_mut_ptr(), table.len(), counts.as_mut_ptr(), counts.len(),
        )
    })?;
    Ok(counts)
}

/// The kept regions of a picture, largest first.
pub fn regions(gray: &[u8], width: usize, height: usize) -> Result<Vec<Region>, Refusal> {
    Ok(map(gray, width, height)?.kept)
}

/// The outline door: boundary points of a region's box in the picture that `map` was made of.
pub fn outline(gray: &[u8], width: usize, height: usize, map: &Map, r: &Region) -> Result<Vec<(f32, f32)>, Refusal> {
    let [x0, y0, x1, y1] = [r.left, r.top, r.right, r.bottom].map(|n| n as usize);
    let (mut out, mut points) = (vec![0f32; 4 * (x1.saturating_sub(x0) + y1.saturating_sub(y0))], 0);
    // SAFETY: as above; `points` is one number.
    told(unsafe {
        lcr_outline(
            gray.as_ptr(), gray.len(), map.levels.as_ptr(), map.levels.len(), map.labels.as_ptr(), map.labels.len(), r.label,
            width, height, x0, y0, x1, y1, out.as_mut_ptr(), out.len(), &mut points,
        )
    })?;
    Ok(out.chunks_exact(2).take(points).map(|p| (p[0], p[1])).collect())
}

/// Hull and quad of points as `outline` lists them, in whole numbers: coordinates doubled, exact up to 4,096 pixels a side.
pub struct WholeOutline {
    pub hull: Vec<(u32, u32)>,
    pub quad: Option<[(u32, u32); 4]>,
}

/// The hull of an outline and its quad, clockwise, in doubled coordinates.
pub fn whole_outline(points: &[(f32, f32)]) -> Result<WholeOutline, Refusal> {
    let list: Vec<f32> = points.iter().flat_map(|p| [p.0, p.1]).collect();
    let (mut doubled, mut out, mut vertices) = (vec![0u32; list.len()], vec![0u32; list.len()], 0);
    let mut quad = [0u32; 8];
    // SAFETY: as above.
    let no = unsafe {
        told(lcr_doubled(list.as_ptr(), list.len(), doubled.as_mut_ptr(), doubled.len()))?;
        told(lcr_whole_hull(doubled.as_ptr(), doubled.len(), out.as_mut_ptr(), out.len(), &mut vertices))?;
        lcr_whole_quad(out.as_ptr(), 2 * vertices, quad.as_mut_ptr())
    };
    let quad = if no == 255 { None } else { told(no).map(|_| Some(std::array::from_fn(|i| (quad[2 * i], quad[2 * i + 1]))))? };
    Ok(WholeOutline { hull: out.chunks_exact(2).take(vertices).map(|p| (p[0], p[1])).collect(), quad })
}

fn ring(f: &[f64; 15]) -> Option<Ring> {
    let map = std::array::from_fn(|i| f[4 + i]);
    let r = Ring { version: f[0] as u8, agreement: f[1] as f32, corner: f[2] as u8, mirrored: f[3] != 0.0, map };
    if r.version == 0 { None } else { Some(r) }
}

/// The ring door: one attempt at a ring from boundary points, up to version `most`.
pub fn attempt(gray: &[u8], width: usize, height: usize, points: &[(f32, f32)], most: u32) -> Result<Trace, Refusal> {
    let list: Vec<f32> = points.iter().flat_map(|p| [p.0, p.1]).collect();
    let n = list.len();
    let (mut a, mut b, mut c) = (vec![0f32; n], vec![0f32; n], vec![0f32; n]);
    let (mut hull, mut tried, mut found) = (0, 0, false);
    let (mut quad, mut scores, mut fix, mut fallback) = ([0f32; 8], [0f32; 256], [0f64; 15], [0f64; 15]);
    // SAFETY: as above; the fixed arrays have the lengths of the header.
    told(unsafe {
        lcr_attempt(
            gray.as_ptr(), gray.len(), width, height, list.as_ptr(), n, most, a.as_mut_ptr(), n, b.as_mut_ptr(), n, c.as_mut_ptr(), n,
            &mut hull, &mut found, quad.as_mut_ptr(), &mut tried, scores.as_mut_ptr(), fix.as_mut_ptr(), fallback.as_mut_ptr(),
        )
    })?;
    Ok(Trace { hull, quad: found.then(|| corners(&quad)), scores: rows(&scores, tried), fix: ring(&fix), fallback: ring(&fallback) })
}

/// Four corners, x and y by turns.
fn corners(q: &[f32]) -> [(f32, f32); 4] {
    std::array::from_fn(|i| (q[2 * i], q[2 * i + 1]))
}

/// The scores of a trace.
fn rows(scores: &[f32], tried: usize) -> Vec<(u8, f32, u8, bool)> {
    scores.chunks_exact(4).take(tried).map(|s| (s[0] as u8, s[1], s[2] as u8, s[3] != 0.0)).collect()
}

/// The finder: from a picture to its ring, up to version `most`. `detect_ring` is `trace.fix` of its answer.
pub fn find(gray: &[u8], width: usize, height: usize, most: u32) -> Result<Found, Refusal> {
    let Lent { mut levels, mut labels, mut stack, numbers: [mut p, mut a, mut b, mut c] } = Lent::of(width, height);
    let (mut regions, mut hull, mut tried, mut found) = (0, 0, 0, false);
    let (mut quad, mut scores, mut fix, mut fallback) = ([0f32; 8], [0f32; 256], [0f64; 15], [0f64; 15]);
    // SAFETY: as above; the fixed arrays have the lengths of the header.
    told(unsafe {
        lcr_find(
            gray.as_ptr(), gray.len(), width, height, most, levels.as_mut_ptr(), levels.len(), labels.as_mut_ptr(), labels.len(),
            stack.as_mut_ptr(), stack.len(), p.as_mut_ptr(), p.len(), a.as_mut_ptr(), a.len(), b.as_mut_ptr(), b.len(),
            c.as_mut_ptr(), c.len(), &mut regions, &mut hull, &mut found, quad.as_mut_ptr(), &mut tried, scores.as_mut_ptr(),
            fix.as_mut_ptr(), fallback.as_mut_ptr(),
        )
    })?;
    let quad = found.then(|| corners(&quad));
    let trace = Trace { hull, quad, scores: rows(&scores, tried), fix: ring(&fix), fallback: ring(&fallback) };
    Ok(Found { regions, trace })
}

/// The tags of a picture, up to four, versions up to `most`.
pub fn tags(gray: &[u8], width: usize, height: usize, most: u32) -> Result<Vec<Tag>, Refusal> {
    let Lent { mut levels, mut labels, mut stack, numbers: [mut p, mut a, mut b, mut c] } = Lent::of(width, height);
    let (mut many, mut tags) = (0, [0f32; 44]);
    // SAFETY: as above.
    told(unsafe {
        lcr_tags(
            gray.as_ptr(), gray.len(), width, height, most, levels.as_mut_ptr(), levels.len(), labels.as_mut_ptr(), labels.len(),
            stack.as_mut_ptr(), stack.len(), p.as_mut_ptr(), p.len(), a.as_mut_ptr(), a.len(), b.as_mut_ptr(), b.len(),
            c.as_mut_ptr(), c.len(), &mut many, tags.as_mut_ptr(),
        )
    })?;
    let tag = |t: &[f32]| Tag { version: t[0] as u8, agreement: t[1], mirrored: t[2] != 0.0, corners: corners(&t[3..]) };
    Ok(tags.chunks_exact(11).take(many).map(tag).collect())
}

/// Width, height and pixels of a PGM file (P5, maximum value 255). Bytes after the pixels are not read.
pub fn pgm_read(file: &[u8]) -> Result<(usize, usize, &[u8]), Refusal> {
    let (mut width, mut height, mut at) = (0, 0, 0);
    // SAFETY: as above; `width`, `height` and `at` are one number each.
    told(unsafe { lcr_pgm_read(file.as_ptr(), file.len(), &mut width, &mut height, &mut at) })?;
    Ok((width, height, &file[at..at + width * height]))
}

/// The PGM file of a picture.
pub fn pgm_write(gray: &[u8], width: usize, height: usize) -> Result<Vec<u8>, Refusal> {
    // a header has at most 17 bytes
    let (mut out, mut len) = (vec![0; gray.len() + 17], 0);
    // SAFETY: as above; `len` is one number.
    told(unsafe { lcr_pgm_write(gray.as_ptr(), gray.len(), width, height, out.as_mut_ptr(), out.len(), &mut len) })?;
    out.truncate(len);
    Ok(out)
}

/// The ring of a version drawn into a whole picture, `pitch` pixels a cell: position 0 in the given corner, clockwise from the
/// upper left one, and running backwards where `reversed`.
pub fn draw_ring(version: u32, pitch: u32, corner: u32, reversed: bool, width: usize, height: usize) -> Result<Vec<u8>, Refusal> {
    let mut gray = vec![0; if width <= 4096 && height <= 4096 { width * height } else { 0 }];
    // SAFETY: as above.
    told(unsafe { lcr_draw_ring(version, pitch, corner, reversed, gray.as_mut_ptr(), gray.len(), width, height) })?;
    Ok(gray)
}

/// The marks of a ring that lies where `draw_ring` draws it, light or not, from the centres of its cells.
pub fn read_ring(version: u32, pitch: u32, gray: &[u8], width: usize, height: usize) -> Result<Vec<bool>, Refusal> {
    let mut marks = vec![false; if version <= 64 { 16 * version as usize + 88 } else { 0 }];
    // SAFETY: as above.
    told(unsafe { lcr_read_ring(version, pitch, gray.as_ptr(), gray.len(), width, height, marks.as_mut_ptr(), marks.len()) })?;
    Ok(marks)
}

/// How many of all rows of `length` pixels have no outline point, where `run` is the shortest run that counts.
pub fn rows_without(run: u32, length: u32) -> Result<u64, Refusal> {
    let mut count = 0;
    // SAFETY: `count` is one number.
    told(unsafe { lcr_rows_without(run, length, &mut count) })?;
    Ok(count)
}

/// How many of them have an outline whose first pixel is `first` and whose last is `last`.
pub fn rows_with(run: u32, length: u32, first: u32, last: u32) -> Result<u64, Refusal> {
    let mut count = 0;
    // SAFETY: `count` is one number.
    told(unsafe { lcr_rows_with(run, length, first, last, &mut count) })?;
    Ok(count)
}
