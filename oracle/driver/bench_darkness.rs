//! `bench-darkness [SEED]`: times of the darkness of boxes beside plain loops in Rust, in one run on the same random pixels,
//! level grids and boxes. A table in Markdown.
use crate::pic::Rng;
use crate::timed::{both, median, now};
use std::hint::black_box;

#[rustfmt::skip]
unsafe extern "C" {
    fn lcr_darkness(gray: *const u8, n: usize, levels: *const u8, g: usize, w: usize, h: usize, boxes: *const u32, b: usize,
        table: *mut u32, t: usize, counts: *mut u32, c: usize) -> u32;
}

const BOXES: usize = 10_000;

/// A picture's sides, pixels, level grid and boxes.
struct Case {
    w: usize,
    h: usize,
    gray: Vec<u8>,
    levels: Vec<u8>,
    boxes: Vec<u32>,
}

/// Two places along a side, the lesser first.
fn part(r: &mut Rng, side: usize) -> (u32, u32) {
    let (a, b) = (r.range(0, side as i64) as u32, r.range(0, side as i64) as u32);
    (a.min(b), a.max(b))
}

impl Case {
    fn random(side: usize, r: &mut Rng) -> Case {
        let mut byte = |_| r.next() as u8;
        let gray = (0..side * side).map(&mut byte).collect();
        let levels = (0..side.div_ceil(16).pow(2)).map(&mut byte).collect();
        let mut four = |_| { let ((x0, x1), (y0, y1)) = (part(r, side), part(r, side)); [x0, y0, x1, y1] };
        Case { w: side, h: side, gray, levels, boxes: (0..BOXES).flat_map(&mut four).collect() }
    }

    /// The C function with the first `many` boxes.
    fn ours(&self, many: usize, table: &mut [u32], counts: &mut [u32]) {
        let (g, l, b) = (black_box(&self.gray), black_box(&self.levels), &self.boxes[..4 * many]);
        let refused = unsafe {
            lcr_darkness(
                g.as_ptr(), g.len(), l.as_ptr(), l.len(), self.w, self.h, b.as_ptr(), b.len(), table.as_mut_ptr(), table.len(),
                counts.as_mut_ptr(), counts.len(),
            )
        };
        assert_eq!(refused, 0);
    }

    /// The plain loops with the first `many` boxes.
    fn plain(&self, many: usize, table: &mut [u32], counts: &mut [u32]) {
        let (w, h) = black_box((self.w, self.h));
        fill(black_box(&self.gray), black_box(&self.levels), w, h, table);
        answer(&self.boxes[..4 * many], w, table, counts);
    }
}

/// The table by a plain loop over the pixels.
#[inline(never)]
fn fill(gray: &[u8], levels: &[u8], w: usize, h: usize, table: &mut [u32]) {
    let cells = w.div_ceil(16);
    table[..w + 1].fill(0);
    for y in 0..h {
        let mut sum = 0;
        table[(y + 1) * (w + 1)] = 0;
        for x in 0..w {
            sum += (gray[y * w + x] < levels[y / 16 * cells + x / 16]) as u32;
            table[(y + 1) * (w + 1) + x + 1] = table[y * (w + 1) + x + 1] + sum;
        }
    }
}

/// The counts of boxes by four reads of the table each.
#[inline(never)]
fn answer(boxes: &[u32], w: usize, table: &[u32], counts: &mut [u32]) {
    for (b, n) in boxes.chunks_exact(4).zip(counts) {
        let at = |x: u32, y: u32| table[y as usize * (w + 1) + x as usize];
        *n = at(b[2], b[3]) + at(b[0], b[1]) - at(b[0], b[3]) - at(b[2], b[1]);
    }
}

/// The sum of a table's numbers at given places.
#[inline(never)]
fn bare(places: &[usize], table: &[u32]) -> u32 {
    places.iter().fold(0, |n, &i| n.wrapping_add(table[i]))
}

/// The time of one call.
fn time(f: impl FnOnce()) -> f64 {
    let t = now();
    f();
    now() - t
}

/// Nanoseconds: a pixel of the table, the Rust's and ours; a box, the Rust's and ours, which is a call with boxes less the one
/// without before it; and four bare reads of a table just filled, at the places of a box.
struct Times {
    table: (f64, f64),
    boxes: (f64, f64),
    bare: f64,
}

fn times(c: &Case) -> Times {
    let room = (c.w + 1) * (c.h + 1);
    let (mut t, mut u, mut m, mut n) = (vec![1; room], vec![2; room], vec![3; BOXES], vec![4; BOXES]);
    let table = both(|| c.plain(0, &mut t, &mut m), || c.ours(0, &mut u, &mut n));
    assert!(t == u, "the tables differ");
    let four = |b: &[u32]| [(b[2], b[3]), (b[0], b[1]), (b[0], b[3]), (b[2], b[1])].map(|(x, y)| y as usize * (c.w + 1) + x as usize);
    let places: Vec<usize> = c.boxes.chunks(4).flat_map(four).collect();
    let (mut rust, mut ours, mut reads, from) = (Vec::new(), Vec::new(), Vec::new(), now());
    while rust.len() < 51 || (now() - from < 2e9 && rust.len() < 501) {
        let without = time(|| c.plain(0, &mut t, &mut m));
        rust.push(time(|| c.plain(BOXES, &mut t, &mut m)) - without);
        let without = time(|| c.ours(0, &mut u, &mut n));
        ours.push(time(|| c.ours(BOXES, &mut u, &mut n)) - without);
        c.ours(0, &mut u, &mut n);
        reads.push(time(|| { black_box(bare(&places, &u)); }));
    }
    assert!(t == u && m == n, "the counts differ");
    let (pixels, boxes) = (c.gray.len() as f64, BOXES as f64);
    let [rust, ours, bare] = [rust, ours, reads].map(|v| median(v) / boxes);
    Times { table: (table.0 / pixels, table.1 / pixels), boxes: (rust, ours), bare }
}

fn mark(what: &str, most: f64, seen: f64) {
    println!("| {what} | {most:.2} | {seen:.2} | {} |", if seen <= most { "met" } else { "missed" });
}

pub fn run(seed: u64) {
    println!("\nDarkness of boxes: random pixels, level grids and boxes from seed {seed}; beside plain loops in Rust, the sides by turns,");
    println!("in the processor's time. Table: nanoseconds a pixel of a call without boxes, medians of at least five rounds. Box:");
    println!("nanoseconds a box of a call with {BOXES} boxes less one without, medians of at least 51 rounds; ours checks each box first.");
    println!("Four reads: a loop that only reads a table just filled, four numbers a box, at places known before. A table of 4,096");
    println!("by 4,096 has 67 MB.\n");
    println!("| side | table, Rust | table, ours | ratio | box, Rust | box, ours | ratio | four reads |");
    println!("|---|---|---|---|---|---|---|---|");
    let mut r = Rng(seed);
    let mut last = None;
    for side in [256, 1024, 4096] {
        let t = times(&Case::random(side, &mut r));
        let ((a, b), (c, d)) = (t.table, t.boxes);
        println!("| {side} | {a:.2} | {b:.2} | {:.2} | {c:.1} | {d:.1} | {:.2} | {:.1} |", b / a, d / c, t.bare);
        last = Some(t);
    }
    let Times { table: (a, b), boxes: (_, d), .. } = last.unwrap();
    println!("\n| at 4,096 by 4,096 | mark | seen | |\n|---|---|---|---|");
    mark("nanoseconds a pixel of the table", 1.2, b);
    mark("the same, ours / Rust", 1.0, b / a);
    mark("nanoseconds a box", 20.0, d);
}
