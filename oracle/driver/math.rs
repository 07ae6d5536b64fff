//! math: equations, least squares, medians, with the rules' refusals 9 and 10.
use crate::calls::{w32, w64, Area, Call, Words};
use crate::ieee;
use crate::pic::Rng;
use crate::smaller::{Layout, Unit};
use lcr_decode::math;

pub const AREA: Area = Area { name: "math", stored, random, answer, layout };

pub fn longs(v: &[f64]) -> Vec<u32> {
    v.iter().flat_map(|&x| w64(x)).collect()
}

/// An answer's words: eight numbers, +0 past the solution's.
fn solution(x: Option<Vec<f64>>) -> Vec<u32> {
    x.map_or(vec![0, 0], |mut v| {
        v.resize(8, 0.0);
        [vec![0, 1], longs(&v)].concat()
    })
}

fn layout(kind: u32) -> Layout {
    if kind < 302 {
        return Layout::heads(3).list(Some(1), Unit::Long, 1).list(Some(2), Unit::Long, 1);
    }
    Layout::heads(0).list(None, Unit::Word, 1)
}

fn answer(kind: u32, args: &[u32]) -> Option<Vec<u32>> {
    let mut w = Words(args);
    if kind >= 302 {
        let v = w.rest();
        return Some(if kind == 302 { median_words(&v) } else { mad_words(&v) });
    }
    let [n, la, lb] = w.heads()?.map(|x| x as usize);
    let (a, b) = (w.doubles(la)?, w.doubles(lb)?);
    w.ended(if kind == 300 { solve_words(n, a, b) } else { least_words(n, &a, &b) })
}

fn solve_words(n: usize, mut a: Vec<f64>, mut b: Vec<f64>) -> Vec<u32> {
    if !(1..=8).contains(&n) || a.len() != n * n || b.len() != n {
        return vec![9];
    }
    solution(math::solve(&mut a, &mut b, n))
}

fn least_words(n: usize, basis: &[f64], targets: &[f64]) -> Vec<u32> {
    if !(1..=8).contains(&n) || basis.len() != targets.len() * n {
        return vec![9];
    }
    let rows: Vec<(Vec<f64>, f64)> = basis.chunks(n).map(|c| c.to_vec()).zip(targets.iter().copied()).collect();
    solution(math::least_squares(&rows, n))
}

fn equations(kind: u32, n: usize, a: &[f64], b: &[f64]) -> Call {
    AREA.call(kind, [vec![n as u32, a.len() as u32, b.len() as u32], longs(a), longs(b)].concat())
}

fn solve(n: usize, a: &[f64], b: &[f64]) -> Call {
    equations(300, n, a, b)
}

fn least_squares(n: usize, basis: &[f64], targets: &[f64]) -> Call {
    equations(301, n, basis, targets)
}

/// The rules' checks of values: 9, then 10.
fn refusal(v: &[f32]) -> Option<u32> {
    if v.len() > 4096 {
        Some(9)
    } else if v.iter().any(|x| !x.is_finite() || x.to_bits() == 0x8000_0000) {
        Some(10)
    } else {
        None
    }
}

fn median_words(v: &[f32]) -> Vec<u32> {
    let mut left = v.to_vec();
    refusal(v).map_or_else(
        || {
            let m = math::median(&mut left);
            [vec![0, w32(m)], left.iter().map(|&x| w32(x)).collect()].concat()
        },
        |n| vec![n],
    )
}

fn mad_words(v: &[f32]) -> Vec<u32> {
    refusal(v).map_or_else(|| vec![0, w32(math::mad_sigma(v))], |n| vec![n])
}

fn median(v: &[f32]) -> Call {
    AREA.call(302, v.iter().map(|x| x.to_bits()).collect())
}

fn mad_sigma(v: &[f32]) -> Call {
    AREA.call(303, v.iter().map(|x| x.to_bits()).collect())
}

/// Some values to be ordered: few different ones, any finite f32, near the limits, or subnormal.
pub fn values(r: &mut Rng, n: usize) -> Vec<f32> {
    let how = r.below(6);
    (0..n)
        .map(|i| {
            let x = match how {
                0 => r.range(-3, 3) as f32,
                1 => f32::from_bits(r.next() as u32),
                2 => r.range(-40, 40) as f32 * 1e37,
                3 => f32::from_bits(r.below(200) as u32 | (r.below(2) as u32) << 31),
                4 => i as f32 - n as f32 * 0.3,
                _ => r.unit() as f32 * 200.0 - 100.0,
            };
            if x.is_finite() && x.to_bits() != 0x8000_0000 { x } else { r.range(0, 255) as f32 }
        })
        .collect()
}

/// A number of a system: small and whole, near a pivot's limit, or any f64.
fn entry(r: &mut Rng, how: u64) -> f64 {
    match how {
        0 => r.range(-3, 3) as f64,
        1 => r.unit() * 2.0 - 1.0,
        2 => (r.unit() * 2.0 - 1.0) * 2e-12,
        3 if r.chance(0.1) => f64::from_bits(r.next()),
        3 => r.range(-9, 9) as f64 * 0.25,
        4 if r.chance(0.2) => [0.0, -0.0, f64::NAN, f64::INFINITY, -f64::INFINITY, 1e-12, -1e-12, 9e-13, 1e300, 5e-324][r.below(10) as usize],
        _ => r.unit() * 1000.0,
    }
}

fn system(r: &mut Rng, n: usize) -> (Vec<f64>, Vec<f64>) {
    let how = r.below(6);
    let mut a: Vec<f64> = (0..n * n).map(|_| entry(r, how)).collect();
    if n > 1 && r.chance(0.2) {
        // a row that another one fixes
        let (i, j, f) = (r.below(n as u64) as usize, r.below(n as u64) as usize, r.range(-2, 2) as f64);
        for k in 0..n {
            a[i * n + k] = a[j * n + k] * f;
        }
    }
    let b = (0..n).map(|_| entry(r, how)).collect();
    (a, b)
}

fn stored() -> Vec<Call> {
    let mut o = Vec::new();
    let mut r = Rng(20301);
    // size 1: a pivot of 1e-12 is solved, one of 9e-13 is none, a NaN gives a NaN
    for p in [1e-12, -1e-12, 9e-13, -9e-13, 9.999999999999999e-13, 1.0000000000000002e-12, 0.0, -0.0, f64::NAN, f64::INFINITY, 5e-324, 1.0] {
        for b in [1.0, -0.0, f64::NAN, f64::INFINITY, 1e-300] {
            o.push(solve(1, &[p], &[b]));
        }
    }
    for n in 1..=8 {
        for _ in 0..40 {
            let (a, b) = system(&mut r, n);
            o.push(solve(n, &a, &b));
        }
        // the first of equal pivots, −0 factors, a NaN above a number and below one
        let mut a = vec![0.0; n * n];
        for i in 0..n {
            for j in 0..n {
                a[i * n + j] = if (i + j) % 2 == 0 { 1.0 } else { -1.0 } * (1 + i * j % 3) as f64;
            }
        }
        let b: Vec<f64> = (0..n).map(|i| i as f64 - 2.0).collect();
        o.push(solve(n, &a, &b));
        for place in [0, n * n / 2, n * n - 1] {
            for x in [f64::NAN, f64::INFINITY, -0.0, 1e-12, 1e300] {
                let mut c = a.clone();
                c[place] = x;
                o.push(solve(n, &c, &b));
            }
        }
        o.push(solve(n, &vec![0.0; n * n], &b));
    }
    // lengths that disagree, sizes outside 1..8
    for n in [0, 1, 2, 3, 7, 8, 9, 16, 65536, 0x8000_0000, 0xffff_ffff] {
        for la in [0, 1, 4, 9, 63, 64, 65, 81] {
            for lb in [0, 1, 2, 3, 7, 8, 9] {
                o.push(solve(n, &vec![1.0; la], &vec![1.0; lb]));
                o.push(least_squares(n, &vec![1.0; la], &vec![1.0; lb]));
            }
        }
    }
    for n in 1..=8usize {
        for rows in [0, 1, n - 1, n, n + 1, 2 * n, 30] {
            for how in 0..5 {
                let basis: Vec<f64> = (0..rows * n).map(|_| entry(&mut r, how)).collect();
                let targets: Vec<f64> = (0..rows).map(|_| entry(&mut r, how)).collect();
                o.push(least_squares(n, &basis, &targets));
            }
        }
    }
    for n in (0..20).chain([31, 32, 33, 63, 64, 65, 66, 100, 255, 1000, 4095, 4096]) {
        for _ in 0..if n < 20 { 12 } else if n < 1000 { 2 } else { 1 } {
            let v = values(&mut r, n);
            o.push(median(&v));
            o.push(mad_sigma(&v));
        }
        if n < 300 {
            o.push(median(&vec![5.0; n]));
            o.push(mad_sigma(&(0..n).map(|i| i as f32).collect::<Vec<_>>()));
            o.push(median(&(0..n).map(|i| (n - i) as f32).collect::<Vec<_>>()));
        }
    }
    // medians that are −0 and an infinity; distances that are infinite
    for v in [&[-1e-45f32, 0.0][..], &[3e38, 3e38], &[3e38, -3e38, 3e38], &[3e38, 3e38, -3e38, -3e38], &[f32::MAX, f32::MIN], &[-1e-45, 1e-45]] {
        o.push(median(v));
        o.push(mad_sigma(v));
    }
    // refusals 9 and 10, 9 before 10; each kind of bad value at each end and in the middle
    for n in [1, 2, 9, 64, 65, 300] {
        for w in [0x8000_0000, 0x7fc0_0000, 0xffc0_0000, 0x7f80_0001, 0x7f80_0000, 0xff80_0000] {
            for place in [0, n / 2, n - 1] {
                let mut v = values(&mut r, n);
                v[place] = f32::from_bits(w);
                o.push(median(&v));
                o.push(mad_sigma(&v));
            }
        }
    }
    let mut v = values(&mut r, 4097);
    o.push(median(&v));
    o.push(mad_sigma(&v));
    v[7] = -0.0;
    o.push(median(&v));
    o.push(mad_sigma(&v));
    o
}

/// How many values: mostly few, sometimes up to the limit, seldom over it.
fn many(r: &mut Rng) -> usize {
    match r.below(64) {
        0 => r.range(4097, 4110) as usize,
        1 => r.range(4000, 4096) as usize,
        2..=4 => r.range(65, 1000) as usize,
        5..=20 => r.range(20, 70) as usize,
        _ => r.range(0, 20) as usize,
    }
}

fn random(r: &mut Rng) -> Call {
    match r.below(8) {
        0..=2 => {
            let n = r.range(1, 8) as usize;
            let (a, b) = system(r, n);
            if r.chance(0.02) {
                return solve(r.range(0, 10) as usize, &a, &b);
            }
            solve(n, &a, &b)
        }
        3 => {
            let n = r.range(1, 8) as usize;
            let (rows, how) = (r.range(0, 40) as usize, r.below(5));
            let basis: Vec<f64> = (0..rows * n + (r.chance(0.02) as usize)).map(|_| entry(r, how)).collect();
            let targets: Vec<f64> = (0..rows).map(|_| entry(r, how)).collect();
            least_squares(n, &basis, &targets)
        }
        k => {
            let n = many(r);
            let mut v = values(r, n);
            if n > 0 && r.chance(0.03) {
                v[r.below(n as u64) as usize] = f32::from_bits(ieee::word(r));
            }
            if k < 6 { median(&v) } else { mad_sigma(&v) }
        }
    }
}
