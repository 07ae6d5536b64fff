//! fit and lens: lines, crossings, corners, bows, the lens and straightened points.
use crate::calls::{Area, Call, Words, w32};
use crate::looks::{Look, P, Q, bent, drawn, list, ring_of, rough_edges, tame, wild};
use crate::pic::Rng;
use crate::smaller::{Layout, Unit};
use lcr_decode::notes::{self, Note};
use lcr_decode::{noted, ring};

pub const AREA: Area = Area { name: "fit", stored, random, answer, layout };

fn flat(p: &[P]) -> impl Iterator<Item = u32> + '_ {
    p.iter().flat_map(|p| [w32(p.0), w32(p.1)])
}

fn words(head: &[f32], points: &[P]) -> Vec<u32> {
    head.iter().map(|&v| w32(v)).chain(flat(points)).collect()
}

fn numbers(q: &Q) -> Vec<f32> {
    q.iter().flat_map(|p| [p.0, p.1]).collect()
}

fn some<const N: usize>(v: Option<[f32; N]>) -> Vec<u32> {
    v.map_or(vec![0, 0], |v| [0, 1].into_iter().chain(v.map(w32)).collect())
}

/// How many numbers stand before the points of a call.
fn heads(kind: u32) -> usize {
    [0, 11, 8, 8, 8, 17, 4, 11, 3][kind as usize - 800]
}

fn layout(kind: u32) -> Layout {
    Layout::heads(heads(kind)).list(None, Unit::Word, 2)
}

fn point(v: &[f32]) -> P {
    (v[0], v[1])
}

fn quad(v: &[f32]) -> Q {
    [point(v), point(&v[2..]), point(&v[4..]), point(&v[6..])]
}

fn answer(kind: u32, args: &[u32]) -> Option<Vec<u32>> {
    let v = Words(args).rest();
    let (h, rest) = v.split_at_checked(heads(kind))?;
    if rest.len() % 2 == 1 || ((kind == 802 || kind == 805) && !rest.is_empty()) {
        return None;
    }
    let points: Vec<P> = rest.chunks(2).map(point).collect();
    Some(match kind {
        800 => {
            let ((x, y), (u, v)) = ring::tls_line(&points);
            [0].into_iter().chain([x, y, u, v].map(w32)).collect()
        }
        801 => {
            let line = (point(&h[5..]), point(&h[7..]));
            let got = ring::refit_middle(&points, point(h), point(&h[2..]), h[4], line, [h[9], h[10]], &mut Vec::new());
            some(got.map(|((x, y), (u, v))| [x, y, u, v]))
        }
        802 => some(ring::intersect((point(h), point(&h[2..])), (point(&h[4..]), point(&h[6..]))).map(|(x, y)| [x, y])),
        803 => [0].into_iter().chain(flat(&ring::refine_quad(&points, quad(h)))).collect(),
        804 => ring::edge_quad(&points, quad(h)).map_or(vec![0, 0], |q| [0, 1].into_iter().chain(flat(&q)).collect()),
        805 => vec![0, ring::same_quad(&quad(h), &quad(&h[8..]), h[16]) as u32],
        806 => some(ring::bow_fit(&points, (h[0] != 0.0).then_some([h[1], h[2], h[3]])).map(|(f, se)| [f[0], f[1], f[2], se])),
        807 => {
            let (x, y, k) = ring::estimate_lens(&points, (h[2] != 0.0).then_some(quad(&h[3..])), point(h));
            vec![0, w32(x), w32(y), w32(k)]
        }
        _ => [0].into_iter().chain(flat(&ring::undistort(&points, (h[0], h[1], h[2])))).collect(),
    })
}

fn tls(points: &[P]) -> Call {
    AREA.call(800, words(&[], points))
}

fn refit(points: &[P], a: P, u: P, len: f32, fit: (P, P), tols: [f32; 2]) -> Call {
    AREA.call(801, words(&[a.0, a.1, u.0, u.1, len, fit.0.0, fit.0.1, fit.1.0, fit.1.1, tols[0], tols[1]], points))
}

fn intersect(l: (P, P), m: (P, P)) -> Call {
    AREA.call(802, words(&[l.0.0, l.0.1, l.1.0, l.1.1, m.0.0, m.0.1, m.1.0, m.1.1], &[]))
}

fn refine(points: &[P], q: Q) -> Call {
    AREA.call(803, words(&numbers(&q), points))
}

fn edge(points: &[P], q: Q) -> Call {
    AREA.call(804, words(&numbers(&q), points))
}

fn same(p: Q, q: Q, tol: f32) -> Call {
    AREA.call(805, words(&[numbers(&p), numbers(&q), vec![tol]].concat(), &[]))
}

fn bow(samples: &[P], prev: Option<[f32; 3]>) -> Call {
    let [c0, c1, a] = prev.unwrap_or([0.0; 3]);
    AREA.call(806, words(&[prev.is_some() as u8 as f32, c0, c1, a], samples))
}

fn lens(points: &[P], raw: Option<Q>, centre: P) -> Call {
    let mut head = vec![centre.0, centre.1, raw.is_some() as u8 as f32];
    head.extend(numbers(&raw.unwrap_or([(0.0, 0.0); 4])));
    AREA.call(807, words(&head, points))
}

fn undistort(points: &[P], l: (f32, f32, f32)) -> Call {
    AREA.call(808, words(&[l.0, l.1, l.2], points))
}

/// Samples of a bow with noise, some far off.
fn samples(r: &mut Rng, n: u64) -> Vec<P> {
    let (c0, c1, a) = (r.unit() - 0.5, r.unit() - 0.5, (r.unit() - 0.5) * 8.0);
    let (noise, stray, flat) = (r.unit() * 2.0, r.unit() * 0.3, r.chance(0.05));
    (0..n)
        .map(|k| {
            let t = if flat { 0.5 } else { 0.1 + 0.8 * (k as f64 + r.unit()) / n as f64 };
            let far = if r.chance(stray) { (r.unit() - 0.5) * 40.0 } else { 0.0 };
            (t as f32, (c0 + c1 * t + a * t * (1.0 - t) + (r.unit() - 0.5) * noise + far) as f32)
        })
        .collect()
}

/// An edge's direction and length and the bands of its refits, as `refine_quad` has them; it has no bands for an edge
/// under 16, and the least ones stand in.
fn edge_of(a: P, b: P) -> (P, f32, [f32; 2]) {
    let (notes, _) = notes::of(|| noted::refine_quad(&[], [a, b, a, b]));
    let Some(&Note::Side((dx, dy), len)) = notes.first() else { unreachable!() };
    let bands = if let Some(&Note::Bands(b)) = notes.get(1) { b } else { [2.0, 1.5] };
    ((dx / len, dy / len), len, bands)
}

/// A ring whose top edge runs through the centre, with a quad whose top edge does not: the first pass has a
/// step, the second one's is a NaN.
fn late_nan(r: &mut Rng) -> Call {
    let (cx, cy) = (100.0, 100.0);
    let side = 60.0 + 2.0 * r.below(30) as f64;
    let k = (r.unit() - 0.5) * 4e-6;
    let h = side / 2.0;
    let mut raw = vec![(-h, 0.0), (h, 0.0), (h, side), (-h, side)];
    rough_edges(r, side, 0, 0.5, &mut raw);
    // a point of the centre's row stays on it
    let points = bent(&raw, (cx, cy), k);
    let lower = |p: P| if p.1 < 101.0 { (p.0, p.1 + 0.75) } else { p };
    let q = [points[0], points[1], points[2], points[3]].map(lower);
    lens(&points, Some(q), (cx as f32, cy as f32))
}

fn random(r: &mut Rng) -> Call {
    let kind = 800 + r.below(9) as u32;
    of_kind(kind, r, 120.0)
}

fn of_kind(kind: u32, r: &mut Rng, most: f64) -> Call {
    match kind {
        800 => {
            if r.chance(0.5) {
                let n = r.below(40);
                return tls(&list(r, n));
            }
            let g = drawn(r, most);
            let n = g.points.len();
            let (i, j) = (r.below(n as u64 + 1) as usize, r.below(n as u64 + 1) as usize);
            tls(&g.points[i.min(j)..i.max(j)])
        }
        801 => {
            let g = drawn(r, most);
            let e = r.below(4) as usize;
            let (a, b) = (g.quad[e], g.quad[(e + 1) % 4]);
            let (u, len, bands) = edge_of(a, b);
            let line = if r.chance(0.8) { (a, u) } else { ((wild(r), wild(r)), (wild(r), wild(r))) };
            let tols = if r.chance(0.9) { bands } else { [wild(r), wild(r)] };
            refit(&g.points, a, u, len, line, tols)
        }
        802 => {
            let mut line = || {
                if r.chance(0.3) {
                    return ((wild(r), wild(r)), (wild(r), wild(r)));
                }
                let t = r.unit() * 6.3;
                ((r.unit() as f32 * 200.0, r.unit() as f32 * 200.0), (t.cos() as f32, t.sin() as f32))
            };
            let (l, mut m) = (line(), line());
            if r.chance(0.3) {
                let t = (r.unit() as f32 - 0.5) * 0.004;
                m.1 = (l.1.0 - t * l.1.1, l.1.1 + t * l.1.0);
            }
            intersect(l, m)
        }
        803 => {
            let g = drawn(r, most);
            refine(&g.points, g.quad)
        }
        804 => {
            let g = drawn(r, most);
            edge(&g.points, g.quad)
        }
        805 => {
            let g = drawn(r, 40.0);
            let mut q = g.quad;
            let far = r.unit() as f32 * 8.0;
            for p in q.iter_mut() {
                *p = (p.0 + (r.unit() as f32 - 0.5) * far, p.1 + (r.unit() as f32 - 0.5) * far);
            }
            if r.chance(0.1) {
                q[r.below(4) as usize].1 = wild(r);
            }
            same(g.quad, q, if r.chance(0.9) { 3.0 } else { wild(r) })
        }
        806 => {
            let n = if r.chance(0.1) { r.below(12) } else { r.range(8, 150) as u64 };
            let s = if r.chance(0.1) { list(r, n) } else { samples(r, n) };
            let prev = match r.below(4) {
                0 => None,
                1 => Some([wild(r), wild(r), wild(r)]),
                _ => ring::bow_fit(&s, None).map(|(f, _)| f),
            };
            bow(&s, prev)
        }
        807 => {
            if r.chance(0.05) {
                return late_nan(r);
            }
            let mut g = drawn(r, most);
            tame(&mut g.points);
            if r.chance(0.1) {
                // a centre on an edge
                let e = r.below(4) as usize;
                g.centre = if r.chance(0.5) { g.quad[e] } else { (g.quad[e].0, g.quad[(e + 1) % 4].1) };
            }
            lens(&g.points, if r.chance(0.02) { None } else { Some(g.quad) }, g.centre)
        }
        _ => {
            let g = drawn(r, most);
            let k = match r.below(4) {
                0 => wild(r),
                1 => 0.0,
                _ => (r.unit() as f32 - 0.5) * 1e-5,
            };
            undistort(&g.points, (g.centre.0, g.centre.1, k))
        }
    }
}

/// Clean and damaged rings with and without a lens of either sign, steps that are NaN in either pass, edges
/// through the centre, few points, parallel lines, quads under 16; and some at random.
fn stored() -> Vec<Call> {
    let mut o = Vec::new();
    let mut r = Rng(8);
    let clean = Look { side: 90.0, tilt: 0.0, skew: 0.0, kappa: 0.0, noise: 0.0, damage: 0.0, grid: true };
    for tilt in [0.0, 0.3, 0.8] {
        for kappa in [0.0, 2e-6, -2e-6] {
            for (noise, damage) in [(0.0, 0.0), (1.0, 0.0), (0.6, 0.3)] {
                let l = Look { tilt, kappa, noise, damage, ..clean };
                let g = ring_of(l, (100.0, 90.0), (3.0, -2.0), &mut r);
                let hull = ring::quad(&ring::convex_hull(&g.points));
                let q = hull.unwrap_or(g.quad);
                o.push(refine(&g.points, q));
                o.push(edge(&g.points, q));
                o.push(lens(&g.points, hull, g.centre));
            }
        }
    }
    for side in [11.0, 15.9, 16.1, 20.0] {
        let g = ring_of(Look { side, ..clean }, (50.0, 50.0), (0.0, 0.0), &mut r);
        o.push(refine(&g.points, g.quad));
        o.push(edge(&g.points, g.quad));
        o.push(lens(&g.points, Some(g.quad), g.centre));
    }
    let g = ring_of(clean, (100.0, 90.0), (0.0, 0.0), &mut r);
    for n in [0, 1, 2, 7, 8, 9, 40] {
        o.push(tls(&g.points[..n]));
        o.push(refine(&g.points[..n], g.quad));
        o.push(edge(&g.points[..n], g.quad));
        o.push(lens(&g.points[..n], Some(g.quad), g.centre));
        o.push(bow(&samples(&mut r, n as u64), None));
    }
    for t in [0.0, 0.0009, 0.00099, 0.001, 0.0011, 1.0, -1.0] {
        o.push(intersect(((3.0, 4.0), (1.0, 0.0)), ((5.0, 9.0), (1.0, t))));
    }
    o.push(lens(&g.points, None, g.centre));
    for p in [g.quad[0], g.quad[2], (g.quad[0].0, 7.0)] {
        o.push(lens(&g.points, Some(g.quad), p));
    }
    for _ in 0..6 {
        o.push(late_nan(&mut r));
    }
    for bad in [f32::NAN, f32::INFINITY, -0.0, 1e30] {
        let mut q = g.quad;
        q[2].0 = bad;
        o.push(refine(&g.points, q));
        o.push(edge(&g.points, q));
        o.push(same(g.quad, q, 3.0));
        o.push(undistort(&g.points[..20], (g.centre.0, g.centre.1, bad)));
    }
    for tol in [0.0, 2.9, 3.0, 3.1] {
        let q = g.quad.map(|p| (p.0 + 3.0, p.1 - 3.0));
        o.push(same(g.quad, q, tol));
    }
    for i in 0..270 {
        o.push(of_kind(800 + i % 9, &mut r, 60.0));
    }
    o
}
