//! Pictures of one tag in a known place: drawn on whole pixels, or as a camera might see it.
use crate::find::Tag;
use crate::looks::Q;
use crate::pic::{Pic, Rng, draw_ring, photo_ring};
use core::f64::consts::{FRAC_PI_2, TAU};
use lcr_decode::transform::Transform;

/// A tag to draw. Pose: the corner where position 0 is, clockwise from the upper left; from 4 on the same, mirrored.
#[derive(Clone, Copy)]
pub struct Want {
    pub version: u8,
    pub pose: u32,
    /// pixels a module
    pub pitch: u32,
}

impl Want {
    /// Cells along the outer square.
    fn cells(&self) -> u32 {
        17 + 4 * self.version as u32 + 6
    }
    fn mirrored(&self) -> bool {
        self.pose >= 4
    }
    /// The corners of a square, which are clockwise from the upper left, clockwise from that of position 0.
    fn turned(&self, square: Q) -> Q {
        [0, 1, 2, 3].map(|i| square[(i + self.pose as usize) % 4])
    }
}

/// A picture and the tags in it; the pixels a module where all of it is drawn at one.
pub struct Shot {
    pub kind: &'static str,
    pub pic: Pic,
    pub tags: Vec<Tag>,
    pub pitch: Option<u32>,
}

/// The tag whose corners are these clockwise, from that of position 0 on.
fn tag(t: Want, q: Q) -> Tag {
    let corners = if t.mirrored() { [q[0], q[3], q[2], q[1]] } else { q };
    Tag { version: t.version, agreement: 1.0, mirrored: t.mirrored(), corners }
}

/// The side of a drawn tag's picture: two modules of paper around it.
fn drawn_side(t: Want) -> u32 {
    (t.cells() + 4) * t.pitch
}

fn drawn_square(t: Want) -> Q {
    let (a, b) = ((2 * t.pitch) as f32, ((t.cells() + 2) * t.pitch) as f32);
    t.turned([(a, a), (b, a), (b, b), (a, b)])
}

/// A ring without anything in it, black on white.
pub fn alone(t: Want) -> (Pic, Tag) {
    let side = drawn_side(t);
    (draw_ring(t.version, t.pitch, t.pose % 4, t.mirrored(), side, side), tag(t, drawn_square(t)))
}

/// A ring with cells at random in it, of two greys on white, on whole pixels.
pub fn filled(t: Want, r: &mut Rng) -> (Pic, Tag) {
    let (side, q) = (drawn_side(t), drawn_square(t));
    let (dark, light) = (r.range(0, 100) as u8, r.range(170, 225) as u8);
    (photo_ring(r, t.version, side, side, q, 0.0, t.mirrored(), dark, light, 1), tag(t, q))
}

/// The corners of a tag in a picture of this side before the lens: turned by up to an eighth either way and leant, so that
/// one part is nearer than another.
fn leant(t: Want, side: u32, r: &mut Rng) -> Q {
    let half = (t.cells() * t.pitch) as f64 / 2.0;
    let turn = if r.chance(0.2) { 0.0 } else { (r.unit() - 0.5) * FRAC_PI_2 };
    let (lean, by) = (r.unit() * TAU, if r.chance(0.3) { 0.0 } else { 0.25 * r.unit() });
    let (c, s) = (turn.cos(), turn.sin());
    let at = |(x, y): (f64, f64)| {
        let (u, v) = (x * c - y * s, x * s + y * c);
        let depth = 1.0 + by * (u * lean.cos() + v * lean.sin());
        (half * u / depth, half * v / depth)
    };
    let square = [(-1.0, -1.0), (1.0, -1.0), (1.0, 1.0), (-1.0, 1.0)].map(at);
    // all of it within the picture
    let far = square.iter().fold(0f64, |m, p| m.max(p.0.abs()).max(p.1.abs()));
    let (mid, scale) = (side as f64 / 2.0, (0.47 * side as f64 / far).min(1.0));
    t.turned(square.map(|p| ((mid + scale * p.0) as f32, (mid + scale * p.1) as f32)))
}

/// A tag as a camera might see it: turned, leant, with a lens of either sign or none; cells at random in it.
pub fn photographed(t: Want, r: &mut Rng) -> (Pic, Tag) {
    let side = ((t.cells() * t.pitch) as f64 * 1.45) as u32 + 12;
    let q = leant(t, side, r);
    let c = side as f64 / 2.0;
    let kappa = if r.chance(0.5) { 0.0 } else { (r.unit() - 0.5) * 0.08 / (c * c) };
    let (dark, light) = (r.range(0, 60) as u8, if r.chance(0.5) { 255 } else { r.range(150, 240) as u8 });
    let pic = photo_ring(r, t.version, side, side, q, kappa, t.mirrored(), dark, light, if side < 300 { 2 } else { 1 });
    // where the lens puts the corners
    let unit = [(0.0, 0.0), (1.0, 0.0), (1.0, 1.0), (0.0, 1.0)];
    let lens = Transform::from_quad(unit, q).map(|m| m.with_radial(c as f32, c as f32, kappa as f32));
    let seen = lens.map_or(q, |m| unit.map(|(u, v)| m.apply(u, v)));
    (pic, tag(t, seen))
}

/// A slope of light over a picture, and in half of them a shadow with a straight edge.
pub fn shaded(p: &mut Pic, r: &mut Rng) {
    let (a, b, at) = (r.unit() * TAU, r.unit() * TAU, (r.unit() - 0.5) * 0.8);
    let (fall, shadow) = (0.5 * r.unit(), if r.chance(0.5) { 1.0 } else { 0.5 + 0.4 * r.unit() });
    let (ax, ay, bx, by) = (a.cos(), a.sin(), b.cos(), b.sin());
    for y in 0..p.h {
        for x in 0..p.w {
            let (u, v) = (x as f64 / p.w as f64 - 0.5, y as f64 / p.h as f64 - 0.5);
            let slope = 1.0 - fall * (0.5 + 0.7 * (u * ax + v * ay));
            let dim = if u * bx + v * by > at { shadow } else { 1.0 };
            let grey = p.get(x, y) as f64 * slope * dim;
            p.set(x as i64, y as i64, grey as u8);
        }
    }
}

/// Out of focus by up to three fifths of a module, and noise.
pub fn defocused(p: &mut Pic, pitch: u32, r: &mut Rng) {
    p.blur(r.range(1, (pitch as i64 * 3 / 5).max(1)));
    grained(p, 30, r);
}

/// Noise in half of them.
pub fn grained(p: &mut Pic, most: i64, r: &mut Rng) {
    if r.chance(0.5) {
        let amp = r.range(1, most);
        p.noise(r, amp);
    }
}
