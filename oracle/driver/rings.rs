//! Drawn rings, and rings as a camera might see them.
use crate::pic::{Pic, Rng};
use lcr_core::border;
use lcr_decode::transform::Transform;

/// The ring of `v` at `pitch`, corner `r`, reversed or not, into a picture of `w` by `h`.
pub fn draw_ring(v: u8, pitch: u32, r: u32, rev: bool, w: u32, h: u32) -> Pic {
    let side = 17 + 4 * v as u16;
    let s = side as i64 + 6;
    let n = border::positions(side);
    // grid of the ring's square: true = dark
    let mut grid = vec![false; (s * s) as usize];
    for p in 0..n {
        if !border::sequence_light(side, p) {
            let (x, y) = border::outer_cell(p, side);
            grid[((y as i64 + 3) * s + x as i64 + 3) as usize] = true;
            let (ix, iy) = border::inner_cell(p, side);
            if border::is_reference(p) && border::position(ix, iy, side) == Some(p) {
                grid[((iy as i64 + 3) * s + ix as i64 + 3) as usize] = true;
            }
        }
    }
    let mut pic = Pic::new(w, h, 255);
    for y in 0..s {
        for x in 0..s {
            if grid[(y * s + x) as usize] {
                let (mut a, mut b) = (x, y);
                if rev {
                    (a, b) = (b, a);
                }
                for _ in 0..r {
                    (a, b) = (s - 1 - b, a);
                }
                let (px, py) = ((a + 2) * pitch as i64, (b + 2) * pitch as i64);
                pic.rect(px, py, px + pitch as i64, py + pitch as i64, 0);
            }
        }
    }
    pic
}

/// A ring as a camera might see it: corners (of the outer square) in undistorted pixels, a
/// lens, dark and light levels, payload cells at random.
#[allow(clippy::too_many_arguments)]
pub fn photo_ring(
    rng: &mut Rng, v: u8, w: u32, h: u32, corners: [(f32, f32); 4], kappa: f64, rev: bool, dark: u8, light: u8, ss: u32,
) -> Pic {
    let side = 17 + 4 * v as u16;
    let s = side as i64 + 6;
    let (lo, hi) = (-3.0f32, side as f32 + 3.0);
    let module = if rev {
        [(lo, lo), (lo, hi), (hi, hi), (hi, lo)]
    } else {
        [(lo, lo), (hi, lo), (hi, hi), (lo, hi)]
    };
    let mut pic = Pic::new(w, h, 255);
    let Some(t) = Transform::from_quad(corners, module) else { return pic };
    // levels of every cell of the square
    let mut grid = vec![255u8; (s * s) as usize];
    for y in 0..s {
        for x in 0..s {
            let (cx, cy) = (x as i32 - 3, y as i32 - 3);
            let d = border::shell(cx, cy, side);
            grid[(y * s + x) as usize] = match d {
                0 => if rng.chance(0.5) { dark } else { light },
                1 => 255,
                _ => {
                    let p = border::position(cx, cy, side).unwrap();
                    let outer = border::outer_cell(p, side) == (cx, cy);
                    if outer || border::is_reference(p) {
                        if border::sequence_light(side, p) { light } else { dark }
                    } else if rng.chance(0.5) { dark } else { light }
                }
            };
        }
    }
    let (cx, cy) = (w as f64 / 2.0, h as f64 / 2.0);
    for y in 0..h {
        for x in 0..w {
            let mut sum = 0u32;
            for sy in 0..ss {
                for sx in 0..ss {
                    let px = x as f64 + (sx as f64 + 0.5) / ss as f64;
                    let py = y as f64 + (sy as f64 + 0.5) / ss as f64;
                    let (dx, dy) = (px - cx, py - cy);
                    let k = 1.0 + kappa * (dx * dx + dy * dy);
                    let (u, q) = t.apply((cx + dx * k) as f32, (cy + dy * k) as f32);
                    let (i, j) = ((u + 3.0).floor() as i64, (q + 3.0).floor() as i64);
                    sum += if i >= 0 && j >= 0 && i < s && j < s { grid[(j * s + i) as usize] } else { 255 } as u32;
                }
            }
            pic.set(x as i64, y as i64, (sum / (ss * ss)) as u8);
        }
    }
    pic
}
