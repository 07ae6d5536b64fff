//! `largest`: the largest legal inputs through the C functions: equal answers, times of both sides, stack use of ours.
use crate::find::{Asked, Seen, needs, tags_words, trace_words};
use crate::finder::{self, Grids, Ring};
use crate::finder_find::{Find, Tags, find_times, tags_times};
use crate::pic::Pic;
use crate::timed::*;
use lcr_core::version::Version;
use lcr_decode::ring::{self, InkMap};
use std::alloc::{Layout, alloc, dealloc};
use std::ffi::c_void;
use std::hint::black_box;

unsafe extern "C" {
    fn pthread_attr_init(attr: *mut u64) -> i32;
    fn pthread_attr_setstack(attr: *mut u64, low: *mut u8, size: usize) -> i32;
    fn pthread_create(thread: *mut u64, attr: *const u64, f: extern "C" fn(*mut c_void) -> *mut c_void, arg: *mut c_void) -> i32;
    fn pthread_join(thread: u64, out: *mut *mut c_void) -> i32;
}

const STACK: usize = 32 << 20;
const PAINT: u8 = 0xa5;

extern "C" fn enter(arg: *mut c_void) -> *mut c_void {
    let f = unsafe { &mut *(arg as *mut &mut dyn FnMut()) };
    f();
    std::ptr::null_mut()
}

/// The bytes of a painted stack, from its top, that a thread touches which only calls `f`.
fn touched(f: &mut dyn FnMut()) -> usize {
    let layout = Layout::from_size_align(STACK, 4096).unwrap();
    let mut f = f;
    unsafe {
        let low = alloc(layout);
        std::ptr::write_bytes(low, PAINT, STACK);
        let (mut attr, mut thread) = ([0u64; 16], 0);
        assert_eq!(pthread_attr_init(attr.as_mut_ptr()), 0);
        assert_eq!(pthread_attr_setstack(attr.as_mut_ptr(), low, STACK), 0);
        assert_eq!(pthread_create(&mut thread, attr.as_ptr(), enter, &mut f as *mut &mut dyn FnMut() as *mut c_void), 0);
        assert_eq!(pthread_join(thread, std::ptr::null_mut()), 0);
        let untouched = (0..STACK).position(|k| *low.add(k) != PAINT).unwrap_or(STACK);
        dealloc(low, layout);
        STACK - untouched
    }
}

/// The bytes of stack that a call takes, without those of a thread that does nothing.
fn stack(mut f: impl FnMut()) -> usize {
    touched(&mut f).saturating_sub(touched(&mut || ()))
}

fn line(what: &str, (rust, ours): (f64, f64), bytes: usize) {
    println!("| {what} | {:.2} | {:.2} | {:.2} | {bytes} |", rust / 1e6, ours / 1e6, ours / rust);
}

fn same(yes: bool, what: &str) {
    if !yes {
        println!("{what}: the answers differ");
        std::process::exit(1);
    }
}

/// The picture door on a picture of 4,096 by 4,096, then the outline door on a box of all of it.
fn doors(kind: &str, p: &Pic) {
    let (w, h) = (p.w as usize, p.h as usize);
    let ink = InkMap::new(&p.g, p.w, p.h);
    let (kept, all) = ink.regions();
    let mut lent = Grids::fitting(w, h);
    let bytes = stack(|| assert_eq!(lent.call(&p.g, w, h), 0));
    let mut want = vec![all as u32, kept.len() as u32];
    kept.iter().for_each(|r| want.extend([r.label, r.cells as u32, r.bbox.0, r.bbox.1, r.bbox.2, r.bbox.3]));
    want.resize(26, 0);
    same(lent.levels == ink.threshold && lent.labels == ink.label && lent.regions[..] == want[..], kind);
    line(&format!("picture door, {kind}, {all} regions"), picture_door(p), bytes);
    let whole = (0, 0, p.w, p.h);
    let mut out = vec![0f32; room(whole)];
    let mut n = 0;
    let bytes = stack(|| n = finder::outline(&p.g, w, h, &lent.levels, &lent.labels, 0, [0, 0, w, h], &mut out).unwrap());
    let points = flat(&ring::boundary_points(&ink, None, whole));
    same(points[..] == out[..2 * n], kind);
    line(&format!("outline door, {kind}, {n} points"), outline_door(p, &ink, 0, whole), bytes);
}

/// The finder's entries on a picture of 4,096 by 4,096.
fn entries(kind: &str, p: &Pic) {
    let (w, h) = (p.w as usize, p.h as usize);
    let seen = Seen::of(&Asked { g: p.g.clone(), w, h, most: 64, rooms: needs(w, h) });
    let mut lent = Find::of(needs(w, h));
    let bytes = stack(|| assert_eq!(lent.call(&p.g, w, h, 64), 0));
    same(lent.words() == trace_words(&seen.trace), kind);
    line(&format!("find, {kind}, {}", if seen.trace.fix.is_some() { "a fix" } else { "no fix" }), find_times(p), bytes);
    let (mut lent, tags) = (Tags::of(needs(w, h)), seen.tags());
    let bytes = stack(|| assert_eq!(lent.call(&p.g, w, h, 64), 0));
    same(lent.words() == tags_words(&tags), kind);
    line(&format!("tags, {kind}, {} tags", tags.len()), tags_times(p), bytes);
}

/// 16,384 points on a circle through hull, quad and the ring door.
fn circle(kind: &str, p: &Pic) {
    let (c, s) = (p.w as f64 / 2.0, p.w as f64 * 0.49);
    let at = |i: usize| { let a = i as f64 * core::f64::consts::TAU / 16384.0; ((c + s * a.cos()) as f32, (c + s * a.sin()) as f32) };
    let points: Vec<(f32, f32)> = (0..16384).map(at).collect();
    let list = flat(&points);
    let mut out = vec![0f32; list.len()];
    let (mut n, mut quad) = (0, None);
    let bytes = stack(|| n = finder::hull(&list, &mut out).unwrap());
    let hull = ring::convex_hull(&points);
    same(flat(&hull)[..] == out[..2 * n], "hull");
    let vertices = &out[..2 * n];
    let more = stack(|| quad = finder::quad(vertices));
    same(quad.map(|q| q.to_vec()) == ring::quad(&hull).map(|q| flat(&q)), "quad");
    let mut lent = Ring::of([list.len(); 3]);
    let (w, h) = (p.w as usize, p.h as usize);
    let most = stack(|| assert_eq!(lent.call(&p.g, w, h, &list, 64), 0));
    let t = ring::attempt(&p.g, p.w, p.h, &points, Version::MAX);
    same(lent.words() == crate::attempts::trace_words(&t), "ring door");
    if kind == "noise" {
        let times = both(|| { black_box(ring::convex_hull(&points)); }, || { black_box(finder::hull(&list, &mut out)).unwrap(); });
        line(&format!("hull, 16,384 points on a circle, {n} vertices"), times, bytes);
        let vertices = flat(&hull);
        let times = both(|| { black_box(ring::quad(&hull)); }, || { black_box(finder::quad(&vertices)); });
        line(&format!("quad, {n} vertices"), times, more);
    }
    line(&format!("ring door, the same points, {kind}, {} versions", t.scores.len()), ring_door(p, &points), most);
}

pub fn run(seed: u64) {
    println!("Equal answers on both sides; milliseconds of the processor, medians by turns; stack in bytes, by a painted stack.\n");
    println!("| what, 4,096 by 4,096 | Rust | ours | ratio | stack of ours |\n|---|---|---|---|---|");
    for kind in KINDS.into_iter().chain(["spiral"]) {
        let p = picture(kind, 4096, seed);
        doors(kind, &p);
        entries(kind, &p);
    }
    for kind in ["noise", "ring"] {
        circle(kind, &picture(kind, 4096, seed));
    }
}
