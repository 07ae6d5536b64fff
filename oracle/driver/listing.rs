//! The tray list: records and PGM files, whole, damaged, cut and longer than they say; by number, and through the program.
use crate::calls::{Area, Call, Words, packed, start};
use crate::{list, pgm};
use crate::pic::{self, Pic, Rng};
use crate::smaller::{Layout, Unit};

pub const AREA: Area = Area { name: "listing", stored, random, answer, layout: |_| Layout::heads(1).list(Some(0), Unit::Byte, 1) };

fn answer(_: u32, args: &[u32]) -> Option<Vec<u32>> {
    let mut w = Words(args);
    let [n] = w.heads()?;
    let text = list::listing(&w.bytes(n as usize)?);
    w.ended([vec![0, text.len() as u32], packed(text.as_bytes())].concat())
}

fn listing_args(input: &[u8]) -> Vec<u32> {
    [vec![input.len() as u32], packed(input)].concat()
}

fn listing_call(input: &[u8]) -> Call {
    AREA.call(604, listing_args(input))
}

/// A whole input's call in words whose sides can be cut: width, height, bytes; and whether it is a file.
pub fn to_picture(args: &[u32]) -> Option<(Vec<u32>, bool)> {
    let mut w = Words(args);
    let [n] = w.heads()?;
    let input = w.bytes(n as usize)?;
    let (width, height, g) = list::read_input(&input, 160).ok()?;
    Some(([vec![width, height, g.len() as u32], packed(g)].concat(), list::is_file(&input)))
}

/// The call of such words.
pub fn of_picture(words: &[u32], file: bool) -> Vec<u32> {
    let g = Words(&words[3..]).bytes(words[2] as usize).unwrap();
    let p = Pic { w: words[0], h: words[1], g };
    listing_args(&if file { p.file() } else { p.record() })
}

/// Squares and discs of ink in the corners and in the middle, far enough apart to be five regions: one more than are kept.
fn squares(r: &mut Rng) -> Pic {
    let mut p = Pic::new(160, 160, 255);
    for (right, low) in [(false, false), (true, false), (false, true), (true, true)] {
        let n = r.range(31, 40);
        let (x, y) = (if right { 160 - n } else { 0 }, if low { 160 - n } else { 0 });
        if r.chance(0.3) {
            p.disc(x as f64 + n as f64 / 2.0, y as f64 + n as f64 / 2.0, n as f64 / 2.0, n as f64 / 2.0, 0);
        } else {
            p.rect(x, y, x + n, y + n, 0);
        }
    }
    p.rect(64, 64, 96, 96, 0);
    p
}

/// The PGM file of a picture to try the tray list on.
pub fn sample() -> Vec<u8> {
    squares(&mut Rng(7)).file()
}

/// A picture at random.
fn picture(r: &mut Rng) -> Pic {
    let most = if r.chance(0.5) { 64 } else { 160 };
    let (w, h) = (r.range(1, most) as u32, r.range(1, most) as u32);
    if r.chance(0.1) { squares(r) } else { pic::generate(r.next(), w, h, r) }
}

/// One damage of a record: cut, a bit of the head turned over, longer than it says, another side, a byte.
fn damage(b: &mut Vec<u8>, kind: u64, r: &mut Rng) {
    let at = |b: &[u8], r: &mut Rng| r.below(b.len().max(1) as u64) as usize;
    match kind {
        0 => b.truncate(r.below(b.len() as u64 + 1) as usize),
        1 => b.truncate(r.below(11) as usize),
        2 if b.len() >= 10 => b[r.below(10) as usize] ^= 1 << r.below(8),
        3 => b.extend((0..r.below(20)).map(|_| 7u8)),
        4 if b.len() >= 10 => {
            let v = [0u16, 1, 160, 161, 4096][r.below(5) as usize].to_le_bytes();
            let i = 6 + 2 * r.below(2) as usize;
            (b[i], b[i + 1]) = (v[0], v[1]);
        }
        5 if !b.is_empty() => { let i = at(b, r); b[i] = r.next() as u8; }
        // bits anywhere, up to one in a hundred bytes
        _ => {
            for _ in 0..1 + r.below(1 + b.len() as u64 / 100) {
                let i = at(b, r);
                if let Some(x) = b.get_mut(i) {
                    *x ^= 1 << r.below(8);
                }
            }
        }
    }
}

/// A record, now and then damaged; one time in three a file.
fn input(r: &mut Rng) -> Vec<u8> {
    let p = picture(r);
    if r.chance(0.34) {
        let damages = r.chance(0.4) as u64;
        return pgm::file(&p, damages, r);
    }
    let mut b = p.record();
    let kind = r.below(16);
    if kind < 7 {
        damage(&mut b, kind, r);
    }
    b
}

/// A record with one to three damages; one time in three a file with up to three.
fn damaged(r: &mut Rng) -> Vec<u8> {
    let p = picture(r);
    if r.chance(0.34) {
        let damages = r.below(4);
        return pgm::file(&p, damages, r);
    }
    let mut b = p.record();
    for _ in 0..r.range(1, 3) {
        let kind = if r.chance(0.5) { 6 } else { r.below(6) };
        damage(&mut b, kind, r);
    }
    b
}

/// A call of any input; for the C function.
pub fn any(r: &mut Rng) -> Call {
    listing_call(&input(r))
}

/// A call by number takes up to 25,640 bytes.
fn random(r: &mut Rng) -> Call {
    loop {
        let b = input(r);
        if b.len() <= 25640 {
            return listing_call(&b);
        }
    }
}

/// What the program at `path` prints for an input, which it gets as the file `at`, and how many bytes of it it has read.
fn printed(path: &str, input: &[u8], at: &std::path::Path) -> (Vec<u8>, usize) {
    use std::io::Seek;
    std::fs::write(at, input).unwrap();
    let mut file = std::fs::File::open(at).unwrap();
    let out = std::process::Command::new(path).stdin(file.try_clone().unwrap()).output().unwrap().stdout;
    // the program's place in the file is ours
    (out, file.stream_position().unwrap() as usize)
}

/// The program `traylist` at `path` on damaged inputs, its output held against the Rust's listing, and how much it reads.
/// Exits with 1 at the first difference, which is kept.
pub fn program(path: &str, seed: u64, n: u64) {
    let at = std::env::temp_dir().join(format!("lcr-input-{}", std::process::id()));
    let (mut files, mut refused, mut regions) = (0u64, 0u64, [0u64; 5]);
    for i in 0..n {
        let b = damaged(&mut start(seed, i));
        let ((got, read), want) = (printed(path, &b, &at), list::listing(&b));
        if got != want.as_bytes() || read != list::eaten(&b) {
            println!("traylist differs at seed {seed} input {i}\n  Rust   {want:?}\n  finder {:?}", String::from_utf8_lossy(&got));
            println!("of {} bytes {} are to be read, and {read} are", b.len(), list::eaten(&b));
            let file = format!("{}/traylist-{seed}.input", std::env::var("LCR_FAILING").unwrap_or(".".into()));
            let _ = std::fs::create_dir_all(std::path::Path::new(&file).parent().unwrap());
            println!("kept as {file}: {:?}", std::fs::write(&file, &b));
            std::process::exit(1);
        }
        files += list::is_file(&b) as u64;
        refused += want.starts_with("refused") as u64;
        regions[want.matches("region ").count()] += 1;
    }
    let _ = std::fs::remove_file(&at);
    let listed = n - refused;
    println!("traylist: {n} damaged inputs from seed {seed}, {files} of them PGM files, {refused} refused, {listed} listed, with 1 to 4 kept regions {:?}: 0 different", &regions[1..]);
}

/// The rules' example, each damage of its record, pictures of every kind, and files.
fn stored() -> Vec<Call> {
    let mut o = Vec::new();
    let mut r = Rng(21);
    let mut example = Pic::new(64, 64, 255);
    example.rect(16, 16, 48, 48, 0);
    let b = example.record();
    o.push(listing_call(&b));
    for n in [0, 1, 3, 4, 9, 10, 11, b.len() - 1] {
        o.push(listing_call(&b[..n]));
    }
    for i in 0..10 {
        let mut c = b.clone();
        c[i] = c[i].wrapping_add(1);
        o.push(listing_call(&c));
    }
    o.push(listing_call(&[&b[..], &[1, 2, 3]].concat()));
    for (w, h) in [(1, 1), (160, 160), (160, 1), (1, 160), (161, 1), (1, 161), (8, 8), (16, 16)] {
        o.push(listing_call(&Pic::new(w, h, 255).record()));
        o.push(listing_call(&Pic::new(w, h, 0).record()));
    }
    for k in 0..150 {
        let (w, h) = (r.range(20, 96) as u32, r.range(20, 96) as u32);
        o.push(listing_call(&pic::generate(k, w, h, &mut r).record()));
    }
    for _ in 0..12 {
        o.push(listing_call(&squares(&mut r).record()));
    }
    o.extend(pgm::chosen(&example).iter().map(|b| listing_call(b)));
    o
}
