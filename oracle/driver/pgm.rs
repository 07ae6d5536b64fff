//! PGM files: a reader from the request's words and Netpbm's pages pgm(5) and pbm(5), files at random, and calls of the two C
//! functions. The Rust has none of it.
use crate::calls::{Area, Call, Words, packed};
use crate::pic::{Pic, Rng, generate};
use crate::picture::lent8;
use crate::smaller::{Layout, Unit};

/// The C functions, which have no call by number: 605 reads, 606 writes.
pub const AREA: Area = Area { name: "pgm", stored: Vec::new, random, answer, layout };

/// Space, CR, LF, TAB, VT and FF.
const SPACE: &[u8] = b" \r\n\t\x0b\x0c";

fn is_space(c: u8) -> bool {
    SPACE.contains(&c)
}

/// How many bytes the longest header has.
const MOST: usize = 4096;

/// A header's numbers, those from 2^40 on as 2^40, and how many bytes it has.
struct Header {
    width: u64,
    height: u64,
    maximum: u64,
    bytes: usize,
}

/// The bytes behind the letters without comments, each with its place.
fn without_comments(b: &[u8]) -> Vec<(usize, u8)> {
    let (mut o, mut i) = (Vec::new(), 2);
    while i < b.len() {
        if b[i] == b'#' {
            i += b[i..].iter().position(|c| b"\r\n".contains(c)).unwrap_or(b.len());
        } else {
            o.push((i, b[i]));
        }
        i += 1;
    }
    o
}

/// The bytes in front that are of a kind, taken; none where there is no such byte.
fn taken<'a>(rest: &mut &'a [(usize, u8)], is: fn(u8) -> bool) -> Option<&'a [(usize, u8)]> {
    let n = rest.iter().take_while(|c| is(c.1)).count();
    let (run, after) = rest.split_at(n);
    *rest = after;
    (n > 0).then_some(run)
}

/// White space and a number, three times.
fn numbers(rest: &mut &[(usize, u8)]) -> Option<[u64; 3]> {
    let mut o = [0; 3];
    for n in &mut o {
        taken(rest, is_space)?;
        let digits = taken(rest, |c| c.is_ascii_digit())?;
        *n = digits.iter().fold(0, |n, c| (10 * n + (c.1 - b'0') as u64).min(1 << 40));
    }
    Some(o)
}

/// The header of a file; without one, how many bytes tell that there is none.
fn header(file: &[u8]) -> Result<Header, usize> {
    let b = &file[..file.len().min(MOST)];
    if !b.starts_with(b"P5") {
        return Err(b.len().min(2));
    }
    let plain = without_comments(b);
    let mut rest = &plain[..];
    match (numbers(&mut rest), rest.first()) {
        (Some([width, height, maximum]), Some(&(i, c))) if is_space(c) => Ok(Header { width, height, maximum, bytes: i + 1 }),
        (_, next) => Err(next.map_or(b.len(), |c| c.0 + 1)),
    }
}

/// Width, height and the place of the pixels; or the first refusal of 14, 15, 1, 13 for a side over `limit`, and 2.
pub fn read(file: &[u8], limit: u32) -> Result<(u32, u32, usize), u32> {
    let h = header(file).map_err(|_| 14u32)?;
    let sides = [h.width, h.height];
    if h.maximum != 255 {
        Err(15)
    } else if sides.iter().any(|n| !(1..=4096).contains(n)) {
        Err(1)
    } else if sides.iter().any(|&n| n > limit as u64) {
        Err(13)
    } else if h.width * h.height > (file.len() - h.bytes) as u64 {
        Err(2)
    } else {
        Ok((h.width as u32, h.height as u32, h.bytes))
    }
}

/// How many bytes of a file the program reads: a header until it is whole or broken, and pixels unless it is refused before them.
pub fn eaten(file: &[u8]) -> usize {
    match (header(file), read(file, 160)) {
        (Err(n), _) => n,
        (Ok(h), Ok((w, v, _))) => h.bytes + (w * v) as usize,
        (Ok(_), Err(2)) => file.len(),
        (Ok(h), Err(_)) => h.bytes,
    }
}

/// 605: the file; width, height and place, or the refusal. 606: sides in two words each, the higher ones last; pixels, and how many
/// places are lent; the refusal, the bytes written, and every place of the list.
fn answer(kind: u32, args: &[u32]) -> Option<Vec<u32>> {
    let mut words = Words(args);
    if kind == 605 {
        let [n] = words.heads()?;
        let file = words.bytes(n as usize)?;
        return words.ended(read(&file, 4096).map_or_else(|k| vec![k], |(w, h, at)| vec![0, w, h, at as u32]));
    }
    let [w, h, n, m, high_w, high_h] = words.heads()?;
    let g = words.bytes(n as usize)?;
    let sides = high_w == 0 && high_h == 0 && (1..=4096).contains(&w) && (1..=4096).contains(&h);
    let p = Pic { w, h, g };
    let file = p.file();
    let refused = match () {
        _ if !sides => 1,
        _ if n != w * h => 2,
        _ if (m as usize) < file.len() => 3,
        _ => 0,
    };
    let mut out: Vec<u8> = (0..m as usize).map(lent8).collect();
    if refused == 0 {
        out[..file.len()].copy_from_slice(&file);
    }
    words.ended([vec![refused, if refused == 0 { file.len() as u32 } else { 0 }], packed(&out)].concat())
}

fn layout(kind: u32) -> Layout {
    if kind == 605 { Layout::heads(1).list(Some(0), Unit::Byte, 1) } else { Layout::heads(6).grid(2, Unit::Byte, 1).sides(0, 1) }
}

fn pick<T: Copy>(of: &[T], r: &mut Rng) -> T {
    of[r.below(of.len() as u64) as usize]
}

/// A comment of `n` bytes, its # and its line end among them.
fn comment(n: usize, r: &mut Rng) -> Vec<u8> {
    let mut o: Vec<u8> = (0..n).map(|_| if r.chance(0.5) { pick(b"#0123456789 \tP5", r) } else { r.next() as u8 }).collect();
    o.iter_mut().filter(|c| b"\r\n".contains(c)).for_each(|c| *c = b'#');
    o[0] = b'#';
    o[n - 1] = pick(b"\r\n", r);
    o
}

/// A number as it is, or now and then another one, with the same low bits among them.
fn number(n: u128, r: &mut Rng) -> String {
    if !r.chance(0.04) {
        return n.to_string();
    }
    let other = [0, 1, 160, 161, 254, 255, 256, 4096, 4097, 65535, n + 256, n + 65536, n + (1 << 32), n + (1 << 64), n * 10, u128::MAX];
    pick(&other, r).to_string()
}

/// A header of these numbers: white space of each kind, leading zeros, comments anywhere; now and then of about 4,096 bytes.
fn header_of(numbers: [String; 3], r: &mut Rng) -> Vec<u8> {
    let often = pick(&[0.0, 0.0, 0.1, 0.3], r);
    let few = |r: &mut Rng| if r.chance(0.7) { 0 } else { r.below(4) };
    let put = |o: &mut Vec<u8>, c: u8, r: &mut Rng| {
        while r.chance(often) {
            let n = r.range(2, 20) as usize;
            o.extend(comment(n, r));
        }
        o.push(c);
    };
    let mut o = b"P5".to_vec();
    let mut zeros = 0;
    for n in numbers {
        for _ in 0..=few(r) {
            put(&mut o, pick(SPACE, r), r);
        }
        if r.chance(0.5) {
            zeros = o.len();
        }
        for _ in 0..few(r) {
            put(&mut o, b'0', r);
        }
        n.bytes().for_each(|c| put(&mut o, c, r));
    }
    put(&mut o, pick(SPACE, r), r);
    if r.chance(0.08) {
        let more = (MOST as i64 + r.range(-2, 2) - o.len() as i64).max(2) as usize;
        let (at, pad) = match r.below(3) {
            0 => (2, comment(more, r)),
            1 if zeros > 0 => (zeros, vec![b'0'; more]),
            _ => (2, (0..more).map(|_| pick(SPACE, r)).collect()),
        };
        o.splice(at..at, pad);
    }
    o
}

/// One damage of a file whose header has some bytes: cut, a byte of the header put in, out or changed, a pixel missing.
fn damage(b: &mut Vec<u8>, head: usize, r: &mut Rng) {
    let i = r.below(head.min(b.len()).max(1) as u64) as usize;
    let c = if r.chance(0.8) { pick(b"#0159 \t\r\n\x0b\x0c-+.,xP\0\x85\xa0", r) } else { r.next() as u8 };
    match r.below(7) {
        0 => b.truncate(r.below(b.len() as u64 + 1) as usize),
        1 => b.truncate(i),
        2 => b.insert(i, c),
        3 if i < b.len() => { b.remove(i); }
        4 if i < b.len() => b[i] = c,
        5 if i < b.len() => b[i] ^= 1 << r.below(8),
        _ => { b.pop(); }
    }
}

/// A picture's file, with some damages and now and then bytes behind it.
pub fn file(p: &Pic, damages: u64, r: &mut Rng) -> Vec<u8> {
    let numbers = [p.w, p.h, 255].map(|n| number(n as u128, r));
    let mut b = if r.chance(0.1) { Pic { g: Vec::new(), ..*p }.file() } else { header_of(numbers, r) };
    let head = b.len();
    b.extend(&p.g);
    for _ in 0..damages {
        damage(&mut b, head, r);
    }
    if r.chance(0.3) {
        b.extend((0..r.below(20)).map(|_| 7u8));
    }
    b
}

/// Sides for files: mostly small, now and then the greatest, with few pixels.
fn sides(r: &mut Rng) -> (u32, u32) {
    let (a, b) = (r.range(1, 24) as u32, r.range(1, 24) as u32);
    match r.below(40) {
        0 => (4096, b),
        1 => (a, 4096),
        2 => (r.range(1000, 4096) as u32, 1),
        _ => (a, b),
    }
}

/// Pixels that look like a header, or any.
fn pixels(w: u32, h: u32, r: &mut Rng) -> Pic {
    let like = r.chance(0.5);
    let g = (0..w * h).map(|_| if like { pick(b"P5 12#\n\r", r) } else { r.next() as u8 }).collect();
    Pic { w, h, g }
}

/// The words of a file to read.
pub fn to_read(file: &[u8]) -> Vec<u32> {
    [vec![file.len() as u32], packed(file)].concat()
}

/// The words of a picture to write, into some places more or less than it needs.
pub fn to_write(p: &Pic, more: i64) -> Vec<u32> {
    let room = (p.file().len() as i64 + more).max(0);
    [vec![p.w, p.h, p.g.len() as u32, room as u32, 0, 0], packed(&p.g)].concat()
}

/// A call of either function.
fn random(r: &mut Rng) -> Call {
    let (w, h) = sides(r);
    let mut p = pixels(w, h, r);
    if r.chance(0.6) {
        let damages = if r.chance(0.5) { 0 } else { r.range(1, 2) as u64 };
        return AREA.call(605, to_read(&file(&p, damages, r)));
    }
    let least = if r.chance(0.5) { -2 } else { -(p.file().len() as i64) };
    let more = if r.chance(0.7) { r.range(0, 30) } else { r.range(least, 0) };
    match r.below(20) {
        0 => { p.g.pop(); }
        1 => p.g.push(7),
        _ => {}
    }
    let mut args = to_write(&p, more);
    if r.chance(0.1) {
        // a side, or the higher half of one
        args[pick(&[0, 1, 4, 5], r)] = pick(&[0, 1, 2, 24, 4096, 4097, 8192, 65536, u32::MAX], r);
    }
    AREA.call(606, args)
}

/// Files for stored calls: a picture's, whole, short and with bytes behind; one pixel with its header cut, broken and commented
/// at each byte, by each white space, with numbers that are refused, and of about 4,096 bytes; then some at random.
pub fn chosen(p: &Pic) -> Vec<Vec<u8>> {
    let (whole, one) = (p.file(), b"P5 1 1 255 \xff");
    let mut o = vec![whole.clone(), [&whole[..], b"behind"].concat(), whole[..whole.len() - 1].to_vec()];
    for i in 0..one.len() {
        let (a, b) = one.split_at(i);
        o.extend([a.to_vec(), [a, b"x", &b[1..]].concat(), [a, b"#5 5\r", b].concat(), [a, b"#\n", &b[1..]].concat()]);
    }
    for c in *b" \r\n\t\x0b\x0c\0#/:+-\x08\x0e\x1f!\x85\xa0" {
        o.push(one.map(|b| if b == b' ' { c } else { b }).to_vec());
    }
    let texts = |t: &[String]| t.iter().map(|t| t.clone().into_bytes()).collect::<Vec<_>>();
    for n in ["0", "00", "001", "160", "161", "254", "256", "4096", "4097", "65535", "4294967297", "18446744073709551617", "18446744073709551871"] {
        o.extend(texts(&[format!("P5 {n} 1 255 #"), format!("P5 1 {n} 255 #"), format!("P5 1 1 {n} #"), format!("P5 {n} {n} {n} #")]));
    }
    for n in 4085..=4088 {
        let (spaces, zeros, comment) = ("\t".repeat(n), "0".repeat(n - 1), "1".repeat(n - 3));
        o.extend(texts(&[format!("P5{spaces}1 1 255 #"), format!("P5 {zeros}1 1 255 #"), format!("P5#{comment}\n 1 1 255 #")]));
    }
    let mut r = Rng(22);
    for _ in 0..60 {
        let (w, h) = (r.range(1, 40) as u32, r.range(1, 40) as u32);
        let (p, damages) = (generate(r.next(), w, h, &mut r), r.below(2));
        o.push(file(&p, damages, &mut r));
    }
    o
}
