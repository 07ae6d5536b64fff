//! regions FILE [MOST]: the regions and the tags of a grey picture (PGM, P5, maximum value 255), by the safe wrapper `lcr_ring`.
//!
//! Prints what examples/c/regions.c prints; with MOST, a greatest version, also of each kept region how many boundary
//! points and vertices of the searched hull it has, and the ring that an attempt locates there: version, agreement (the f32's bits in
//! hex), corner, mirrored. Ends with 1 where the file or the picture is refused.
mod lcr_ring;

fn run(file: &str, most: Option<u32>) -> Result<(), String> {
    let bytes = std::fs::read(file).map_err(|_| "can't be read".to_string())?;
    let (width, height, gray) = lcr_ring::pgm_read(&bytes).map_err(|r| r.to_string())?;
    let map = lcr_ring::map(gray, width, height).map_err(|r| r.to_string())?;
    println!("regions {} {}", map.all, map.kept.len());
    for r in &map.kept {
        println!("region {} {} {} {} {} {}", r.label, r.cells, r.left, r.top, r.right, r.bottom);
        if let Some(most) = most {
            let points = lcr_ring::outline(gray, width, height, &map, r).map_err(|r| r.to_string())?;
            let trace = lcr_ring::attempt(gray, width, height, &points, most).map_err(|r| r.to_string())?;
            println!("outline {} {}", points.len(), trace.hull);
            match trace.fix {
                Some(f) => println!("ring {} {:08x} {} {}", f.version, f.agreement.to_bits(), f.corner, f.mirrored as u8),
                None => println!("ring none"),
            }
        }
    }
    let tags = lcr_ring::tags(gray, width, height, 64).map_err(|r| r.to_string())?;
    if tags.is_empty() {
        println!("none");
    }
    for t in &tags {
        print!("version {} agreement {:.3} mirrored {} corners", t.version, t.agreement, if t.mirrored { "yes" } else { "no" });
        t.corners.iter().for_each(|c| print!(" {:.1} {:.1}", c.0, c.1));
        println!();
    }
    Ok(())
}

fn main() {
    let words: Vec<String> = std::env::args().skip(1).collect();
    let most = words.get(1).map(|w| w.parse::<u32>());
    let (1 | 2, Ok(most)) = (words.len(), most.transpose()) else {
        eprintln!("regions FILE [MOST]");
        std::process::exit(2);
    };
    if let Err(what) = run(&words[0], most) {
        eprintln!("regions: {}: {what}", words[0]);
        std::process::exit(1);
    }
}

/// The finder and the tag list agree on the sample: its fix is the one tag.
#[test]
fn sample_found() {
    let (width, height, gray) = lcr_ring::pgm_read(include_bytes!("../../samples/ring.pgm")).unwrap();
    let (found, tags) = (lcr_ring::find(gray, width, height, 64).unwrap(), lcr_ring::tags(gray, width, height, 64).unwrap());
    let fix = found.trace.fix.unwrap();
    assert_eq!((tags.len(), tags[0].version, tags[0].agreement, tags[0].mirrored), (1, fix.version, fix.agreement, fix.mirrored));
    assert_eq!(found.regions, lcr_ring::map(gray, width, height).unwrap().all as usize);
    assert_eq!(lcr_ring::find(gray, width, height, 65), Err(lcr_ring::Refusal(8)));
    assert_eq!(lcr_ring::tags(gray, width, height, 0), Err(lcr_ring::Refusal(8)));
    assert_eq!(lcr_ring::tags(gray, 4097, height, 1), Err(lcr_ring::Refusal(1)));
}

/// The samples are files as `pgm_write` writes them.
#[test]
fn samples_written_again() {
    use lcr_ring::{Refusal, pgm_read, pgm_write};
    for file in [&include_bytes!("../../samples/shapes.pgm")[..], include_bytes!("../../samples/ring.pgm")] {
        let (width, height, gray) = pgm_read(file).unwrap();
        assert_eq!(pgm_write(gray, width, height).unwrap(), file);
        assert_eq!(pgm_write(gray, width, height + 1), Err(Refusal(2)));
        assert_eq!(pgm_write(gray, width, 0), Err(Refusal(1)));
    }
}

/// The ink of boxes is that counted pixel by pixel: of each kept region's box, the whole picture and an empty box.
#[test]
fn boxes_counted() {
    let (width, height, gray) = lcr_ring::pgm_read(include_bytes!("../../samples/shapes.pgm")).unwrap();
    let map = lcr_ring::map(gray, width, height).unwrap();
    let mut boxes: Vec<[u32; 4]> = map.kept.iter().map(|r| [r.left, r.top, r.right, r.bottom]).collect();
    boxes.extend([[0, 0, width as u32, height as u32], [3, 5, 3, 9]]);
    let is_ink = |x: usize, y: usize| gray[y * width + x] < map.levels[y / 16 * width.div_ceil(16) + x / 16];
    let ink = |b: &[u32; 4]| {
        let places = (b[1]..b[3]).flat_map(|y| (b[0]..b[2]).map(move |x| (x as usize, y as usize)));
        places.filter(|&(x, y)| is_ink(x, y)).count() as u32
    };
    let counts = lcr_ring::darkness(gray, width, height, &map, &boxes).unwrap();
    assert_eq!(counts, boxes.iter().map(ink).collect::<Vec<_>>());
    assert!(counts[0] > 0);
    assert_eq!(lcr_ring::darkness(gray, width, height, &map, &[[1, 0, 0, 1]]), Err(lcr_ring::Refusal(18)));
}

/// A drawn ring reads back with as many dark marks at each corner, and the finder finds its version and direction.
#[test]
fn drawn_found() {
    use lcr_ring::{Refusal, draw_ring, find, read_ring};
    let dark = |marks: &[bool]| marks.iter().filter(|m| !**m).count();
    let first = read_ring(7, 4, &draw_ring(7, 4, 0, false, 220, 221).unwrap(), 220, 221).unwrap();
    for corner in 0..4 {
        for reversed in [false, true] {
            let gray = draw_ring(7, 4, corner, reversed, 220, 221).unwrap();
            let marks = read_ring(7, 4, &gray, 220, 221).unwrap();
            assert_eq!((marks.len(), dark(&marks)), (200, dark(&first)));
            assert_eq!(marks == first, corner == 0 && !reversed);
            let fix = find(&gray, 220, 221, 64).unwrap().trace.fix.unwrap();
            assert_eq!((fix.version, fix.mirrored), (7, reversed));
        }
    }
    assert_eq!(draw_ring(7, 4, 0, false, 220, 219), Err(Refusal(16)));
    assert_eq!(draw_ring(0, 17, 4, false, 0, 1), Err(Refusal(8)));
    assert_eq!(read_ring(65, 4, &[], 0, 0), Err(Refusal(8)));
}

/// Hull and quad in whole numbers: four points of which one is lost by floats, a line, and what is refused.
#[test]
fn whole_numbers() {
    use lcr_ring::{Refusal, whole_outline};
    let four = whole_outline(&[(4096.0, 0.0), (0.0, 0.0), (3588.5, 3994.0), (500.0, 556.5)]).unwrap();
    assert_eq!(four.hull, [(0, 0), (8192, 0), (7177, 7988), (1000, 1113)]);
    assert_eq!(four.quad, Some([(0, 0), (8192, 0), (7177, 7988), (1000, 1113)]));
    let square = whole_outline(&[(0.0, 0.0), (4.0, 0.0), (4.0, 4.0), (0.0, 4.0), (2.0, 0.0)]).unwrap();
    assert_eq!(square.quad, Some([(0, 0), (8, 0), (8, 8), (0, 8)]));
    let line = whole_outline(&[(0.0, 0.0), (1.0, 0.0), (2.0, 0.0)]).unwrap();
    assert_eq!((line.hull, line.quad), (vec![(0, 0), (4, 0)], None));
    assert_eq!(whole_outline(&[(0.25, 0.0)]).err(), Some(Refusal(21)));
    assert_eq!(whole_outline(&vec![(0.25, 0.0); 16385]).err(), Some(Refusal(6)));
}
