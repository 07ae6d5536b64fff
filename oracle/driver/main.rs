// The oracle's driver: each word is a command; oracle/README.md lists them.
#![cfg_attr(not(ours), allow(dead_code))]
mod att;
mod attempts;
mod bench_pictures;
mod border;
mod calc;
mod calls;
mod cases;
mod find;
mod fit;
mod fuzz;
mod ieee;
mod kinds;
mod list;
mod listing;
mod looks;
mod marks;
mod math;
mod outline;
mod pgm;
mod pic;
mod picture;
mod ring;
mod rings;
mod skips;
mod smaller;
mod tagged;
mod transform;
mod trays;
mod ways;
#[cfg(ours)]
mod bench;
#[cfg(ours)]
mod bench_darkness;
#[cfg(ours)]
mod bench_leaves;
#[cfg(ours)]
mod compare;
#[cfg(ours)]
mod finder;
#[cfg(ours)]
mod finder_find;
#[cfg(ours)]
mod finder_leaves;
#[cfg(ours)]
mod found;
#[cfg(ours)]
mod functions;
#[cfg(ours)]
mod largest;
#[cfg(ours)]
mod tallies;
#[cfg(ours)]
mod timed;
use std::io::{Read, Write};

const USAGE: &str = "usage: oracle WORD ..: without the finder traylist, sample, dump, attempt, attempt-verbose, attempt-case SEED I, ways SEED N, \
picks, rounds [SEED], calc, fuzz SEED N, vectors AREA, program PATH SEED N, bench-pictures DIR [SEED]; with it compare AREA|all SEED SECONDS [MOST], compare-selftest, replay FILE, poses, \
found PICTURES SEED [FIRST], bench [SEED], bench-darkness [SEED], bench-leaves, largest";

const AREAS: &[&calls::Area] = &[
    &border::AREA, &ieee::AREA, &math::AREA, &transform::AREA, &marks::AREA, &fit::AREA, &ring::AREA, &attempts::AREA, &picture::AREA,
    &outline::AREA, &listing::AREA,
];

fn stdin() -> Vec<u8> {
    let mut b = Vec::new();
    std::io::stdin().read_to_end(&mut b).unwrap();
    b
}

/// A command's words.
struct Said(Vec<String>);

impl Said {
    fn word(&self, i: usize) -> &str {
        self.0.get(i).map_or("", |s| s.as_str())
    }
    fn num(&self, i: usize, or: u64) -> u64 {
        self.0.get(i).map_or(or, |s| {
            s.parse().unwrap_or_else(|_| {
                eprintln!("{s}: no number\n{USAGE}");
                std::process::exit(2)
            })
        })
    }
}

/// The words that need the finder; whether it was one.
#[cfg(ours)]
fn with_finder(a: &Said) -> bool {
    match a.word(1) {
        "compare" => compare::run(a.word(2), a.num(3, 1), a.num(4, 20) as f64, a.num(5, u64::MAX)),
        "compare-selftest" => compare::selftest(),
        "replay" => compare::replay(a.word(2)),
        "poses" => functions::poses(),
        "found" => found::run(a.num(2, 20000), a.num(3, 1), a.num(4, 0)),
        "bench" => bench::run(a.num(2, 1)),
        "bench-darkness" => bench_darkness::run(a.num(2, 1)),
        "bench-leaves" => bench_leaves::run(),
        "largest" => largest::run(a.num(2, 1)),
        _ => return false,
    }
    true
}

#[cfg(not(ours))]
fn with_finder(a: &Said) -> bool {
    let known = ["compare", "compare-selftest", "replay", "poses", "found", "bench", "bench-darkness", "bench-leaves", "largest"].contains(&a.word(1));
    if known {
        eprintln!("this build has no finder linked: oracle/run without LCR_ALONE builds one that has");
        std::process::exit(2);
    }
    false
}

fn main() {
    let a = Said(std::env::args().collect());
    let say = |b: &[u8]| std::io::stdout().write_all(b).unwrap();
    match a.word(1) {
        "traylist" => say(list::listing(&stdin()).as_bytes()),
        "sample" => say(&listing::sample()),
        "program" => listing::program(a.word(2), a.num(3, 1), a.num(4, 1000)),
        "dump" => say(list::dump(&stdin()).as_bytes()),
        "attempt" => say(att::run(&att::decode(&stdin())).as_bytes()),
        "attempt-verbose" => say(att::verbose(&att::decode(&stdin())).as_bytes()),
        "attempt-case" => say(&attempts::bytes(a.num(2, 1), a.num(3, 0))),
        "ways" => ways::run(a.num(2, 1), a.num(3, 1000)),
        "picks" => ways::picks(),
        "rounds" => marks::rounds(a.num(2, 1)),
        "calc" => calc::run(),
        "fuzz" => fuzz::run(a.num(2, 1), a.num(3, 10000)),
        "bench-pictures" if !a.word(2).is_empty() => bench_pictures::write(a.word(2), a.num(3, 1)),
        "vectors" if AREAS.iter().any(|x| x.name == a.word(2)) => AREAS.iter().filter(|x| x.name == a.word(2)).for_each(|x| calls::vectors(x)),
        _ if with_finder(&a) => {}
        _ => {
            eprintln!("{USAGE}");
            std::process::exit(2);
        }
    }
}
