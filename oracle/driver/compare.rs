//! Both sides in one process on stored and random calls, for as long as told; the first difference is made smaller
//! and kept, with the words that replay it.
use crate::calls::{Area, Call, name, start};
use crate::smaller::{Layout, Unit, smaller};
use crate::{AREAS, finder, functions, listing, skips};
use std::collections::BTreeMap;
use std::path::PathBuf;
use std::process::{Command, exit};
use std::sync::OnceLock;
use std::time::{Duration, Instant};

/// Seconds to make a failing call smaller.
const SMALLER: f64 = 5.0;

fn areas(name: &str) -> Vec<&'static Area> {
    let all = AREAS.iter().copied().chain([&functions::SPLITS, &functions::AREA]);
    all.filter(|a| name == "all" || a.name == name).collect()
}

/// The entry whose answers are made wrong, for the self-test: LCR_FAULT.
fn fault() -> Option<u32> {
    static FAULT: OnceLock<Option<u32>> = OnceLock::new();
    *FAULT.get_or_init(|| std::env::var("LCR_FAULT").ok()?.parse().ok())
}

/// What the finder answers. Under LCR_FAULT a bit of the last word is turned over where at least five words of the
/// call are not 0.
fn ours(kind: u32, args: &[u32]) -> Vec<u32> {
    let mut out = if kind < 10000 { finder::by_number(kind, args) } else { functions::direct(kind, args) };
    if fault() == Some(kind) && args.iter().filter(|&&w| w != 0).count() >= 5 {
        if let Some(w) = out.last_mut() {
            *w ^= 1;
        }
    }
    out
}

/// How many calls of each entry were made, stored and random.
type Counts = BTreeMap<(&'static str, u32), [u64; 2]>;

/// The points of an outline or of a hull's call, where the Rust is exact on them, through hull and quad in whole numbers too.
fn in_wholes(c: &Call, from: usize, counts: &mut Counts) -> Result<(), (Call, String)> {
    let Some(w) = functions::in_wholes(c) else { return Ok(()) };
    if ours(w.kind, &w.args) != w.want {
        return Err((w, "the points of another call".to_string()));
    }
    counts.entry((functions::AREA.name, w.kind)).or_default()[from] += 1;
    Ok(())
}

/// An area's stored calls, then random ones until `end`; the first that differs, and where it is from.
fn hold(area: &'static Area, seed: u64, end: Instant, most: u64, counts: &mut Counts) -> Result<(), (Call, String)> {
    for (i, c) in (area.stored)().into_iter().enumerate() {
        if ours(c.kind, &c.args) != c.want {
            return Err((c, format!("stored call {i}")));
        }
        counts.entry((area.name, c.kind)).or_default()[0] += 1;
        in_wholes(&c, 0, counts)?;
    }
    let mut i = 0;
    while i < most && (i < 16 || Instant::now() < end) {
        let c = (area.random)(&mut start(seed, i));
        if ours(c.kind, &c.args) != c.want {
            return Err((c, format!("seed {seed}, call {i}")));
        }
        counts.entry((area.name, c.kind)).or_default()[1] += 1;
        in_wholes(&c, 1, counts)?;
        i += 1;
    }
    Ok(())
}

/// `compare AREA|all SEED SECONDS [MOST]`: the seconds are shared by the areas. Exits with 1 at the first difference.
pub fn run(which: &str, seed: u64, seconds: f64, most: u64) {
    let (which, from) = (areas(which), Instant::now());
    if which.is_empty() {
        println!("no such area; there are {}", areas("all").iter().map(|a| a.name).collect::<Vec<_>>().join(", "));
        exit(2);
    }
    println!("compare: seed {seed}, {seconds} seconds, {} areas", which.len());
    let mut counts = Counts::new();
    for (i, area) in which.iter().enumerate() {
        let left = seconds - from.elapsed().as_secs_f64();
        let end = Instant::now() + Duration::from_secs_f64((left / (which.len() - i) as f64).max(0.0));
        if let Err((call, place)) = hold(area, seed, end, most, &mut counts) {
            keep(area, seed, &call, &place);
            exit(1);
        }
    }
    table(&counts);
    let sum = |k: usize| counts.values().map(|n| n[k]).sum::<u64>();
    print!("\n{}", skips::said());
    println!("{} calls ({} stored, {} random from seed {seed}) in {:.0} seconds, 0 different", sum(0) + sum(1), sum(0), sum(1), from.elapsed().as_secs_f64());
}

/// The counts of each entry, then of each area, in Markdown.
fn table(counts: &Counts) {
    println!("\n| area | entry | | stored calls | random calls | different |\n|---|---|---|---|---|---|");
    let mut sums: BTreeMap<&str, [u64; 3]> = BTreeMap::new();
    for ((area, kind), [stored, random]) in counts {
        println!("| {area} | {kind} | {} | {stored} | {random} | 0 |", name(*kind));
        let n = sums.entry(area).or_default();
        *n = [n[0] + 1, n[1] + stored, n[2] + random];
    }
    println!("\n| area | entries | stored calls | random calls | different |\n|---|---|---|---|---|");
    sums.iter().for_each(|(area, n)| println!("| {area} | {} | {} | {} | 0 |", n[0], n[1], n[2]));
}

/// A smaller call that differs too, and how many were tried.
fn reduced(area: &Area, call: &Call) -> (Vec<u32>, u64) {
    let mut differs = |args: &[u32]| (area.answer)(call.kind, args).is_some_and(|want| ours(call.kind, args) != want);
    let (mut args, mut tries) = (call.args.clone(), 0);
    if let Some((p, file)) = (call.kind == 604).then(|| listing::to_picture(&args)).flatten() {
        let sides = Layout::heads(3).grid(2, Unit::Byte, 1).sides(0, 1);
        let (best, n) = smaller(&sides, &p, SMALLER / 2.0, &mut |w| differs(&listing::of_picture(w, file)));
        (args, tries) = (listing::of_picture(&best, file), n);
        if !differs(&args) {
            args = call.args.clone();
        }
    }
    let (best, n) = smaller(&(area.layout)(call.kind), &args, SMALLER, &mut differs);
    (best, tries + n)
}

fn hex(key: &str, words: &[u32]) -> String {
    let line = |c: &[u32]| format!("{key} {}\n", c.iter().map(|w| format!("{w:x}")).collect::<Vec<_>>().join(" "));
    words.chunks(24).map(line).collect()
}

/// Makes the call smaller, writes it to a file and says how to replay it.
pub fn keep(area: &Area, seed: u64, call: &Call, place: &str) {
    println!("{} differs: {place}, entry {} ({}), {} words; making it smaller", area.name, call.kind, name(call.kind), call.args.len());
    let (args, tries) = reduced(area, call);
    let (want, got) = ((area.answer)(call.kind, &args).unwrap_or_default(), ours(call.kind, &args));
    let mut text = format!("# {}, {}, {place}; {} words made {} in {tries} tries; numbers in hex\n", area.name, name(call.kind), call.args.len(), args.len());
    text += &format!("kind {}\n{}{}{}", call.kind, hex("in", &args), hex("rust", &want), hex("finder", &got));
    let folder = PathBuf::from(std::env::var("LCR_FAILING").unwrap_or("failing".into()));
    let path = folder.join(format!("{}-{seed}.txt", area.name));
    std::fs::create_dir_all(&folder).and_then(|_| std::fs::write(&path, &text)).expect("the failing call is kept");
    println!("{}", text.lines().map(|l| l.chars().take(200).collect::<String>()).take(24).collect::<Vec<_>>().join("\n"));
    println!("kept as {}; again: oracle/run replay {}", path.display(), path.display());
}

/// `replay FILE`: a kept call on both sides. Exits with 1 where it differs.
pub fn replay(path: &str) {
    let text = std::fs::read_to_string(path).unwrap_or_else(|e| { println!("{path}: {e}"); exit(2) });
    let (mut kind, mut args) = (0, Vec::new());
    for l in text.lines() {
        let mut w = l.split_whitespace();
        match w.next() {
            Some("kind") => kind = w.next().and_then(|s| s.parse().ok()).unwrap_or(0),
            Some("in") => args.extend(w.filter_map(|s| u32::from_str_radix(s, 16).ok())),
            _ => {}
        }
    }
    let area = areas("all").into_iter().find(|a| owns(a, kind) && (a.answer)(kind, &args).is_some());
    let Some(area) = area else { println!("{path}: no call"); exit(2) };
    let (want, got) = ((area.answer)(kind, &args).unwrap(), ours(kind, &args));
    println!("{}, {}, {} words\n{}{}", area.name, name(kind), args.len(), hex("rust", &want), hex("finder", &got));
    println!("{}", if want == got { "equal" } else { "differs" });
    exit((want != got) as i32);
}

fn owns(area: &Area, kind: u32) -> bool {
    let range = match area.name {
        "border" => 100..200,
        "ieee" => 200..300,
        "math" => 300..400,
        "transform" => 400..500,
        "picture" => 500..600,
        "outline" => 600..604,
        "listing" => 604..605,
        "marks" => 700..800,
        "fit" => 800..900,
        "ring" => 900..910,
        "attempt" => 910..1000,
        _ => 10000..20000,
    };
    range.contains(&kind)
}

/// `compare-selftest`: with answers made wrong on purpose, a difference is found, made smaller, kept and replayed.
pub fn selftest() {
    let folder = std::env::temp_dir().join(format!("lcr-selftest-{}", std::process::id()));
    let oracle = std::env::current_exe().unwrap();
    let run = |fault: &str, words: &[&str]| {
        let mut c = Command::new(&oracle);
        c.args(words).env("LCR_FAILING", &folder).env("LCR_FAULT", fault);
        c.output().unwrap().status.code()
    };
    let mut bad = 0;
    for (area, fault) in [("math", "302"), ("outline", "602"), ("outline", "600"), ("picture", "500"), ("attempt", "910"), ("listing", "604"), ("functions", "10500"), ("functions", "10920")] {
        let file = folder.join(format!("{area}-7.txt"));
        let path = file.to_str().unwrap();
        let _ = std::fs::remove_file(&file);
        let found = run(fault, &["compare", area, "7", "2"]) == Some(1);
        let text = std::fs::read_to_string(&file).unwrap_or_default();
        let words: Vec<&str> = text.lines().filter_map(|l| l.strip_prefix("in ")).flat_map(|l| l.split(' ')).collect();
        let least = words.iter().filter(|w| **w != "0").count();
        let small = (5..=6).contains(&least);
        let again = run(fault, &["replay", path]) == Some(1);
        let equal = run("0", &["replay", path]) == Some(0);
        let quiet = run("0", &["compare", area, "7", "1", "64"]) == Some(0);
        println!("{area} {fault}: found {found}, made {} words, {least} of them not 0, replayed {again}; without the fault equal {equal}, quiet {quiet}", words.len());
        bad += !(found && small && again && equal && quiet) as i32;
    }
    let _ = std::fs::remove_dir_all(&folder);
    println!("compare-selftest: {}", if bad == 0 { "passed" } else { "failed" });
    exit((bad != 0) as i32);
}
