#!/usr/bin/env python3
"""Make the oracle workspace from the published Rust sources.

usage: make_oracle.py SRC OUT [DRIVER]

SRC     folder of the Rust sources, with crates/ in it
OUT     folder to write the cargo workspace to (three crates: lcr-core, lcr-decode, oracle)
DRIVER  folder with the driver's own *.rs files (default: `driver` beside this script)

Four kinds of change are made, and no other; all are checked and listed in OUT/CHANGES.txt:
  * whole items that need modules which are not there are cut (colours, palette, illumination,
    demodulation, format reading, errors), with the `use` lines that name those modules; two `use`
    lines are shortened;
  * `pub ` is put before private items, methods and fields;
  * lines that note what is found (NOTES below, with notes.rs) are put into a second build of
    ring.rs, the module `noted`. The module `ring` has none of them;
  * one line is put into a third build of the functions of ring.rs that take samples, the module `skipping`: a sample with
    a NaN coordinate is told of and skipped (SKIPPING below); two into one of `classify`, the module `counting`: the
    threshold of each window is told of before its first round and after each (COUNTING).
"""
import os, re, sys

HERE = os.path.dirname(os.path.abspath(__file__))

def write(path, text):
    """Writes a file, unless it holds this text already: cargo builds what is newer."""
    os.makedirs(os.path.dirname(path), exist_ok=True)
    if os.path.exists(path) and open(path, encoding="utf-8").read() == text:
        return
    open(path, "w", encoding="utf-8").write(text)

def src_file(src, crate, name):
    for p in (os.path.join(src, f"src--crates--{crate}--src--{name}.txt"),
              os.path.join(src, "crates", crate, "src", name),
              os.path.join(src, crate, "src", name)):
        if os.path.exists(p):
            return open(p, encoding="utf-8").read().split("\n")
    sys.exit(f"{crate}/{name} not found under {src}")

def cut_item(lines, head):
    """Cut the item whose first line starts with `head`, with its doc comments and attributes
    above, down to the line that closes it (same indent), or a one-line item."""
    at = [i for i, l in enumerate(lines) if l.startswith(head)]
    if len(at) != 1:
        sys.exit(f"item {head!r}: {len(at)} places")
    i = at[0]
    indent = re.match(r" *", lines[i]).group()
    j = i
    if not lines[i].rstrip().endswith(";"):
        while not (lines[j].startswith(indent + "}") and len(lines[j].rstrip()) <= len(indent) + 2):
            j += 1
    k = i
    while k > 0 and re.match(r"\s*(///|#\[)", lines[k - 1]):
        k -= 1
    return lines[:k] + lines[j + 1:]

def cut_line(lines, text):
    if text not in lines:
        sys.exit(f"line {text!r} not found")
    return [l for l in lines if l != text]

def cut_from(lines, text):
    i = lines.index(text)
    return lines[:i]

def replace_line(lines, old, new):
    if old not in lines:
        sys.exit(f"line {old!r} not found")
    return [new if l == old else l for l in lines]

OPEN = re.compile(r"^(\s*)(fn|struct|const|static|type|enum) ")

def open_up(lines, fields=()):
    out, depth_struct, in_fn = [], None, False
    for l in lines:
        m = OPEN.match(l)
        if m and m.group(1) in ("", "    "):
            l = l[:len(m.group(1))] + "pub " + l[len(m.group(1)):]
        l = l.replace("pub(crate) ", "pub ")
        name = re.match(r"^pub struct (\w+)", l)
        if name and name.group(1) in fields and l.rstrip().endswith("{"):
            depth_struct = True
        elif l == "}":
            depth_struct = None
        elif depth_struct:
            f = re.match(r"^(    )([a-z]\w*: )", l)
            if f:
                l = "    pub " + l[4:]
        out.append(l)
    return out

# What `noted` notes, by function: after or before the one line of the function that starts so; where there are as
# many lines as notes, one each.
NOTES = {
    "attempt": [
        ("after", "let raw_quad", ["Raw(raw_hull.len(), raw_quad)"]),
        ("after", "let lens ", ["Lens(lens)"]),
        ("before", "let hull_len", ["Hull(hull_quad)"]),
        ("after", "let refined", ["Refined(refined, refined == hull_quad)"]),
        ("after", "let edges", ["Edges(edge_quad(points, hull_quad), edges.is_none())"]),
        ("after", "let t ", ["Tried(t.fix.is_some())"]),
        ("after", "let top", ["Top(top(&t))"]),
    ],
    "correlate_quad": [("after", "let span", ["Span(span)"])],
    "refine_quad": [
        ("after", "let len", ["Side((dx, dy), len)"]),
        ("after", "let tols", ["Bands(tols)"]),
    ],
    "estimate_lens": [
        ("after", "for _ in", ["Pass"]),
        ("after", "let len", ["Edge(e, len)"]),
        ("before", "if (sel.len()", ["Points(sel.len())"]),
        ("after", "*slot", ["Fit { h0, fit, se, kappa: slot.0, error: slot.1 }"]),
        ("before", "if den", ["Weights(num, den)"]),
        ("after", "let step", ["Step(step)"]),
        ("before", "if (kappa", ["Total(kappa, reach)"]),
        ("before", "return none", [f'End("{why}")' for why in (
            "no quad", "a short edge", "few points", "no fit", "no fit", "no weight", "edges disagree", "below the least")]),
    ],
}

def note(lines):
    """The lines with those of NOTES put in, and the lines that were put in."""
    put = {}
    for head, notes in NOTES.items():
        first = [i for i, l in enumerate(lines) if l.startswith(f"pub fn {head}(")]
        if len(first) != 1:
            sys.exit(f"function {head!r}: {len(first)} places")
        last = lines.index("}", first[0])
        for side, start, texts in notes:
            at = [i for i in range(first[0], last) if lines[i].strip().startswith(start)]
            if len(at) != len(texts):
                sys.exit(f"{head} {start!r}: {len(at)} places for {len(texts)} notes")
            for i, text in zip(at, texts):
                indent = re.match(r" *", lines[i]).group() + ("    " if lines[i].endswith("{") and side == "after" else "")
                put.setdefault(i + (side == "after"), []).append(f"{indent}Note::{text}.put();")
    made = []
    for i, l in enumerate(lines):
        made += put.get(i, []) + [l]
    return made, [l for ls in put.values() for l in ls]

# Builds of some functions over the other items of ring.rs: which, and the lines that are put in before or after another.
# `skipping`, rule 33 where it is not the Rust's: a sample with a NaN coordinate is told of and skipped, before its range is tested.
SKIPPING = (("detect_ring", "trace", "attempt", "correlate_quad", "ring_lumas"),
            [("before", "if px <", "if px.is_nan() || py.is_nan() { crate::notes::skip(); continue; }")])
# `counting`: the threshold of a window is told of before its first round and after each that moves it.
COUNTING = (("classify",), [("after", "let mut thr", "crate::notes::window(thr);"), ("after", "thr =", "crate::notes::round(thr);")])

def partly(lines, uses, heads, puts):
    """The `use` lines that these functions need, those handed in after them, and the functions with the lines put in; and the lines that were put in."""
    made, told = [], []
    for head in heads:
        i = [i for i, l in enumerate(lines) if l.startswith(f"pub fn {head}(")]
        if len(i) != 1:
            sys.exit(f"function {head!r}: {len(i)} places")
        for l in lines[i[0]:lines.index("}", i[0]) + 1]:
            here = [(side, re.match(r" *", l).group() + text) for side, start, text in puts if l.strip().startswith(start)]
            made += [t for side, t in here if side == "before"] + [l] + [t for side, t in here if side == "after"]
            told += [t for _, t in here]
    if len(told) != len(puts):
        sys.exit(f"{heads}: {len(told)} lines put in, not {len(puts)}")
    names = set(re.findall(r"\w+", "\n".join(made)))
    needed = [l for l in lines if l.startswith("use ") and names & set(re.findall(r"\w+", l.split("::")[-1]))]
    return needed + list(uses) + made, told

def strip_pub(l):
    return l.replace("pub(crate) ", "").replace("pub ", "").strip()

def check(orig, made, allowed, log, name):
    """Every made line is, but for `pub`, a line of the original, in its order; or one of those allowed, none of which
    is a line of the original."""
    if set(allowed) & set(orig):
        sys.exit(f"{name}: a line to put in is one of the source: {set(allowed) & set(orig)}")
    i, n_cut, n_pub = 0, 0, 0
    for l in made:
        if l in allowed:
            log.append(f"{name}: + {l}")
            continue
        while i < len(orig) and strip_pub(orig[i]) != strip_pub(l):
            if orig[i].strip():
                log.append(f"{name}:{i+1}: - {orig[i]}")
                n_cut += 1
            i += 1
        if i == len(orig):
            sys.exit(f"{name}: line not of the source: {l!r}")
        if orig[i] != l:
            log.append(f"{name}:{i+1}: pub {l.strip()}")
            n_pub += 1
        i += 1
    for k in range(i, len(orig)):
        if orig[k].strip():
            log.append(f"{name}:{k+1}: - {orig[k]}")
            n_cut += 1
    return n_cut, n_pub

def main():
    if len(sys.argv) < 3:
        sys.exit(__doc__)
    src, out = sys.argv[1], sys.argv[2]
    driver = sys.argv[3] if len(sys.argv) > 3 else os.path.join(HERE, "driver")
    log, summary = [], []

    def put(crate, name, orig, made, allowed=()):
        c, p = check(orig, made, allowed, log, f"{crate}/{name}")
        summary.append(f"{crate}/{name}: {len(orig)} lines, {c} cut, {p} opened, {len(allowed)} shortened or put in")
        path = os.path.join(out, crate, "src", name)
        write(path, "\n".join(made))

    # lcr-core
    o = src_file(src, "lcr-core", "border_seq.rs")
    put("lcr-core", "border_seq.rs", o, o)

    o = src_file(src, "lcr-core", "border.rs")
    m = cut_line(o, "use crate::color::Srgb8;")
    m = cut_line(m, "use crate::palette::{BORDER_BLACK, BORDER_WHITE, Palette};")
    for head in ("pub fn cycle_color(", "pub fn cell_color(", "pub fn cell_color_in(",
                 "pub fn reference_color("):
        m = cut_item(m, head)
    put("lcr-core", "border.rs", o, open_up(m))

    o = src_file(src, "lcr-core", "version.rs")
    m = cut_line(o, "use crate::error::LcrError;")
    m = cut_from(m, "/// Colour / subsampling configuration (§5).")
    m = cut_item(m, "    pub const fn new(v: u8)")
    put("lcr-core", "version.rs", o, open_up(m))
    lib = "//! Oracle build of lcr-core: see CHANGES.txt.\npub mod border;\npub mod border_seq;\npub mod version;\npub use version::Version;\n"
    write(os.path.join(out, "lcr-core/src/lib.rs"), lib)

    # lcr-decode
    o = src_file(src, "lcr-decode", "math.rs")
    put("lcr-decode", "math.rs", o, open_up(o))
    o = src_file(src, "lcr-decode", "transform.rs")
    put("lcr-decode", "transform.rs", o, open_up(o, fields=("Transform",)))

    o = src_file(src, "lcr-decode", "ring.rs")
    m = o
    for l in ("use crate::demod;", "use crate::illum::{IlluminationModel, Reference};",
              "use crate::image::ImageView;", "use crate::sample::sample_module;",
              "use lcr_core::color;", "use lcr_core::palette::Palette;"):
        m = cut_line(m, l)
    b_new = "use lcr_core::border;"
    v_new = "use lcr_core::Version;"
    m = replace_line(m, "use lcr_core::border::{self, FORMAT_COPIES, FORMAT_COPY_BITS};", b_new)
    m = replace_line(m, "use lcr_core::{FormatInfo, LcrError, Profile, Version, bch};", v_new)
    for head in ("const LLR_CLAMP", "pub fn read_ring_format(", "fn symbol_bit_llr("):
        m = cut_item(m, head)
    opened = open_up(m, fields=("InkMap", "Region"))
    put("lcr-decode", "ring.rs", o, opened, (b_new, v_new))
    noted, notes = note(opened)
    uses = "use crate::notes::Note;"
    noted.insert(noted.index(v_new), uses)
    put("lcr-decode", "noted.rs", o, noted, (b_new, v_new, uses, *notes))
    over = "use crate::ring::*;"
    for name, (heads, puts) in (("skipping", SKIPPING), ("counting", COUNTING)):
        made, told = partly(opened, (over,), heads, puts)
        put("lcr-decode", f"{name}.rs", o, made, (b_new, v_new, over, *told))
    write(os.path.join(out, "lcr-decode/src/notes.rs"), open(os.path.join(HERE, "notes.rs"), encoding="utf-8").read())
    lib = ("//! Oracle build of lcr-decode: see CHANGES.txt.\nextern crate alloc;\npub mod counting;\npub mod math;\npub mod noted;\n"
           "pub mod notes;\npub mod ring;\npub mod skipping;\npub mod transform;\n")
    write(os.path.join(out, "lcr-decode/src/lib.rs"), lib)

    # manifests and driver
    def toml(crate, deps):
        t = f'[package]\nname = "{crate}"\nversion = "0.0.0"\nedition = "2024"\n\n[dependencies]\n'
        for d in deps:
            t += f'{d} = {{ path = "../{d}" }}\n'
        write(os.path.join(out, crate, "Cargo.toml"), t)
    toml("lcr-core", [])
    toml("lcr-decode", ["lcr-core"])
    toml("oracle", ["lcr-core", "lcr-decode"])
    write(os.path.join(out, "Cargo.toml"),
        '[workspace]\nresolver = "3"\nmembers = ["lcr-core", "lcr-decode", "oracle"]\n\n'
        '[profile.release]\nopt-level = 3\ndebug = false\noverflow-checks = true\n\n'
        '# the published profile: no overflow checks; used for timings\n[profile.fast]\ninherits = "release"\noverflow-checks = false\n')
    # the finder's static libraries are linked where LCR_LIB names their folder
    write(os.path.join(out, "oracle/build.rs"),
        'fn main() {\n    println!("cargo::rustc-check-cfg=cfg(ours)");\n    println!("cargo::rerun-if-env-changed=LCR_LIB");\n'
        '    if let Ok(dir) = std::env::var("LCR_LIB") {\n        println!("cargo::rustc-cfg=ours");\n'
        '        println!("cargo::rustc-link-search=native={dir}");\n        for name in ["lcr_ring", "lcr_inner"] {\n'
        '            println!("cargo::rustc-link-lib=static={name}");\n'
        '            println!("cargo::rerun-if-changed={dir}/lib{name}.a");\n        }\n    }\n}\n')
    if os.path.isdir(driver):
        for f in sorted(os.listdir(driver)):
            if f.endswith(".rs"):
                write(os.path.join(out, "oracle/src", f), open(os.path.join(driver, f), encoding="utf-8").read())
    write(os.path.join(out, "CHANGES.txt"),
        "\n".join(summary) + "\n\n" + "\n".join(log) + "\n")
    print("\n".join(summary))

main()
