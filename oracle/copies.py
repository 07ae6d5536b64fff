#!/usr/bin/env python3
"""copies.py ROOT RUST KIT: runs of lines that stand in a text file of ROOT and in one of the folders of the Rust and of the kit.

A run has LINES or more lines and CHARACTERS or more characters. White space within a line counts as one space. Runs of CHANCE are told of
and pass: short laws on the words of the kit's library, and heads of loops, that came out alike. Not counted, and passed over, are lines
  * without a letter: braces, rules, and numbers alone. The ring table of lcr_core (src/border_seq.rt, specs/Ring.antt) is the
    Rust's, data under its licence (NOTICE);
  * that name modules (`use`, `mod`, `import`, `#include`);
  * that Rattle's check prints or reads in a proof file: a need with its type, the short answers to it, the closing lines.
Licence texts, and what was built for one machine (target/, out/, and the kit's folders of what it has built), are left out."""
import os, re, sys

LINES, CHARACTERS = 3, 40
OUT = {".git", "target", "out", "toolchain", "logic_built", "rlibs", "LICENSE-APACHE", "LICENSE-MIT", "UNLICENSE"}
NAMES = re.compile(r"((unfoldable )?pub |ghost )*(use|mod|import|from|extern crate|#include)\b")
NUMBERS = re.compile(r"\b(0x[0-9a-f_]+|\d[\d_]*(u8|u32|usize)?)\b", re.I)
PRINTED = re.compile(r": goal\.[\w-]+$|^[\w-]+( \w+)* =( search rules| omega arith)?$|^let a = c\.args in$|^-- Assumes nothing\.$|^#!\[tactic\(auto\)\]$")
# Runs that stand in the kit by chance, each looked at: the file here, the run's first line and its length.
CHANCE = {
    ("crates/ieee/proofs/Helpers.antt", "or-true : (a : Bool) → (a || true) ≡ true", 3),
    ("crates/ieee/proofs/Signs.antt", "unfolding of_bits", 3),
    ("crates/ieee/proofs/Signs.antt", "abs_neg : (n : ℕ) → nat_abs (neg_ℤ (pos n)) ≡ n", 3),
    ("crates/ieee/proofs/Tests.antt", "or-true : (a : Bool) → (a || true) ≡ true", 3),
    ("crates/ieee/specs/Inner.antt", "abbrev pub signed : Bool → ℕ → ℤ", 3),
    ("crates/laws/proofs/Bools.antt", "pub not-true : (b : Bool) → not b ≡ true → b ≡ false", 6),
    ("crates/math/proofs/Doors.antt", "and-false : (b : Bool) → (b && false) ≡ false", 3),
    ("crates/medians/proofs/Usable.antt", "and_assoc : (a b c : Bool) → ((a && b) && c) ≡ (a && (b && c))", 3),
    ("crates/noise/proofs/Bare.antt", "never : (b : Bool) → (b && false) ≡ false", 3),
    ("crates/outline/proofs/Cuts.antt", "where", 4),
    ("crates/outline/proofs/Cuts.antt", "and-false : (a : Bool) → (a && false) ≡ false", 3),
    ("oracle/outside/overlay.py", "return 0", 3),
}

def counted(path):
    """The lines of a file that count, with their numbers; none of a file that is no text."""
    try:
        with open(path, encoding="utf-8") as f:
            lines = [" ".join(line.split()) for line in f]
    except (UnicodeDecodeError, OSError):
        return []
    return [(i + 1, l) for i, l in enumerate(lines)
            if re.search(r"[^\W\d_]", NUMBERS.sub("", l)) and not NAMES.match(l) and not PRINTED.search(l)]

def files(folder):
    for at, below, names in os.walk(folder):
        below[:] = sorted(d for d in below if d not in OUT)
        for name in sorted(names):
            path = os.path.join(at, name)
            if name not in OUT and not os.path.islink(path):
                yield path

def look(root, own, folder, chance):
    """Runs of own files that stand in the folder and are not in `chance`; how many, how many by chance, and how many files the folder has."""
    others = {path: counted(path) for path in files(folder)}
    where = {}
    for path, lines in others.items():
        for i in range(len(lines) - LINES + 1):
            where.setdefault(tuple(l for _, l in lines[i:i + LINES]), (path, i))
    found = passed = 0
    for path, lines in own.items():
        past, name = 0, os.path.relpath(path, root)
        for i in range(len(lines) - LINES + 1):
            run = tuple(l for _, l in lines[i:i + LINES])
            if i < past or run not in where or sum(map(len, run)) < CHARACTERS:
                continue
            other, j = where[run]
            theirs, n = others[other], LINES
            while i + n < len(lines) and j + n < len(theirs) and lines[i + n][1] == theirs[j + n][1]:
                n += 1
            past = i + n
            if (name, run[0], n) in chance:
                passed += 1
                continue
            found += 1
            print(f"{name}:{lines[i][0]}: {n} lines that stand at {other}:{theirs[j][0]}")
            print("    " + "\n    ".join(run))
    return found, passed, sum(map(bool, others.values()))


def main():
    root, sources, kit = sys.argv[1:]
    own = {path: counted(path) for path in files(root)}
    rust, kit = look(root, own, sources, ()), look(root, own, kit, CHANCE)
    print(f"copies: {sum(map(bool, own.values()))} files beside {rust[2]} of the Rust and {kit[2]} of the kit: {rust[0] + kit[0]} runs of {LINES} or more equal lines, "
          f"{kit[1]} of the kit's by chance left out")
    sys.exit(rust[0] + kit[0] > 0)


main()
