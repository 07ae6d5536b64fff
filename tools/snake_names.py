#!/usr/bin/env python3
"""Turns the repository's own names of definitions and laws to snake case: countRow-more to count_row-more.

usage: python3 tools/snake_names.py [--dry]      at the top of the repository, once, after port.py

Each word of crates/*/specs, crates/*/proofs and of the clauses and ghost imports of crates/*/src that begins with a small letter and
has a capital inside is turned, its parts between dashes each by itself. Names that a file imports from the kit's libraries stay. Names
of src/ are in snake case already and stand where they stood. It tells where two names of one file become one, and where a name of a
definition becomes that of a parameter of a function in a file that imports it; then it lays the files out by rt fmt.
"""
import glob
import re
import subprocess
import sys

WORD = re.compile(r"[^\W\d_][\w'₀-₉]*(?:-[\w'₀-₉?]+)*|[\w'₀-₉·]+(?:-[\w'₀-₉?]+)*")
SPECIAL = {"getD": "get_or"}
# Lemmas with the name of the definition that they speak of, once that is in snake case: each gets `_lem` where it is made or imported.
LEMMAS = {"member_of", "after_line", "kept_on", "pt_at", "minus_one", "step_by", "box_of"}


def part(p):
    if p in SPECIAL:
        return SPECIAL[p]
    if not re.match(r"[a-z]", p) or not re.search(r"[A-Z]", p):
        return p
    p = p.replace("getD", "get_or")
    return re.sub(r"(?<=[a-z0-9'₀-₉])([A-Z])", lambda m: "_" + m.group(1), p).lower()


def snake(word):
    if not re.match(r"[a-z0-9]", word):
        return word
    return "-".join(part(p) for p in word.split("-"))


def library_names(text):
    kept = set()
    for m in re.finditer(r"(?m)^\s*(?:pub )?(?:ghost )?use ([\w.·+'-]+)\.\{([^}]*)\}", text):
        crate = re.match(r"Rattle\.(\w+)\.", m.group(1) + ".")
        if crate and crate.group(1) in CRATES:
            continue
        for name in m.group(2).split(","):
            kept.add(re.split(r"\s+as\s+", name.strip())[0])
    return kept


def library_aliases(text):
    found = set()
    for m in re.finditer(r"(?m)^\s*use ([\w.·+'-]+) as ([\w'-]+)", text):
        crate = re.match(r"Rattle\.(\w+)\.", m.group(1) + ".")
        if not (crate and crate.group(1) in CRATES):
            found.add(m.group(2))
    return found


def with_lem(path, text):
    """Lemmas of LEMMAS that this file makes, or imports from a file of proofs/, get their new name."""
    for w in LEMMAS:
        camel = re.sub(r"_(\w)", lambda m: m.group(1).upper(), w)
        made = re.search(rf"(?m)^\s*(?:pub )?{w} :", text) and "/proofs/" in path and re.search(rf"\b{camel}\b", text)
        brought = re.search(rf"use Rattle\.\w+\.proofs\.[\w.]+\.\{{(?:[^}}]*[ ,])?{w}(?:,[^}}]*)?\}}", text)
        if made or brought:
            text = re.sub(rf"(?<![\w.'-]){w}(?![\w'-])", w + "_lem", text)
    return text


def turn(path, text, dry_said):
    if path.endswith(".antt"):
        text = with_lem(path, text)
    kept, aliases = library_names(text), library_aliases(text)
    seen = {}

    def one(m):
        w = m.group(0)
        if w in kept:
            return w
        before = text[max(0, m.start() - 40):m.start()]
        a = re.search(r"([\w'-]+)\.$", before)
        if a and a.group(1) in aliases:
            return w
        n = snake(w)
        seen.setdefault(n, set()).add(w)
        return n

    if path.endswith(".rt"):
        out = turn_rt(text, one)
    else:
        out = outside_strings(text, WORD, one)
    for n, olds in seen.items():
        if len(olds) > 1 and any(o != n for o in olds):
            dry_said.append(f"{path}: {sorted(olds)} become {n}")
    for k in kept:
        if k in seen and any(o != k for o in seen[k]):
            dry_said.append(f"{path}: {sorted(seen[k])} become the library's {k}")
    return out


def outside_strings(text, word, one):
    return "".join(p if p.startswith('"') else word.sub(one, p) for p in re.split(r'("(?:[^"\\\n]|\\.)*")', text))


def turn_rt(text, one):
    """Only ghost imports, clauses and comments hold such words: names of code have no capital inside."""
    return outside_strings(text, re.compile(r"(?<![\w'])[^\W\d_]\w*(?:-\w+)*(?![\w'])|(?<![\w'])[\w·]+(?:-\w+)*(?![\w'])"), one)


CRATES = {p.split("/")[1] for p in glob.glob("crates/*/")}


def main():
    dry = "--dry" in sys.argv
    said, written = [], {}
    for path in sorted(glob.glob("crates/*/specs/**/*.antt", recursive=True) + glob.glob("crates/*/proofs/**/*.antt", recursive=True) + glob.glob("crates/*/src/**/*.rt", recursive=True)):
        with open(path, encoding="utf-8") as f:
            text = f.read()
        out = turn(path, text, said)
        if path.endswith(".rt"):
            ghost = set()
            for m in re.finditer(r"ghost use Rattle\.(\w+)\.[\w.']+\{([^}]*)\}", out):
                ghost |= {x.strip() for x in m.group(2).split(",")} if m.group(1) in CRATES else set()
            for m in re.finditer(r"\bfn (\w+)(?:<[^>]*>)?\(([^)]*)\)", re.sub(r"//.*", "", out)):
                both = ghost & set(re.findall(r"\b(\w+):", m.group(2)))
                if both:
                    said.append(f"{path}: {m.group(1)} has parameters with names of definitions: {sorted(both)}")
        if out != text:
            written[path] = out
    for s in said:
        print(s)
    print(len(written), "files", len(said), "remarks")
    if dry:
        return
    for path, out in written.items():
        with open(path, "w", encoding="utf-8") as f:
            f.write(out)
    for crate in sorted({path.split("/")[1] for path in written if path.endswith(".rt")}):
        subprocess.run(["rt", "fmt"], cwd=f"crates/{crate}", check=True, stdout=subprocess.DEVNULL)


main()
