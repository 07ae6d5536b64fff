#!/usr/bin/env python3
"""make_table.py SRC: write the ring table from the Rust's border_seq.rs.

SRC is the folder of the Rust sources. It writes the code's table and the definitions' table
(crates/lcr_core/src/border_seq.rt and specs/Ring.antt); `rt fmt` then gives them the layout."""
import os, re, sys

root = os.path.dirname(os.path.dirname(os.path.abspath(__file__)))
text = open(os.path.join(sys.argv[1], "crates/lcr-core/src/border_seq.rs"), encoding="utf-8").read()
rows = re.findall(r"&\[([^\]]*)\]", text[text.index("SEQUENCES: "):].split("=", 1)[1])
rows = [[int(b, 16) for b in re.findall(r"0x([0-9a-f]{2})", row)] for row in rows]
if [len(row) for row in rows] != [2 * v + 11 for v in range(1, 65)]:
    sys.exit("the rows of border_seq.rs are not 2v + 11 bytes long")
table = [b for row in rows for b in row]

with open(os.path.join(root, "crates/lcr_core/src/border_seq.rt"), "w", encoding="utf-8") as out:
    out.write("// The ring bytes of all versions, row after row: row v has 2v + 11 bytes. Made by\n"
              "// oracle/make_table.py from border_seq.rs.\n"
              f"pub const RING: [u8; {len(table)}] = [\n" + "".join(f"    {b},\n" for b in table) + "];\n")

path = os.path.join(root, "crates/lcr_core/specs/Ring.antt")
head = open(path, encoding="utf-8").read().split("ringBytes =\n")[0]
lines = [" ∷ ".join(str(b) for b in table[i:i + 22]) + " ∷" for i in range(0, len(table), 22)]
with open(path, "w", encoding="utf-8") as out:
    out.write(head + "ringBytes =\n" + "".join(f"    {line}\n" for line in lines) + "    []\n")
