"""PGM files through the C functions lcr_pgm_read and lcr_pgm_write, beside a reader and a writer in Python and beside
netpbm, libjpeg-turbo and ImageMagick. Run by oracle/outside/files; files.c makes the calls.

    files.py DRIVER CONVERT DIFFERENCES FAILING FILES SEED

At the first difference the file, or the picture that was handed to the writer, is kept in the folder FAILING, and it
exits with 1.
"""
import os, random, re, struct, subprocess, sys, tempfile

# ---- the reader and the writer, from the words of pgm(5) and pbm(5)

# "any characters from a # through the next carriage return or newline character, is a comment and is ignored"
COMMENT = rb"#[^\r\n]*[\r\n]"
IGNORED = rb"(?:" + COMMENT + rb")*"
# "space, CR, LF, TAB, VT, or FF"
WHITE = rb"[ \r\n\t\v\f]"
# "P5"; "Whitespace" and "ASCII decimal" three times; "a single whitespace character"
FORM = re.compile(rb"P5" + 3 * (rb"(?:" + IGNORED + WHITE + rb")+((?:" + IGNORED + rb"[0-9])+)") + IGNORED + WHITE)


def read(file):
    """The refusal, or width, height and where the pixels begin."""
    form = FORM.match(file)
    if not form or form.end() > 4096:
        return 14
    width, height, most = (int(re.sub(COMMENT, b"", digits)) for digits in form.groups())
    if most != 255:
        return 15
    if not (1 <= width <= 4096 and 1 <= height <= 4096):
        return 1
    if len(file) - form.end() < width * height:
        return 2
    return width, height, form.end()


def written(gray, width, height):
    return b"P5\n%d\n%d\n255\n" % (width, height) + gray


def write(gray, width, height, out):
    """The result, and what the lent list holds afterwards."""
    if not (1 <= width <= 4096 and 1 <= height <= 4096):
        return 1, out
    if len(gray) != width * height:
        return 2, out
    file = written(gray, width, height)
    return (0, file + out[len(file):]) if len(file) <= len(out) else (3, out)


# ---- files

WHITES = b" \r\n\t\v\f"
ANY = bytes(range(256))
NEAR = b"P5#\r\n \t\v\f0123456789/:A-+.\x00\xff\x08\x0e\x1f!\"$"
SIDES = (0, 1, 2, 9, 10, 16, 99, 100, 159, 160, 161, 255, 256, 4095, 4096, 4097, 9998, 9999, 10000, 65535, 65536, 65537, 2**31,
         2**32, 2**32 + 3, 2**63, 2**64 - 1, 2**64, 2**64 + 3, 10**30, 10**30 + 5)
MOSTS = (0, 1, 2, 15, 25, 55, 127, 254, 256, 510, 511, 1255, 2550, 2555, 9999, 10255, 65535, 2**16 + 255, 2**32 + 255, 2**64 + 255,
         10**30, 10**30 + 255)
KINDS = ("plain", "leading zeros", "30 digits", "comments", "line ends", "near place 4,096", "cut", "damaged", "letters", "NUL",
         "no last white space", "a pixel short", "bytes behind", "other numbers")


class Maker:
    def __init__(self, seed):
        self.r = random.Random(seed)
        self.block = self.r.randbytes(1 << 18)

    def pixels(self, n):
        k = self.r.randrange(len(self.block) - n)
        return self.block[k:k + n]

    def comment(self):
        r = self.r
        return b"#" + bytes(r.choices(b"#P5 0129\t\v\fxyz\x00\xff", k=r.choice((0, 0, 1, 2, 3, 8, 40)))) + r.choice((b"\n", b"\r", b"\r\n"))

    def noisy(self, token, level):
        if not level:
            return token
        out = bytearray()
        for b in token:
            while self.r.random() < level:
                out += self.comment()
            out.append(b)
        return bytes(out)

    def gap(self, level, whites):
        return self.noisy(bytes(self.r.choices(whites, k=self.r.choice((1, 1, 1, 1, 2, 3, 7)))), level)

    def head(self, numbers, level=0.0, whites=WHITES):
        """All of the header before its last white-space byte; numbers are digits."""
        out = b"P5"
        for n in numbers:
            out += self.gap(level, whites) + self.noisy(n, level)
        while self.r.random() < level:
            out += self.comment()
        return out

    def side(self):
        r, k = self.r, self.r.random()
        return r.randrange(1, 13) if k < 0.6 else r.randrange(1, 200) if k < 0.8 else r.randrange(1, 4097) if k < 0.9 else r.choice(SIDES)

    def sides(self):
        r = self.r
        if r.random() < 0.1:        # the longest sides, accepted where the other is short
            pair = [r.choice((4095, 4096, 4097, r.randrange(1, 4097))), r.randrange(1, 5)]
            r.shuffle(pair)
            return pair
        return [self.side(), self.side()]

    def far(self, head, place):
        """The header made longer, so that its last white-space byte is the one at this place, from 1."""
        r, more = self.r, place - 1 - len(head)
        where = 2
        kind = r.randrange(5)
        if kind == 0:
            fill = bytes(r.choices(WHITES, k=more))
        elif kind == 1:
            fill = b"#" + bytes(r.choices(b"ab 1#\x00", k=more - 2)) + r.choice((b"\n", b"\r"))
        elif kind == 2:
            fill = b"#\n" * (more // 2) + b" " * (more % 2)
        elif kind == 3:             # leading zeros of a number
            fill, where = b"0" * more, r.choice([k for k in range(3, len(head)) if head[k - 1] in WHITES and head[k] not in WHITES])
        else:                       # a comment after the maximum value
            fill, where = b"#" + b"c" * (more - 2) + b"\n", len(head)
        return head[:where] + fill + head[where:]

    def damaged(self, file, head):
        r, file = self.r, bytearray(file)
        for _ in range(r.choice((1, 1, 2, 3))):
            k, what = r.randrange(min(len(file), head + 2) or 1), r.randrange(4)
            byte = r.choice(NEAR if r.random() < 0.8 else ANY)
            if what == 0 and file:
                file[k] = byte
            elif what == 1:
                file[k:k] = bytes((byte,))
            elif what == 2:
                del file[k:k + 1]
            elif file:
                file[k] ^= 1 << r.randrange(8)
        return bytes(file)

    def file(self, kind):
        r = self.r
        width, height = self.sides()
        most = 255 if r.random() < 0.95 else r.choice(MOSTS)
        if kind == "30 digits":
            width, height, most = (n if r.random() < 0.7 else r.randrange(10**29, 10**30) for n in (width, height, most))
        if kind == "other numbers":
            width, height, most = r.choice(SIDES), r.choice(SIDES), r.choice((255, r.choice(MOSTS)))
        digits = [b"%d" % n for n in (width, height, most)]
        if kind in ("leading zeros", "30 digits") or r.random() < 0.1:
            digits = [b"0" * r.choice((0, 1, 2, 5, 30, 100)) + d for d in digits]
        level = r.choice((0.05, 0.2, 0.4)) if kind == "comments" else r.choice((0, 0, 0, 0.05))
        head = self.head(digits, level, b"\r\n" if kind == "line ends" else WHITES)
        if kind == "near place 4,096":
            head = self.far(head, 4096 + r.choice((-2, -1, 0, 0, 0, 1, 1, 2, 50)))
        last = bytes((r.choice(b"\r\n" if kind == "line ends" else WHITES),))
        if kind == "line ends" and r.random() < 0.3:
            last = b"\r\n"          # the LF is a pixel
        if kind == "no last white space":
            last = r.choice((b"", b"#c\n", b"#", b"x", b"\x00", b"-", b"\xa0", b"\x85"))
        need = width * height
        many = need if need <= 70000 else r.randrange(20)
        if kind == "a pixel short":
            many = max(many - 1, 0)
        elif kind == "bytes behind":
            many += r.choice((1, 2, 9, 500))
        elif r.random() < 0.05:
            many = r.randrange(many + 2)
        file = head + last + self.pixels(many)
        if kind == "cut":
            file = file[:r.randrange(min(len(file), len(head) + 3))]
        elif kind == "damaged":
            file = self.damaged(file, len(head))
        elif kind == "letters":
            letters = r.choice((b"P1", b"P2", b"P3", b"P4", b"P6", b"P7", b"p5", b"5P", b"PP", b"P", b"", b" P5", b"P 5", b"\nP5", b"P#\n5",
                                b"#\nP5", b"P\x005", b"\xef\xbb\xbfP5", b"P05", b"P55"))
            file = letters + file[2:]
        elif kind == "NUL":
            k = r.randrange(len(head) + 1)
            file = file[:k] + b"\x00" + file[k + r.randrange(2):]
        return file


# ---- calls

UNTOUCHED = 0xA5C3A5C3A5C3A5C3
DRIVER, CONVERT, DIFFERENCES, FAILING, FILES, SEED = sys.argv[1:5] + [int(a) for a in sys.argv[5:7]]


def many(n):
    return format(n, ",")


def fail(what, file):
    os.makedirs(FAILING, exist_ok=True)
    name = os.path.join(FAILING, "files-%d.pgm" % SEED)
    with open(name, "wb") as f:
        f.write(file)
    print("files: %s; kept as %s" % (what, name))
    sys.exit(1)


def ask(calls, kept):
    """The driver's answers to a list of calls; where it does not come back, the first call that it does not come back from
    is looked for."""
    def go(some):
        return subprocess.run([DRIVER, "serve"], input=b"".join(some), stdout=subprocess.PIPE)
    done = go(calls)
    if done.returncode == 0:
        return done.stdout
    for call, file in zip(calls, kept):
        done = go([call])
        if done.returncode:
            fail("a call does not come back (%d)" % done.returncode, file)
    fail("calls do not come back together (%d)" % done.returncode, kept[0])


def read_call(file):
    return b"R" + struct.pack("<Q", len(file)) + file


def write_call(gray, width, height, out):
    return b"W" + struct.pack("<4Q", width, height, len(gray), len(out)) + gray + out


WRONG = ("", "the writer refuses what was read", "the writer touches places past its file", "what is written is not read back",
         "rewritten twice is not rewritten once", "the pixels are not in the file")


def reads(files):
    """The answer to each file, checked beside the reader and the writer above."""
    out, at, answers = ask([read_call(f) for f in files], files), 0, []
    for file in files:
        result, width, height, start = struct.unpack_from("<4Q", out, at)
        at += 32
        want = read(file)
        got = (width, height, start) if result == 0 else result
        if got != want:
            fail("read: %s, expected %s" % (got, want), file)
        if result:
            if (width, height, start) != (UNTOUCHED,) * 3:
                fail("read: an out-parameter is written on refusal %d" % result, file)
        else:
            n, = struct.unpack_from("<Q", out, at)
            once = out[at + 8:at + 8 + n]
            wrong, = struct.unpack_from("<Q", out, at + 8 + n)
            at += 16 + n
            if wrong:
                fail(WRONG[wrong], file)
            if once != written(file[start:start + width * height], width, height):
                fail("rewritten, it is another file", file)
        answers.append(got)
    return answers


def writes(calls):
    """Result and file of each call (gray, width, height, out), checked beside the writer above."""
    out, at, answers = ask([write_call(*c) for c in calls], [c[0] for c in calls]), 0, []
    for gray, width, height, before in calls:
        result, n = struct.unpack_from("<2Q", out, at)
        after = out[at + 16:at + 16 + len(before)]
        at += 16 + len(before)
        says = "%d bytes as %d by %d into %d places" % (len(gray), width, height, len(before))
        want, list_after = write(gray, width, height, before)
        if result != want:
            fail("write: %d, expected %d, of %s" % (result, want, says), gray)
        if n != (UNTOUCHED if want else len(written(gray, width, height))):
            fail("write: length %d, result %d, of %s" % (n, want, says), gray)
        if after != list_after:
            fail("write: a place of the list is wrong, result %d, of %s" % (want, says), gray)
        answers.append((result, after[:n] if not result else b""))
    return answers


# ---- netpbm

def run(command, file=b""):
    return subprocess.run(command, input=file, stdout=subprocess.PIPE, stderr=subprocess.DEVNULL).stdout


def sides(file):
    """What pamfile says of a PGM of maximum value 255."""
    says = re.fullmatch(rb"stdin:\s+PGM raw, (\d+) by (\d+)\s+maxval 255\n", run(["pamfile"], file))
    return says and (int(says.group(1)), int(says.group(2)))


def netpbm_pixels(file, n):
    """The pixels that netpbm reads: as decimal text, or, where they are many, the last bytes of its own PGM."""
    if n > 1 << 20:
        return run(["pamtopnm"], file)[-n:]
    words = run(["pamtopnm", "-plain"], file).split()
    return bytes(int(w) for w in words[4:]) if words[:1] == [b"P2"] and words[3] == b"255" else None


def pamtopnm(file):
    """What pamtopnm reads first in a file: width, height and pixels; "other" where the maximum value is not 255; or None."""
    out = run(["pamtopnm"], file)
    form = re.match(rb"P5\n(\d+) (\d+)\n(\d+)\n|P4\n(\d+) (\d+)\n", out)
    if not form:
        return None
    width, height = int(form.group(1) or form.group(4)), int(form.group(2) or form.group(5))
    most = int(form.group(3) or 1)      # of maximum value 1 it makes a P4, 8 pixels a byte
    size = height * (2 * width if most > 255 else width if most > 1 else (width + 7) // 8)
    pixels = out[form.end():form.end() + size]
    if len(pixels) < size:
        return None
    return (width, height, pixels) if most == 255 else "other"


def libnetpbm(file):
    """libnetpbm's own rules, as pamtopnm above: a comment is its line end; before a number any number of spaces, TABs, LFs
    and CRs, none needed; after a number any one byte."""
    at = 2

    def byte():
        nonlocal at
        comment = file[at] == 35
        while comment and file[at] not in b"\r\n":
            at += 1
        at += 1
        return file[at - 1]

    def number():
        b, n = byte(), 0
        while b in b" \t\n\r":
            b = byte()
        if b not in b"0123456789":
            raise IndexError
        while b in b"0123456789":
            n, b = 10 * n + b - 48, byte()
        return n
    try:
        width, height, most = number(), number(), number()
    except IndexError:
        return None
    if not (file[:2] == b"P5" and 1 <= width < 2**31 and 1 <= height < 2**31 and 1 <= most < 65536):
        return None
    size = 1 if most < 256 else 2
    pixels = file[at:at + size * width * height]
    if len(pixels) < size * width * height:
        return None
    if any(int.from_bytes(pixels[k:k + size], "big") > most for k in range(0, len(pixels), size)):
        return None
    return (width, height, pixels) if most == 255 else "other"


# ---- a, d: random and damaged files

def part_files():
    make, counts, kinds, places = Maker(SEED), {}, dict.fromkeys(KINDS, 0), 0
    for begin in range(0, FILES, 5000):
        chosen = [make.r.choice(KINDS) for _ in range(min(5000, FILES - begin))]
        for kind in chosen:
            kinds[kind] += 1
        for answer in reads([make.file(kind) for kind in chosen]):
            number = answer if isinstance(answer, int) else 0
            counts[number] = counts.get(number, 0) + 1
            places += not number and answer[2] == 4096
    print("files: " + ", ".join("%s %s" % (k, many(n)) for k, n in kinds.items()))
    print("read: %s files; %s; accepted %s, %s of them with the last white-space byte at place 4,096; 0 different" % (
        many(FILES), "; ".join("%d: %s" % (k, many(counts.get(k, 0))) for k in (14, 15, 1, 2)), many(counts.get(0, 0)), many(places)))
    print("rewritten: %s accepted files, equal to Python's, read back, twice as once; 0 different" % many(counts.get(0, 0)))


# ---- b: what other programs write

SIZES = ((1, 1), (1, 7), (16, 16), (97, 61), (640, 480), (1023, 1025), (4096, 3), (2, 4096), (4096, 4096))
TOOLS = (
    ("pgmramp -lr", "pgmramp -lr {w} {h}"),
    ("pgmramp -tb", "pgmramp -tb {w} {h}"),
    ("pgmramp -rectangle", "pgmramp -rectangle {w} {h}"),
    ("pgmramp -ellipse", "pgmramp -ellipse {w} {h}"),
    ("pgmnoise", "cat {noise}"),
    ("pgmmake", "pgmmake 0.4 {w} {h}"),
    ("pamtopnm", "pamtopnm {noise}"),
    ("pnmtopnm", "pamtopnm -plain {noise} | pnmtopnm"),
    ("pamflip -lr", "pamflip -lr {noise}"),
    ("pamflip -tb", "pamflip -tb {noise}"),
    ("pamflip -cw", "pamflip -cw {noise}"),
    ("pamflip -xy", "pamflip -xy {noise}"),
    ("pamcut", "pnmpad -left=3 -top=2 -right=1 -bottom=5 {noise} | pamcut -left=3 -top=2 -width={w} -height={h}"),
    ("djpeg", "cjpeg -grayscale -quality 80 {noise} | djpeg -grayscale -pnm"),
    ("convert", "{convert} pgm:{noise} -depth 8 pgm:-"),
    ("convert -flop", "{convert} pgm:{noise} -flop -depth 8 pgm:-"),
    ("convert, comments", "{convert} pgm:{noise} -set comment 'a # comment of 3 1 255' -depth 8 pgm:-"),
)
TURNED = ("pamflip -cw", "pamflip -xy")
COPIED = ("pamtopnm", "pnmtopnm", "pamcut", "convert", "convert, comments")


def part_tools(folder):
    count, noise = 0, os.path.join(folder, "noise")
    for number, (width, height) in enumerate(SIZES):
        with open(noise, "wb") as f:
            f.write(run(["pgmnoise", "-randomseed=%d" % (SEED + number), str(width), str(height)]))
        source = None
        for tool, command in TOOLS:
            file = run(["sh", "-c", command.format(w=width, h=height, noise=noise, convert=CONVERT)])
            want = (height, width) if tool in TURNED else (width, height)
            if sides(file) != want:
                fail("%s: pamfile says %s, expected %s" % (tool, sides(file), want), file)
            if tool == "convert, comments" and b"#" not in file[:40]:
                fail("%s: no comment" % tool, file)
            answer, = reads([file])
            if isinstance(answer, int) or answer[:2] != want:
                fail("%s: read as %s" % (tool, answer), file)
            pixels = file[answer[2]:answer[2] + width * height]
            if answer[2] + width * height != len(file) or pixels != netpbm_pixels(file, width * height):
                fail("%s: other pixels than netpbm reads" % tool, file)
            source = pixels if tool == "pgmnoise" else source
            if tool in COPIED and pixels != source:
                fail("%s: other pixels than were handed in" % tool, file)
            count += 1
    print("tools: %d files, made in %d ways in %d sizes from 1 by 1 to 4,096 by 4,096, sides and pixels as netpbm reads them; 0 different"
          % (count, len(TOOLS), len(SIZES)))


# ---- c: what the writer writes

def part_writer():
    make, count = Maker(SEED + 1), 0
    for width, height in SIZES + ((4096, 1), (1, 4096), (160, 160), (9, 10), (10, 9), (99, 100), (999, 1000)):
        gray = make.r.randbytes(width * height)
        n = len(written(gray, width, height))
        before = make.r.randbytes(n + 9)
        calls = [(gray, width, height, before[:n + more]) for more in (0, 9, -1)]
        answers = writes(calls)
        if [result for result, _ in answers] != [0, 0, 3]:
            fail("write: %s by %s into lists of as many places, more and one less" % (width, height), gray)
        file = answers[0][1]
        if sides(file) != (width, height) or netpbm_pixels(file, width * height) != gray:
            fail("write: netpbm reads another picture", file)
        if run([CONVERT, "pgm:-", "-depth", "8", "gray:-"], file) != gray:
            fail("write: ImageMagick reads another picture", file)
        if reads([file]) != [(width, height, n - len(gray))]:
            fail("write: read otherwise", file)
        count += 1
    print("written: %d pictures up to 4,096 by 4,096, sides and pixels as netpbm and ImageMagick read them; 0 different" % count)
    r, counts, total = make.r, {}, FILES // 10
    for begin in range(0, total, 5000):
        calls = []
        for _ in range(min(5000, total - begin)):
            width, height = make.sides()
            width, height = width % 2**64, height % 2**64
            need = width * height if width * height <= 30000 else r.randrange(300)
            have = max(0, need + r.choice((0, 0, 0, 0, 0, -1, 1, -need, r.randrange(9))))
            room = len(written(b"", width, height)) + need
            room = max(0, room + r.choice((0, 0, 0, 1, 5, 100, -1, -1, -2, -need, -r.randrange(20), -room)))
            calls.append((make.pixels(have), width, height, make.pixels(room)))
        for result, _ in writes(calls):
            counts[result] = counts.get(result, 0) + 1
    print("write: %s calls; %s; accepted %s; every place of every list; 0 different" % (
        many(total), "; ".join("%d: %s" % (k, many(counts.get(k, 0))) for k in (1, 2, 3)), many(counts.get(0, 0))))


# ---- e: where libnetpbm reads otherwise

ROW = re.compile(r"\| [^|]+ \| ([^|]+) \| ([^|]+) \| `(P[^|`]+)` \|")


def shown(answer, file):
    """An answer in the words of the tables of docs/DIFFERENCES.md."""
    if answer is None:
        return "refused"
    if isinstance(answer, (int, str)):
        return "another maximum value" if answer == "other" else str(answer)
    width, height, pixels = answer if isinstance(answer[2], bytes) else answer[:2] + (file[answer[2]:answer[2] + answer[0] * answer[1]],)
    return "%s by %s, %d" % (many(width), many(height), pixels[0])


def part_rows():
    with open(DIFFERENCES, encoding="utf-8") as f:
        rows = [row.groups() for row in map(ROW.fullmatch, f.read().splitlines()) if row]
    for theirs, here, text in rows:
        file = run(["sh", "-c", 'printf "$1"', "sh", text])
        answer, = reads([file])
        if shown(answer, file) != here:
            fail("DIFFERENCES: `%s`: %s, and not %s" % (text, shown(answer, file), here), file)
        if shown(pamtopnm(file), file) != theirs:
            fail("DIFFERENCES: `%s`: pamtopnm has %s, and not %s" % (text, shown(pamtopnm(file), file), theirs), file)
    if len(rows) < 10:
        fail("DIFFERENCES: %d rows found" % len(rows), b"")
    file = b"P5 1 1 255 A"
    two = [subprocess.run(["pamtopnm"], input=file + more, capture_output=True) for more in (file, b"B")]
    if [(t.stdout.count(b"P5"), t.returncode != 0) for t in two] != [(2, False), (1, True)]:
        fail("DIFFERENCES: pamtopnm reads bytes behind the pixels otherwise", file)
    print("rows of DIFFERENCES: %d, each as read here and by pamtopnm" % len(rows))


def edits(file, pieces):
    for k in range(2, len(file)):
        yield file[:k] + file[k + 1:]
        for piece in pieces:
            yield file[:k] + piece + file[k:]
            yield file[:k] + piece + file[k + 1:]


def part_near():
    """Files one and two edits from a small one: libnetpbm's rules are those above and no others."""
    small = b"P5 1 1 255 AB"
    pieces = [bytes((b,)) for b in b" \n\r\t\v\f#0125x\x00"] + [b"#\n", b"#\r"]
    near = set(edits(small, pieces))
    one = near.union(edits(small, [bytes((b,)) for b in range(256)]))
    two = {file for first in near for file in edits(first, pieces)} - one
    files = sorted(one | two)
    chosen = random.Random(SEED).sample(files, min(len(files), FILES // 5))
    other = 0
    for file, answer in zip(chosen, reads(chosen)):
        theirs = pamtopnm(file)
        if theirs != libnetpbm(file):
            fail("pamtopnm: %s, and by libnetpbm's rules %s" % (theirs, libnetpbm(file)), file)
        here = None if isinstance(answer, int) else (answer[0], answer[1], file[answer[2]:answer[2] + answer[0] * answer[1]])
        other += theirs != "other" and theirs != here
    print("near a small file: %s of the %s one or two edits from P5 1 1 255 AB, pamtopnm by libnetpbm's rules, %s read otherwise here; "
          "0 different" % (many(len(chosen)), many(len(files)), many(other)))


def main():
    part_files()
    with tempfile.TemporaryDirectory() as folder:
        part_tools(folder)
    part_writer()
    part_rows()
    part_near()


main()
