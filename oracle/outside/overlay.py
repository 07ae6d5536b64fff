"""What the program `overlay` writes, beside a drawing of the same numbers in Python. Run by oracle/outside/overlay.

    overlay.py DRIVER PROGRAM FILE..

The numbers are those of the C functions, which DRIVER prints (overlay.c); the drawing is written from these words, with
fractions and without the program's code:

    A place lies in the pixel whose column and row are its whole parts, rounded down. A line from pixel a to pixel b has
    n steps, the greater of how far they are apart in columns and in rows, at least one; its point k, from 0 to n, is
    a + k (b - a) / n, each coordinate rounded to the nearest, halves up. Points outside the picture are left out.
    Of each kept region: the outermost pixels of its box in blue, the hull through its vertices in green, the quad in
    orange. Then of each tag: its outline in red; in magenta a triangle of the first corner, the point one step of three
    from it to the second corner, and the point one step of eight from it to the last; and in magenta the five by five
    pixels about the first corner. Later things lie over earlier ones. All else is the grey picture.

At the first difference it says the pixel, and exits with 1. Where FILE.drawn stands beside a file, it has the corners of the
tags that were drawn there; each tag that is found must have the corners of one of them, in the same order, within NEAR
pixels. Refused files must give no picture and say why on standard error, and so must a disk that is full.
"""
import math, os, re, subprocess, sys
from fractions import Fraction

NEAR = 3
REFUSED = ((b"", 14), (b"P6\n1 1\n255\nabc", 14), (b"P5\n1 1\n254\na", 15), (b"P5\n0 1\n255\na", 1), (b"P5\n1 4097\n255\na", 1),
           (b"P5\n1025 1\n255\na", 13), (b"P5\n1 1025\n255\na", 13), (b"P5\n2 2\n255\nabc", 2))
BLUE, GREEN, ORANGE, RED, MAGENTA = (64, 128, 255), (0, 176, 0), (255, 144, 0), (255, 0, 0), (255, 0, 255)


def nearest(q):
    return math.floor(q + Fraction(1, 2))


def on_line(a, b):
    """The pixels of a line."""
    n = max(abs(b[0] - a[0]), abs(b[1] - a[1]), 1)
    for k in range(n + 1):
        yield tuple(p + nearest(Fraction(k * (q - p), n)) for p, q in zip(a, b))


def step(a, b, n):
    """The point one step of n from a to b."""
    return tuple(nearest(p + Fraction(q - p, n)) for p, q in zip(a, b))


class Picture:
    def __init__(self, file):
        head = re.match(rb"P5\s(\d+)\s(\d+)\s255\s", file)
        self.w, self.h = int(head[1]), int(head[2])
        gray = file[head.end():head.end() + self.w * self.h]
        self.pixels = [(g, g, g) for g in gray]

    def put(self, spot, colour):
        x, y = spot
        if 0 <= x < self.w and 0 <= y < self.h:
            self.pixels[y * self.w + x] = colour

    def closed(self, spots, colour):
        for a, b in zip(spots, spots[1:] + spots[:1]):
            for spot in on_line(a, b):
                self.put(spot, colour)

    def file(self):
        return b"P6\n%d %d\n255\n" % (self.w, self.h) + bytes(c for pixel in self.pixels for c in pixel)


def drawn(file, lines):
    """The colour picture, how many boxes are on it, and the tags' corners."""
    picture, boxes, tags = Picture(file), 0, []
    for line in lines:
        word, *numbers = line.split()
        if word == "box":
            x0, y0, x1, y1 = map(int, numbers)
            for y in range(y0, y1):
                for x in range(x0, x1):
                    if x in (x0, x1 - 1) or y in (y0, y1 - 1):
                        picture.put((x, y), BLUE)
            boxes += 1
            continue
        places = [float.fromhex(n) for n in numbers]
        spots = [(math.floor(x), math.floor(y)) for x, y in zip(places[::2], places[1::2])]
        picture.closed(spots, {"hull": GREEN, "quad": ORANGE, "tag": RED}[word])
        if word == "tag":
            first, second, _, last = spots
            picture.closed([first, step(first, second, 3), step(first, last, 8)], MAGENTA)
            for y in range(-2, 3):
                for x in range(-2, 3):
                    picture.put((first[0] + x, first[1] + y), MAGENTA)
            tags.append(places)
    return picture, boxes, tags


def far(tag, name):
    """How far a tag's corners are from those of the nearest tag that was drawn."""
    with open(name) as lines:
        return min(max(abs(p - float(q)) for p, q in zip(tag, line.split())) for line in lines)


def told(program, file):
    """What a refused file gives, and what a full disk gives: on standard error alone."""
    for bytes, number in REFUSED:
        run = subprocess.run([program], input=bytes, capture_output=True)
        if run.stdout or not re.fullmatch(rb"refused %d: [^\n]+\n" % number, run.stderr):
            print(f"overlay: of {bytes!r}: {run.stdout!r} and {run.stderr!r}")
            return False
    with open("/dev/full", "wb") as full:
        run = subprocess.run([program], input=file, stdout=full, stderr=subprocess.PIPE)
    if not run.stderr:
        print("overlay: a full disk was not told")
    return bool(run.stderr)


def main(driver, program, *names):
    total, furthest = 0, 0.0
    for name in names:
        with open(name, "rb") as opened:
            file = opened.read()
        lines = subprocess.run([driver, "numbers"], input=file, capture_output=True, check=True).stdout.decode().splitlines()
        picture, boxes, tags = drawn(file, lines)
        want, got = picture.file(), subprocess.run([program], input=file, capture_output=True).stdout
        if got != want:
            at = next((i for i, (p, q) in enumerate(zip(got, want)) if p != q), min(len(got), len(want)))
            pixel = max(at - (len(want) - 3 * picture.w * picture.h), 0) // 3
            print(f"overlay: {name}: byte {at} differs, column {pixel % picture.w} of row {pixel // picture.w}")
            return 1
        if os.path.exists(name + ".drawn"):
            furthest = max([furthest] + [far(tag, name + ".drawn") for tag in tags])
        if furthest > NEAR:
            print(f"overlay: {name}: a tag is {furthest:.1f} pixels from where one was drawn")
            return 1
        print(f"overlay: {name}: {picture.w} by {picture.h}, {boxes} regions, {len(tags)} tags: same")
        total += len(tags)
    if not told(program, file):
        return 1
    print(f"overlay: {len(names)} pictures, {total} tags, every byte the same; corners within {furthest:.1f} pixels of those drawn, "
          f"in order; {len(REFUSED)} refused files and a full disk told")
    return 0


if __name__ == "__main__":
    sys.exit(main(*sys.argv[1:]))
