"""Exact hulls and quads of lists of whole points, from the request's words, with Python's whole numbers.

A hull's vertices come from sorting the points and from two chains, there and back (Andrew). They are then held to the words. In lists
of up to EDGES points: all points on or right of every edge, other vertices right of it, which is clockwise with x right and y down. In
those of up to FEW also without edges or an order: a point is on or inside the hull of others where it is one of them, lies between
two of them, or in a triangle of three; every point is so to the vertices, and no vertex to the others.

    whole.py LISTS SEED OUT    LISTS random lists
    whole.py largest OUT       lists of 16,384 points

OUT has numbers of four bytes: how many kinds of lists; their names, 64 bytes each; how many lists; of each list its kind, how many points,
the points, how many vertices, the vertices, the quad of the vertices, and the quad of the list itself. A quad is 1 and eight
numbers, or 0 where there is none, or 2 where it was left out."""
import math
import random
import sys
from array import array
from itertools import combinations

MOST, POINTS, FEW, EDGES = 8192, 16384, 8, 300


def cross(o, a, b):
    """Above 0 where b is right of the way from o to a, x right and y down."""
    return (a[0] - o[0]) * (b[1] - o[1]) - (a[1] - o[1]) * (b[0] - o[0])


def far(a, b):
    return (a[0] - b[0]) ** 2 + (a[1] - b[1]) ** 2


def chain(points):
    kept = []
    for p in points:
        while len(kept) > 1 and cross(kept[-2], kept[-1], p) <= 0:
            kept.pop()
        kept.append(p)
    return kept


def hull(points):
    order = sorted(set(points))
    return order if len(order) < 2 else chain(order)[:-1] + chain(order[::-1])[:-1]


def quad(points):
    """The first farthest pair, the first point farthest out on either side of it; none where a side has none."""
    if len(points) < 4:
        return None
    a, b = max(combinations(points, 2), key=lambda pair: far(*pair))
    c = max(points, key=lambda p: cross(a, b, p))
    d = min(points, key=lambda p: cross(a, b, p))
    if cross(a, b, c) <= 0 or cross(a, b, d) >= 0:
        return None
    corners = [a, c, b, d]
    area = sum(p[0] * q[1] - q[0] * p[1] for p, q in zip(corners, corners[1:] + corners[:1]))
    return corners if area >= 0 else [a, d, b, c]


def on_or_inside(p, others):
    """p is one of the others, between two of them, or in a triangle of three."""
    if p in others:
        return True
    for a, b in combinations(others, 2):
        if cross(a, b, p) == 0 and far(a, p) < far(a, b) and far(b, p) < far(a, b):
            return True
    for a, b, c in combinations(others, 3):
        turns = cross(a, b, p), cross(b, c, p), cross(c, a, p)
        if cross(a, b, c) != 0 and (min(turns) >= 0 or max(turns) <= 0):
            return True
    return False


def held(points, vertices):
    """Whether the vertices are what the request's words say of the points, where the list is short enough to be looked at."""
    if len(points) > EDGES:
        return 0
    assert set(vertices) <= set(points) and len(set(vertices)) == len(vertices)
    assert vertices[:1] == ([min(points)] if points else [])
    if len(vertices) > 1:
        for a, b in zip(vertices, vertices[1:] + vertices[:1]):
            assert all(cross(a, b, p) >= 0 for p in points)
            assert all(cross(a, b, v) > 0 for v in vertices if v != a and v != b)
    if len(points) > FEW:
        return 1
    assert all(on_or_inside(p, vertices) for p in points)
    assert not any(on_or_inside(v, vertices[:i] + vertices[i + 1:]) for i, v in enumerate(vertices))
    return 2


# ---- random lists: each kind makes n points or some more or fewer

def clip(x):
    return min(max(int(x), 0), MOST)


class Lists:
    def __init__(self, seed):
        self.r = random.Random(seed)

    def box(self):
        """A box within 0 to 8,192, or within 0 to 2,048 every other time: left, top, width and height."""
        r = self.r
        most = r.choice((2048, MOST))
        sides = [min(most, r.choice((1, 2, 3, 4, 7, 15, 60, 250, 1000, 2048, 4096, MOST, r.randint(1, MOST)))) for _ in range(2)]
        if r.random() < 0.5:
            sides[1] = sides[0]
        left, top = (r.choice((0, most - s, r.randint(0, most - s))) for s in sides)
        return left, top, sides[0], sides[1]

    def grid(self, n):
        x, y, w, h = self.box()
        return [(x + self.r.randint(0, w), y + self.r.randint(0, h)) for _ in range(n)]

    def line(self, n):
        """Points on a line, in most lists with some beside it."""
        r = self.r
        x, y, w, h = self.box()
        dx, dy = r.randint(-6, 6), r.randint(-6, 6)
        reach = min(w // max(abs(dx), 1), h // max(abs(dy), 1))
        ox, oy = x + w * (dx < 0), y + h * (dy < 0)
        points = [(ox + dx * t, oy + dy * t) for t in (r.randint(0, reach) for _ in range(n))]
        return points + [(x + r.randint(0, w), y + r.randint(0, h)) for _ in range(r.choice((0, 0, 1, 2)))]

    def beside(self, n):
        """Points within a step of a long line, so that turns are small."""
        r = self.r
        x, y, w, h = self.box() if r.random() < 0.5 else (0, 0, r.randint(5000, MOST), r.randint(5000, MOST))
        points = []
        for _ in range(n):
            t, off = r.randint(0, w), r.choice((0, 0, 0, 1, -1))
            points.append((x + t, min(max(y + t * h // w + off, 0), MOST)))
        return points if r.random() < 0.5 else [(v, u) for u, v in points]

    def slight(self, n):
        """The ends of a long line, and points that turn off it by a few units of area, where rounded products tell another side."""
        r = self.r
        w, h = 0, 0
        while math.gcd(w, h) != 1:
            w, h = r.randint(3000, MOST), r.randint(3000, MOST)
        points = [(0, 0), (w, h)]
        for turn in (r.randint(-5, 5) for _ in range(n)):
            x = -turn * pow(h, -1, w) % w
            points.append((x, (turn + h * x) // w))
        points += [(r.randint(0, w), r.randint(0, h)) for _ in range(r.choice((0, 1, 3)))]
        flip, swap = r.random() < 0.5, r.random() < 0.5
        points = [(w - x if flip else x, y) for x, y in points]
        return [(y, x) for x, y in points] if swap else points

    def circle(self, n):
        r = self.r
        x, y, w, h = self.box()
        turn, a, b = r.random(), w / 2, h / 2
        angles = [math.tau * (turn + (i / max(n, 1) if r.random() < 0.8 else r.random())) for i in range(n)]
        return [(round(x + a + a * math.cos(t)), round(y + b + b * math.sin(t))) for t in angles]

    def border(self, n):
        """Points on the border of a box, its corners often among them."""
        r = self.r
        x, y, w, h = self.box() if r.random() < 0.5 else (0, 0, MOST, MOST)
        points = []
        for _ in range(n):
            u, v = r.choice((r.randint(0, w), 0, w)), r.choice((0, h))
            points.append((x + u, y + v) if r.random() < 0.5 else (x + v * w // h, y + u * h // w))
        return points

    def repeats(self, n):
        few = self.grid(self.r.randint(1, 6))
        return [self.r.choice(few) for _ in range(n)]

    def edges(self, n):
        """Corners, and whole points on the lines between them."""
        r = self.r
        corners = self.grid(r.randint(2, 6))
        points = corners[:n]
        while len(points) < n:
            (ax, ay), (bx, by) = r.sample(corners, 2)
            steps = math.gcd(bx - ax, by - ay) or 1
            t = r.randint(0, steps)
            points.append((ax + (bx - ax) // steps * t, ay + (by - ay) // steps * t))
        return points

    def outline(self, n):
        """As the outline door lists them: rows with both ends at even x and odd y, then columns with odd x and even y."""
        r = self.r
        x, y, w, h = self.box()
        points = []
        for i in range(n // 4):
            for across in (True, False):
                a, b = (w, h) if across else (h, w)
                t = (i + 0.5) / (n // 4) * 2 - 1
                reach = r.choice((1, 1 - abs(t), math.sqrt(1 - t * t))) * a / 2
                ends = [a / 2 - reach, a / 2 + reach]
                at = int((t + 1) * b / 2)
                for e in ends:
                    u, v = (x + e, y + at) if across else (x + at, y + e)
                    u, v = (clip(u) & ~1, clip(v) | 1) if across else (clip(u) | 1, clip(v) & ~1)
                    points.append((min(u, MOST - 1 if u % 2 else MOST), min(v, MOST - 1 if v % 2 else MOST)))
        return points

    def extremes(self, n):
        some = (0, 1, 2, 4095, 4096, 4097, 8190, 8191, 8192)
        return [(self.r.choice(some), self.r.choice(some)) for _ in range(n)]

    def row(self, n):
        """Points of one column or row, in some lists of two next to each other."""
        r = self.r
        at, wide, most = r.choice((0, MOST - 1, r.randint(0, MOST - 1))), r.randint(0, 1), r.choice((3, 50, MOST))
        points = [(at + r.randint(0, wide), r.randint(0, most)) for _ in range(n)]
        return points if r.random() < 0.5 else [(v, u) for u, v in points]

    def convex(self, n):
        """A polygon with as many vertices as points, in some lists with points inside."""
        r = self.r
        points = polygon(r.choice((60, 500, 2048, MOST)), n, r)
        return points + [r.choice(points) for _ in range(r.choice((0, 0, n // 2)))] if points else points

    def make(self):
        kind = self.r.randrange(len(KINDS))
        n = self.r.randint(100, 2000) if self.r.random() < 0.004 else self.r.choice((self.r.randint(0, 8), self.r.randint(0, 40)))
        points = KINDS[kind][1](self, n)
        if points and self.r.random() < 0.2:
            points += [self.r.choice(points) for _ in range(self.r.randint(1, 4))]
        order = self.r.randrange(4)
        if order == 0:
            self.r.shuffle(points)
        elif order < 3:
            points.sort(reverse=order == 2)
        return kind, points


KINDS = [("points of a grid", Lists.grid), ("a line", Lists.line), ("next to a line", Lists.beside), ("slight turns", Lists.slight),
         ("a circle", Lists.circle), ("the border of a box", Lists.border), ("few points, repeated", Lists.repeats),
         ("edges of a polygon", Lists.edges), ("as an outline has them", Lists.outline), ("extreme numbers", Lists.extremes),
         ("a row or a column", Lists.row), ("a convex polygon", Lists.convex)]


# ---- polygons with many vertices: edges of different directions, each with its opposite, put in the order of their angles

def directions(reach):
    """Directions of edges in a half plane, the shortest first: whole numbers without a common divisor."""
    all_ = [(a, b) for a in range(reach + 1) for b in range(-reach, reach + 1)
            if math.gcd(a, b) == 1 and abs(a) + abs(b) <= reach and (a > 0 or b > 0)]
    return sorted(all_, key=lambda d: (abs(d[0]) + abs(d[1]), abs(abs(d[0]) - abs(d[1]))))


SHORT, LONG = directions(16), directions(48)


def polygon(most, many, r=None):
    """A convex polygon with up to `many` vertices within 0 to `most`; without r, one with as many as are found."""
    all_ = list(LONG if r is None or many > 200 else SHORT)
    if r is not None:
        all_ = all_[:max(many, 4)]
        r.shuffle(all_)
    edges, w, h = [], 0, 0
    for a, b in all_:
        if len(edges) + 2 <= many and w + abs(a) <= most and h + abs(b) <= most:
            edges += [(a, b), (-a, -b)]
            w, h = w + abs(a), h + abs(b)
    x = y = 0
    points = []
    for a, b in sorted(edges, key=lambda d: math.atan2(d[1], d[0])):
        points.append((x, y))
        x, y = x + a, y + b
    if not points:
        return points
    left, top = min(p[0] for p in points), min(p[1] for p in points)
    ox, oy = (r.randint(0, most - w), r.randint(0, most - h)) if r else (0, 0)
    return [(p[0] - left + ox, p[1] - top + oy) for p in points]


def largest():
    """Lists of 16,384 points, by name."""
    r = random.Random(1)
    m = MOST / 2
    full = polygon(MOST, POINTS)
    inside = [(r.randint(2000, 6000), r.randint(2000, 6000)) for _ in range(POINTS - len(full))]
    angles = [math.tau * i / POINTS for i in range(POINTS)]
    circle = [(round(m + m * math.cos(t)), round(m + m * math.sin(t))) for t in angles]
    drops = [math.sqrt(m * m - (x - m) ** 2) for x in range(MOST)]
    columns = [(x, round(m + s * d)) for x, d in enumerate(drops) for s in (-1, 1)]
    bowls = [(x, round(m + s * (d - m))) for x, d in enumerate(drops) for s in (-1, 1)]
    square = [p for k in range(POINTS // 4) for p in ((2 * k, 0), (MOST, 2 * k), (MOST - 2 * k, MOST), (0, MOST - 2 * k))]
    any_ = [(r.randint(0, MOST), r.randint(0, MOST)) for _ in range(POINTS)]
    yield "a circle, by angles", circle
    yield "a circle, both points of each column", columns
    yield "the same, in random order", r.sample(columns, POINTS)
    yield "two bowls, open above and below", bowls
    yield f"a polygon of {len(full)} vertices, over and over", [full[i % len(full)] for i in range(POINTS)]
    yield "the same polygon, points inside", r.sample(full + inside, POINTS)
    yield "a square's border", square
    yield "random points", any_
    yield "random points, from the right", sorted(any_, reverse=True)
    yield "a diagonal", [(i // 2, i // 2) for i in range(POINTS)]
    yield "a column", [(MOST, r.randint(0, MOST)) for _ in range(POINTS)]
    yield "one point", [(MOST, MOST)] * POINTS


def words_of(q):
    return [0] if q is None else [1] + [c for p in q for c in p]


def main():
    if sys.argv[1] == "largest":
        named = list(largest())
        names, lists = [name for name, _ in named], enumerate(points for _, points in named)
        many, most = len(named), 0
    else:
        maker, many, most = Lists(int(sys.argv[2])), int(sys.argv[1]), POINTS
        names, lists = [name for name, _ in KINDS], (maker.make() for _ in range(many))
    looked = [0, 0, 0]
    with open(sys.argv[-1], "wb") as to:
        array("I", [len(names)]).tofile(to)
        to.write(b"".join(name.encode().ljust(64, b"\0") for name in names))
        array("I", [many]).tofile(to)
        for kind, points in lists:
            assert len(points) <= POINTS and all(0 <= c <= MOST for p in points for c in p)
            vertices = hull(points)
            looked[held(points, vertices)] += 1
            numbers = [kind, len(points)] + [c for p in points for c in p]
            numbers += [len(vertices)] + [c for p in vertices for c in p] + words_of(quad(vertices))
            array("I", numbers + (words_of(quad(points)) if most else [2])).tofile(to)
    if most:
        print(f"whole.py: {many} lists; held to the request's words: {looked[1] + looked[2]} by edges, {looked[2]} of them by triangles")


main()
