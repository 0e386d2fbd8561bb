#!/usr/bin/env python3
"""Enclosure tried from outside, with exact fractions: see README.md.

Usage: oracle/fractions/check.py [--rev 1|2] [--library FILE | --program FILE] [--break HOW] [QUESTIONS [SEED]]
Exit status: 0 nothing is wrong; 1 something is; 2 the library could not be built.
"""
import argparse
import ctypes
import math
import os
import random
import struct
import subprocess
import sys
from fractions import Fraction

HERE = os.path.dirname(os.path.realpath(__file__))
ROOT = os.path.dirname(os.path.dirname(HERE))
WORK = os.path.join(ROOT, "target", "oracle", "fractions")
MOST = 2.0 ** 100
LEAST = 5e-324
UP, DOWN = math.inf, -math.inf
NOTHING, ENCLOSED, SPENT, REFUSED = range(4)


# ---- the curve on paper

def span_of(q, t):
    """The number k from degree to count - 1 with knot k at most t and t below knot k + 1; at the domain's end that of the last span that isn't empty, closed.
    There must be exactly one."""
    knot, spans = q.exact_knots, range(q.degree, q.count)
    if t == q.end:
        found = [k for k in spans if knot[k] < knot[k + 1]][-1:]
    else:
        found = [k for k in spans if knot[k] <= t < knot[k + 1]]
    assert len(found) == 1
    return found[0]


def curve_at(q, control, t):
    """The exact curve at t: de Boor's rounds in all D values, then each coordinate divided by the weight."""
    knot, degree, k = q.exact_knots, q.degree, span_of(q, t)
    point = {i: control[i] for i in range(k - degree, k + 1)}
    for r in range(1, degree + 1):
        for i in range(k, k - degree + r - 1, -1):
            a = (t - knot[i]) / (knot[i + degree + 1 - r] - knot[i])
            b = 1 - a
            point[i] = [b * x + a * y for x, y in zip(point[i - 1], point[i])]
    weight = point[k][q.dim]
    return [x / weight for x in point[k][:q.dim]]


# ---- numbers

def held(x):
    return min(max(x, -MOST), MOST)


def below(x):
    """The largest double that is at most the fraction x."""
    f = float(x)
    return f if Fraction(f) <= x else math.nextafter(f, DOWN)


def above(x):
    """The least double that is at least the fraction x."""
    f = float(x)
    return f if Fraction(f) >= x else math.nextafter(f, UP)


def power(r, a, b):
    return math.ldexp(1.0, r.randint(a, b))


def number(r, kind):
    if kind == 0:
        return float(r.randint(-8, 8))
    if kind == 1:
        return r.uniform(-10.0, 10.0)
    if kind == 2:
        return r.randint(-32, 32) / 8.0
    if kind == 3:
        return float(r.randint(-1, 1))
    if kind == 4:
        return r.uniform(-0.5, 0.5) * power(r, -100, 101)
    if kind == 5:
        return r.choice((0.0, -0.0, 1.0, -1.0, 0.5, 3.0, LEAST, -LEAST, 1e-300, MOST, -MOST))
    if kind == 6:
        return r.uniform(-1.0, 1.0) * power(r, -1074, -900)
    if kind == 7:
        return r.uniform(-1.0, 1.0) * 2.0 ** 40
    return number(r, r.randrange(8))


def interval(r, x, width):
    """An interval around a number: sharp, a step wide to both sides, or wider."""
    if width == 0:
        return x, x
    if width == 1:
        return held(math.nextafter(x, DOWN)), held(math.nextafter(x, UP))
    if width == 2:
        w = abs(x) * r.random() * power(r, -50, -4)
    elif width == 3:
        w = r.random() * power(r, -60, -2)
    else:
        w = (abs(x) + 1.0) * r.random() * 2.0
    return held(x - w), held(x + w * r.random())


def picked(r, lo, hi):
    """A fraction in an interval: a bound, the middle, or another one, mostly no double."""
    a = Fraction(lo)
    if lo == hi:
        return a
    b, kind = Fraction(hi), r.randrange(5)
    if kind == 0:
        return a
    if kind == 1:
        return b
    return a + (b - a) * (Fraction(1, 2) if kind == 2 else Fraction(r.randint(0, 99), 99))


# ---- questions

class Question:
    pass


def acceptable(knots, degree, count):
    """Whether refusal 8 of the scope passes over these knots."""
    a, b = knots[degree], knots[count]
    if not a < b or any(x > y for x, y in zip(knots, knots[1:])) or max(abs(knots[0]), abs(knots[-1])) > MOST:
        return False
    return all(knots.count(x) <= (max(degree, 1) if x != a and x != b else degree + 1) for x in knots if a <= x <= b)


def end_group(r, degree, count):
    """The first and the last number of the knots that are the domain's end, of which count is one: its value occurs 1 to degree + 1 times. In half of the cases
    where it can be, some of them stand before knot count and some behind it."""
    most = min(degree, count - degree - 1)
    both = 1 if degree > 1 and most > 0 and r.random() < 0.5 else 0
    before = r.randint(both, min(most, degree - both))
    return count - before, count + r.randint(both, degree - before)


def some_knots(r, degree, count):
    while True:
        size = r.randrange(24)
        step = power(r, -60, 0) if size < 3 else power(r, 0, 60) if size == 3 else power(r, -1074, -1000) if size == 4 else 1.0
        at = r.choice((0.0, 0.0, 0.0, -step * r.randint(0, count), number(r, 2), r.uniform(-3.0, 3.0)))
        clamped, again, rough = r.random() < 0.45, r.choice((0.0, 0.0, 0.3, 0.6, 0.9)), r.random() < 0.4
        group = end_group(r, degree, count) if not clamped and r.random() < 0.7 else None
        knots, times = [at], 1
        for i in range(1, count + degree + 1):
            if clamped and (i <= degree or i > count):
                same = True
            elif clamped and i in (degree + 1, count):
                same = False
            elif group and group[0] <= i <= group[1] + 1:
                same = group[0] < i <= group[1]
            else:
                same = times < max(degree, 1) + (0 if degree < i < count else 1) and degree > 0 and r.random() < again
            if not same:
                at += step * r.randint(1, 4) * (r.uniform(0.01, 1.0) if rough else 1.0)
                times = 0
            times += 1
            knots.append(at)
        if acceptable(knots, degree, count):
            return [-0.0 if x == 0.0 and r.random() < 0.3 else x for x in knots]


def weight(r, kind):
    if kind < 4:
        return 1.0, 1.0
    if kind < 7:
        w = r.uniform(0.25, 4.0)
    elif kind == 7:
        w = power(r, -30, 30) * r.uniform(1.0, 2.0)
    elif kind == 8:
        w = power(r, -1074, 99)
    elif kind == 9:
        w = power(r, -1000, -900) * r.uniform(1.0, 2.0)
    elif kind == 10:
        lo = r.uniform(0.01, 2.0)
        return lo, lo + r.random() * power(r, -8, 6)
    elif kind == 11:
        lo = r.uniform(0.5, 2.0)
        return lo, lo + r.random() * power(r, -50, -8)
    elif kind == 12:
        return power(r, -1074, -1), r.uniform(1.0, 2.0)
    else:
        return weight(r, r.randrange(13))
    return (max(math.nextafter(w, DOWN), LEAST), math.nextafter(w, UP)) if r.random() < 0.25 else (w, w)


def some_points(r, dim, count):
    """Points anywhere, all the same, on a line, or to and fro between two; one list of (lo, hi) for each."""
    kind = r.choice((0, 0, 1, 1, 1, 2, 2, 3, 4, 5, 6, 7, 8))
    shape, weights, width = r.randrange(14), r.randrange(14), r.choice((0, 0, 0, 0, 1, 1, 2, 2, 3, 4))
    a, b = [number(r, kind) for _ in range(dim)], [number(r, kind) for _ in range(dim)]
    points = []
    for i in range(count):
        w, point = weight(r, weights), []
        for k in range(dim):
            if shape == 0:
                x = a[k]
            elif shape == 1:
                x = a[k] + (b[k] - a[k]) * i / count
            elif shape == 2:
                x = b[k] if i % 2 else a[k]
            else:
                x = number(r, kind)
            point.append(interval(r, held(x * w[0]), width))
        points.append(point + [w])
    return points


PLACES = ("start", "end", "knot", "by a knot", "by the start", "by the end", "a double", "a fraction")


def some_parameter(r, q):
    """A fraction in the domain, both ends included, and which kind it is."""
    knots, a, b = q.exact_knots, q.start, q.end
    place = r.choices(PLACES, (8, 26, 18, 12, 6, 8, 16, 32))[0]
    gap = (b - a) / r.choice((10 ** 3, 2 ** 20, 3 ** 33, 2 ** 53, 2 ** 60, 10 ** 40))
    if place == "start":
        t = a
    elif place == "end":
        t = b
    elif place == "knot":
        t = r.choice([x for x in knots[q.degree:q.count] if x < b])
    elif place == "by a knot":
        t = r.choice(knots[q.degree:q.count + 1]) + gap * r.choice((1, -1))
    elif place == "by the start":
        t = a + gap
    elif place == "by the end":
        t = b - gap if r.random() < 0.6 else Fraction(math.nextafter(q.knots[q.count], DOWN))
    elif place == "a double":
        t = Fraction(float(a + (b - a) * Fraction(r.randrange(64), 64) if r.random() < 0.5 else a + (b - a) * Fraction(r.random())))
    else:
        m = r.choice((2, 3, 7, 10, 64, 1000, 10 ** 6 + 3))
        t = a + (b - a) * Fraction(r.randrange(m), m)
    return (a, "start") if not a <= t <= b else (b, "end") if t == b else (t, place)


def some_box(r, exact):
    """A box that holds the exact point: as sharp as doubles allow, wider, or with the point at one of its bounds."""
    box, kind = [], r.choices((0, 1, 2, 3, 4, 5), (45, 10, 10, 10, 15, 10))[0]
    for x in exact:
        lo, hi, how = below(x), above(x), kind if kind < 5 else r.randrange(5)
        w = (abs(hi) + 1e-3) * r.random() * power(r, -52, -3)
        if how == 1 or how == 4:
            lo = held(lo - (w if how == 4 else abs(lo) * 2.0 ** -51))
        if how == 2 or how == 4:
            hi = held(hi + (w if how == 4 else abs(hi) * 2.0 ** -51))
        if how == 3:
            lo, hi = (held(lo - r.random() * power(r, -3, 3)), hi) if r.random() < 0.5 else (lo, held(hi + r.random() * power(r, -3, 3)))
        box.append((-0.0 if lo == 0.0 and r.random() < 0.5 else lo, hi))
    return box


def some_resolution(r):
    kind = r.randrange(10)
    if kind == 0:
        return 0.0
    if kind == 1:
        return power(r, -1074, 3)
    if kind == 2:
        return r.random() * power(r, -60, 1)
    return 10.0 ** -r.randint(0, 12)


def words(q):
    """W of the scope."""
    return 2 * (q.dim + 1) * (q.count + q.degree + 1) + 2 * (q.count + 2 * q.degree + 2) + 1


def question(r):
    """A question whose box holds the curve at the fraction q.t, for the control values q.control; None where that point is above 2^100 in size."""
    q = Question()
    q.dim, q.degree = r.choice((2, 3)), r.choices(range(8), (6, 16, 18, 18, 14, 11, 9, 8))[0]
    most = 32 if r.random() < 0.04 else max(12, q.degree + 4)
    q.count = q.degree + 1 if r.random() < 0.3 else 32 if most == 32 and r.random() < 0.5 else r.randint(q.degree + 1, most)
    q.knots, q.points = some_knots(r, q.degree, q.count), some_points(r, q.dim, q.count)
    q.exact_knots = [Fraction(x) for x in q.knots]
    q.start, q.end = q.exact_knots[q.degree], q.exact_knots[q.count]
    q.control = [[picked(r, lo, hi) for lo, hi in point] for point in q.points]
    q.t, q.place = some_parameter(r, q)
    q.exact = curve_at(q, q.control, q.t)
    if max(map(abs, q.exact)) > MOST:
        return None
    q.box, q.resolution = some_box(r, q.exact), some_resolution(r)
    q.nodes = r.choice((1, 2, 4, 8, 16)) if r.random() < 0.1 else 4096 if r.random() < 0.004 else r.choice((64, 128, 256))
    # What the question promises, once more: the values are inside their intervals, the point is in the box, t is in the domain; and a clamped curve ends in its
    # last control point.
    assert all(lo <= x <= hi for values, point in zip(q.control, q.points) for x, (lo, hi) in zip(values, point))
    assert all(lo <= x <= hi and -MOST <= lo and hi <= MOST for x, (lo, hi) in zip(q.exact, q.box))
    assert q.start <= q.t <= q.end
    if q.t == q.end and q.exact_knots[q.count - 1] < q.end == q.exact_knots[q.count + max(q.degree - 1, 0)]:
        assert q.exact == [x / q.control[-1][q.dim] for x in q.control[-1][:q.dim]]
    return q


def bits(x):
    return struct.pack(">d", x).hex()


def text(q):
    """The question as the program gripcheck reads it."""
    lines = [f"rev={q.rev}", f"dim={q.dim}", f"degree={q.degree}", f"count={q.count}", f"nodes={q.nodes}", f"resolution={bits(q.resolution)}"]
    lines.append("knots=" + " ".join(map(bits, q.knots)))
    lines += ["point=" + " ".join(bits(x) for pair in point for x in pair) for point in q.points]
    lines.append("box=" + " ".join(bits(x) for pair in q.box for x in pair))
    return "\n".join(lines) + "\n"


# ---- the search

def build():
    """The C library of crates/puhlwazo, as a shared one."""
    os.makedirs(WORK, exist_ok=True)
    log, library = os.path.join(WORK, "library.log"), os.path.join(WORK, "libpuhlwazo.so")
    crate = os.path.join(ROOT, "crates", "puhlwazo_c")
    archive = os.path.join("out", "libpuhlwazo_c.a")
    commands = (["rt", "lib"], ["gcc", "-shared", "-o", library, "-Wl,--whole-archive", archive, "-Wl,--no-whole-archive"])
    with open(log, "w") as f:
        made = all(subprocess.run(words, cwd=crate, stdout=f, stderr=f).returncode == 0 for words in commands)
    if not made:
        sys.stderr.write("".join(open(log).readlines()[-40:]) + "oracle/fractions/check.py: the library could not be built\n")
        sys.exit(2)
    return library


class Library:
    def __init__(self, path):
        self.search = ctypes.CDLL(os.path.abspath(path)).puhlwazo_curve_could_contain
        size, at = ctypes.c_size_t, ctypes.c_void_p
        self.search.argtypes = [size, size, size, size, at, size, at, size, at, size, ctypes.c_double, size, at, size, at, at]
        self.search.restype = ctypes.c_uint64
        self.work = (ctypes.c_double * (4099 * 417))()
        self.counts, self.bounds = (ctypes.c_uint64 * 5)(), (ctypes.c_double * 2)()
        self.junk = random.Random(0).randbytes(8 * 64)

    def ask(self, q):
        knots = (ctypes.c_double * len(q.knots))(*q.knots)
        points = [x for point in q.points for pair in point for x in pair]
        points = (ctypes.c_double * len(points))(*points)
        box = [x for pair in q.box for x in pair]
        box = (ctypes.c_double * len(box))(*box)
        ctypes.memmove(self.work, self.junk, len(self.junk))
        number = self.search(q.rev, q.dim, q.degree, q.count, knots, len(knots), points, len(points), box, len(box), q.resolution, q.nodes,
                             self.work, (q.nodes + 3) * words(q), self.counts, self.bounds)
        kind, visited, _, _, depth = self.counts
        return kind, visited, depth, number, self.bounds[0], self.bounds[1]


class Program:
    """gripcheck, which lends 8,192 numbers."""
    def __init__(self, path):
        self.path = os.path.abspath(path)

    def ask(self, q):
        q.nodes = min(q.nodes, 8192 // words(q) - 3)
        out = subprocess.run([self.path], input=text(q).encode(), stdout=subprocess.PIPE).stdout.decode()
        answer = dict(line.split("=") for line in out.splitlines())
        lo, hi = (0.0 if answer[x] == "-" else struct.unpack(">d", bytes.fromhex(answer[x]))[0] for x in ("lo", "hi"))
        result = answer["result"]
        kind = {"none": NOTHING, "enclosed": ENCLOSED, "spent": SPENT}.get(result, REFUSED)
        return kind, int(answer["visited"]), int(answer["depth"]), int(result[8:]) if kind == REFUSED else 0, lo, hi


# ---- the judgement

def wrong(q, answer):
    """What is wrong with an answer, or an empty text."""
    kind, _, _, number, lo, hi = answer
    if kind == SPENT or (kind == REFUSED and number == 11):
        return ""
    if kind == REFUSED:
        return f"refused by {number}"
    if kind == NOTHING:
        return "none"
    if math.isnan(lo) or math.isnan(hi) or math.isinf(lo) or math.isinf(hi):
        return "a bound is no number"
    if any(x == 0.0 and math.copysign(1.0, x) < 0.0 for x in (lo, hi)):
        return "a negative zero"
    if not q.start <= Fraction(lo) <= Fraction(hi) <= q.end:
        return "a bound outside the domain"
    if not Fraction(lo) <= q.t <= Fraction(hi):
        return "t is not enclosed"
    return ""


BREAKS = {
    "lo": "lo moved up by 1/64 of the enclosure",
    "hi": "hi moved down by 1/64 of the enclosure",
    "step": "lo or hi moved inward by one double",
    "short": "a hi at the domain's end moved inward by one double",
    "beyond": "a hi at the domain's end moved past it",
    "zero": "a bound of 0 made a negative zero",
    "none": "none instead of enclosed",
    "box": "the box moved off the point by 1 percent",
}


def broken(r, q, answer, how):
    """A right answer made wrong, to see that it is noticed."""
    kind, visited, depth, number, lo, hi = answer
    if kind != ENCLOSED:
        return answer
    if how == "lo":
        lo = lo + (hi - lo) / 64
    elif how == "hi":
        hi = hi - (hi - lo) / 64
    elif how == "step" and lo < hi:
        lo, hi = (math.nextafter(lo, UP), hi) if r.random() < 0.5 else (lo, math.nextafter(hi, DOWN))
    elif how == "short" and Fraction(hi) == q.end and lo < hi:
        hi = math.nextafter(hi, DOWN)
    elif how == "beyond" and Fraction(hi) == q.end:
        hi = math.nextafter(hi, UP)
    elif how == "zero":
        lo, hi = (-0.0 if x == 0.0 else x for x in (lo, hi))
    elif how == "none":
        kind = NOTHING
    return kind, visited, depth, number, lo, hi


def moved(q):
    """The box moved off the point, along the first coordinate, by its own size and 1 percent."""
    lo, hi = q.box[0]
    low = math.nextafter(held(hi + abs(hi) / 100 + LEAST), UP)
    q.box[0] = (min(low, MOST), min(low + (hi - lo), MOST))


def features(q):
    """What a question is like, for the tally of the hits."""
    inner = [x for x in q.knots if q.start < x < q.end]
    pairs = [pair for point in q.points for pair in point[:-1]]
    weights = [point[-1] for point in q.points]
    yield f"dim {q.dim}"
    yield "clamped" if q.knots[0] == q.start and q.knots[-1] == q.end else "not clamped"
    if len(set(inner)) < len(inner):
        yield "inner knots repeated"
    if q.degree > 1 and any(inner.count(x) == q.degree for x in inner):
        yield "inner knot degree times"
    if q.count > 12:
        yield "more than 12 points"
    if q.count == 32:
        yield "32 points"
    yield "sharp points" if all(a == b for a, b in pairs) else "points with width"
    if any(b - a > 0.125 * max(abs(a), abs(b)) for a, b in pairs):
        yield "an eighth wide or more"
    if any(a != 1.0 or b != 1.0 for a, b in weights):
        yield "weights not 1"
    if any(a < b for a, b in weights):
        yield "weights with width"
    if any(a < 2.0 ** -100 for a, b in weights):
        yield "a weight below 2^-100"
    if any(x == a or x == b for x, (a, b) in zip(q.exact, q.box)):
        yield "the point at a bound of the box"
    if all(a == b for a, b in q.box):
        yield "the box one point"


def at_end(q):
    """How often the end's value occurs before and behind knot count, and the degree, for the tally of the hits at the domain's end."""
    before, behind = (sum(x == q.end for x in part) for part in (q.exact_knots[:q.count], q.exact_knots[q.count + 1:]))
    yield "all"
    yield "degree 0" if q.degree == 0 else "clamped" if (before, behind) == (0, q.degree) else "not clamped"
    if q.degree > 0:
        yield f"the end's value {1 + before + behind} times"
        yield ("before and behind" if behind else "before only") if before else "behind only" if behind else "once"


def show(q, answer, fault):
    kind, visited, depth, number, lo, hi = answer
    print(f"---- {fault}\n{text(q)}t={q.t} ({q.place})\nexact point={' '.join(map(str, q.exact))}")
    for values in q.control:
        print("exact control values=" + " ".join(map(str, values)))
    print(f"answer: kind={kind} visited={visited} depth={depth} number={number} lo={bits(lo)} ({lo!r}) hi={bits(hi)} ({hi!r})\n----", flush=True)


def main():
    p = argparse.ArgumentParser(description=__doc__, formatter_class=argparse.RawDescriptionHelpFormatter)
    p.add_argument("questions", nargs="?", type=int, default=150000, help="how many; 150,000 if not given")
    p.add_argument("seed", nargs="?", type=int, default=1, help="another one gives other questions; 1 if not given")
    p.add_argument("--rev", type=int, default=1, choices=(1, 2), help="the revision in which it is asked; 1 if not given")
    p.add_argument("--library", metavar="FILE", help="a shared library that is already built")
    p.add_argument("--program", metavar="FILE", help="ask this gripcheck, one process for each question")
    p.add_argument("--break", dest="how", metavar="HOW", choices=BREAKS, help="make right answers wrong, to see that it is noticed: "
                   + "; ".join("%s, %s" % kind for kind in BREAKS.items()))
    o = p.parse_args()
    search = Program(o.program) if o.program else Library(o.library or build())
    r, other = random.Random(o.seed), random.Random(0)
    heads = ("questions", "hit", "outside", "spent", "refused 11", "narrow", "sharp box", "visits", "most", "deepest")
    rows, places, faults, over = {d: [0] * len(heads) for d in range(8)}, {x: 0 for x in PLACES}, {}, 0
    asked, tally, ends = 0, {}, {}
    while asked < o.questions:
        q = question(r)
        if q is None:
            over += 1
            continue
        asked += 1
        q.rev = o.rev
        if o.how == "box":
            moved(q)
        answer = search.ask(q)
        if o.how:
            answer = broken(other, q, answer, o.how)
        kind, visited, depth, number, lo, hi = answer
        fault, row = wrong(q, answer), rows[q.degree]
        row[0] += 1
        row[7] += visited
        row[8] = max(row[8], visited)
        row[9] = max(row[9], depth)
        if fault:
            row[2] += 1
            faults[fault] = faults.get(fault, 0) + 1
            if faults[fault] <= (3 if not o.how else 0):
                show(q, answer, fault)
        elif kind == SPENT:
            row[3] += 1
        elif kind == REFUSED:
            row[4] += 1
        else:
            row[1] += 1
            places[q.place] += 1
            for x in features(q):
                tally[x] = tally.get(x, 0) + 1
            for x in at_end(q) if q.place == "end" else ():
                ends[x] = ends.get(x, 0) + 1
            row[5] += (Fraction(hi) - Fraction(lo)) * 1000 <= q.end - q.start
            row[6] += all(math.nextafter(a, UP) >= b for a, b in q.box)
    print(f"revision {o.rev}")
    print("degree " + "".join(f"{h:>12}" for h in heads))
    for d, row in rows.items():
        print(f"{d:<7}" + "".join(f"{x:>12}" for x in row))
    total = [sum(row[i] for row in rows.values()) for i in range(8)] + [max(row[i] for row in rows.values()) for i in (8, 9)]
    print(f"{'all':<7}" + "".join(f"{x:>12}" for x in total))
    print("hits by the place of t: " + ", ".join(f"{x} {n}" for x, n in places.items()))
    print("hits by what was asked: " + ", ".join(f"{x} {n}" for x, n in sorted(tally.items())))
    print("hits at the domain's end: " + ", ".join(f"{x} {n}" for x, n in sorted(ends.items())))
    print(f"not asked, the exact point being above 2^100 in size: {over}")
    print("wrong: " + (", ".join(f"{x} {n}" for x, n in sorted(faults.items())) or "nothing"))
    sys.exit(1 if faults else 0)


if __name__ == "__main__":
    main()
