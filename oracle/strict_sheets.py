"""Sheets on which strict mode parts from the Rust, or might and does not, for replay-chain: parabolas and hyperbolas whose range is lost,
and composites whose joints are no ends of their segments' ranges. Each is one edge on its last row. Its deflection is a length."""
import math

from boundary_sheets import sheet
from replay_common import INF, NAN

FRAME = [(0.0, 0.0, 0.0), (0.0, 0.0, 1.0), (1.0, 0.0, 0.0)]
ENDS = [(2.0, 0.0, 0.0), (2.25, 0.5, 0.0)]
# A box that holds everything, one that says nothing, a small one about the first vertex, and one from which all escapes.
ALL, EMPTY = [(-1e9, -1e9, -1e9), (1e9, 1e9, 1e9)], [(1.0, 1.0, 1.0), (0.0, 0.0, 0.0)]
SMALL, FAR = [(2.0, 0.0, 0.0), (2.001, 0.001, 0.0)], [(100.0, 0.0, 0.0), (101.0, 1.0, 1.0)]
PARABOLA, HYPERBOLA = ("parabola", 0, 3, 0.25, 0.0), ("hyperbola", 0, 3, 2.0, 1.0)
LINE, CIRCLE = ("line", 0, 2, 0.0, 0.0), ("circle", 0, 3, 2.0, 0.0)
CONICS = PARABOLA, HYPERBOLA
# deflection, angle, segments, depth: a list that no room holds, one point between neighbours, and joints that none needs
FINE, HALVED, COARSE = (1e-3, 0.14, 1, 24), (0.05, 8.0, 1, 1), (1e6, 8.0, 1, 2)
FLOORED, ENDLESS = (0.05, 8.0, 7, 1), (0.05, 8.0, 2**64 - 1, 1)
# NaNs with payloads, a sign, and one that signals
NANS = "7ff8000000000001", "fff8000000000000", "7ff4000000000000", "fffdeadbeef00000"
LEAST = 5e-324


def edge(rows, lo, hi, ends=ENDS, box=EMPTY, options=COARSE, segments=(), sense=1, points=FRAME):
    n = len(points)
    return sheet([*points, *ends, *box], rows, segments, (n, n + 1, lo, hi, 0.0, n + 2, n + 3), options, sense)


def trims(base, *ranges):
    """A row in so many trims."""
    return [base, *(("trimmed", row, 1, p, q) for row, (p, q) in enumerate(ranges))]


# Open conics


def lost():
    """Edges whose own row has no range to draw: chords, whatever stands beside."""
    ranges = [(NAN, 1.0), (1.0, NAN), (NAN, NAN), (NANS[0], NANS[1]), (NANS[2], 1.0), (1.0, NANS[3])]
    ranges += [(INF, 0.0), (0.0, -INF), (-INF, INF), (INF, INF)]
    ranges += [(1.0, 1.0), (-0.0, 0.0), (0.0, -0.0), (1e9, 1e9), (2.0, -2.0), (LEAST, 0.0), (1e9, -1e9)]
    for row in CONICS:
        for lo, hi in ranges:
            yield edge([row], lo, hi)
        for sense in (1, 0):
            for box in (ALL, SMALL, FAR):
                yield edge([row], 1.0, NANS[0], box=box, options=FINE, sense=sense)
        # one vertex for both ends, whose order sense alone tells elsewhere
        yield edge([row], NANS[0], 1.0, [ENDS[0]] * 2, ALL, FINE, sense=0)
        yield edge([row], 2.0, -2.0, options=ENDLESS)
    # the dish's profile: too long a list for the Rust; and one that it draws, repairs, or draws between its vertices
    yield edge([("parabola", 0, 3, 100.0, 0.0)], 0.0, 0.0, [(400.0, -400.0, 0.0), (400.0, 400.0, 0.0)], ALL, (0.1, 0.14, 1, 12))
    yield edge([PARABOLA], NAN, 0.0, options=HALVED)
    yield edge([PARABOLA], NAN, 0.0, box=SMALL, options=HALVED)
    flat, ends = ("parabola", 0, 3, 1e-9, 0.0), [(0.0, 0.0, 0.0), (0.0152587890625, 7.8125e-06, 0.0)]
    yield edge([flat], NAN, 0.0, ends, [(0.0, 0.0, 0.0), (0.016, 1e-5, 0.0)], (1e-4, 8.0, 1, 4))


def kept():
    """Edges that are drawn as the Rust draws them: with a range that is good, however little, or that lies outside the curve's own; or
    with a lost one on another row."""
    good = [(-2.0, 2.0), (0.0, LEAST), (-LEAST, 0.0), (1.0, math.nextafter(1.0, 2.0))]
    good += [(2e6, 3e6), (-3e6, -2e6), (1e6, 1000001.0), (-1e9, 1e9)]
    for row in CONICS:
        for lo, hi in good:
            yield edge([row], lo, hi, options=FLOORED)
        for box in (SMALL, FAR):
            yield edge([row], -2.0, 2.0, box=box, options=HALVED)
    for lo, hi in ((NANS[0], 1.0), (1.0, 1.0), (2.0, -2.0)):
        for row in CONICS:
            yield edge(trims(row, (-2.0, 2.0)), lo, hi, options=HALVED)
            yield edge(trims(row, (2.0, -2.0), (-1.0, 1.5)), lo, hi, box=SMALL, options=HALVED)
            # a trim as wide as this has no range either: its chord is repaired
            yield edge(trims(row, (-1e9, 1e9)), lo, hi, box=ALL, options=HALVED)
            yield edge(trims(row, (-1e9, 1e9)), lo, hi, box=FAR, options=HALVED)
            yield edge([row, ("composite", 0, 1, 0.0, 0.0)], lo, hi, options=HALVED, segments=[(0, -2.0, 2.0, 1)])
        for box in (ALL, FAR):
            yield edge([LINE], lo, hi, box=box, options=HALVED, sense=0)
        yield edge([CIRCLE], lo, hi, options=HALVED)
        yield edge([("polyline", 0, 3, 0.0, 0.0)], lo, hi, options=HALVED)


def refused():
    """Lost ranges on edges that one of the causes before the road turns away."""
    yield edge([("parabola", 0, 3, 0.25, 1.0)], NAN, 0.0)
    yield edge([("hyperbola", 0, 2, 2.0, 1.0)], NAN, 0.0)
    yield edge([("parabola", 0, 3, 2e9, 0.0)], NAN, 0.0)
    yield edge([PARABOLA], 1e10, 0.0)
    yield edge([HYPERBOLA], NAN, 0.0).replace("\n0 3 4 1 ", "\n1 3 4 1 ")


# Composites

# No two steps alike, so that a joint left out shows.
PATH = [(float(i), 0.5 * (3 * i * i % 7), 0.25 * (i % 3)) for i in range(25)]
POLYLINE = ("polyline", 0, len(PATH), 0.0, 0.0)
# Past this none of the parameters is one of the composites here.
AWAY = 24


def path(count, steps=1, start=None):
    """So many segments along the path, each over so many of its steps, whose ranges lie past the composite's own."""
    start = AWAY - count * steps if start is None else start
    return [(0, float(start + steps * k), float(start + steps * (k + 1)), 1) for k in range(count)]


def over(segments, lo, hi, *ranges, options=HALVED, box=EMPTY, ends=ENDS, sense=1, rows=(POLYLINE,), points=PATH):
    """An edge over a composite, or over trims of it."""
    table = [*rows, ("composite", 0, len(segments), 0.0, 0.0)]
    table += [("trimmed", len(table) - 1 + i, 1, p, q) for i, (p, q) in enumerate(ranges)]
    return edge(table, lo, hi, ends, box, options, segments, sense, points)


def joined():
    """The whole, parts, and what lies past it: the row's own, and under trims."""
    for count in (0, 1, 2, 3, 8):
        segments, n = path(count), float(count)
        yield over(segments, 0.0, n)
        yield over(segments, NAN, n, sense=0)
        yield over(segments, -2.0, n + 2.0)
        yield over(segments, -2.0, n + 2.0, (-2.0, n + 2.0))
        yield over(segments, NAN, n, (n + 1.0, -1.0))
        # two steps to a segment, so that the first and the last one bend
        yield over(path(count, 2), -1.0, n + 1.0, (-2.0, n + 2.0), (-1.0, n + 1.0))
    for lo, hi in ((0.5, 7.5), (1.0, 3.0), (1.5, 2.5), (2.0, 7.25), (1.0, 2.0), (7.0, 8.0), (3.0, 3.5)):
        yield over(path(8), lo, hi)
        yield over(path(8), lo, hi, (0.0, 8.0))
        yield over(path(8), 0.0, 8.0, (lo, hi))
        yield over(path(8), hi, lo, (hi, lo))
        yield over(path(8), lo, hi, (hi, lo), (8.0, 0.0))
    # the ends of the segments' ranges, or some of them, are the Rust's breaks: they are none here
    for start in (0, 1, 4):
        yield over(path(8, 1, start), 0.0, 8.0)
    yield over([(0, 0.25 + k, 1.25 + k, k % 2) for k in range(6)], 0.0, 6.0)
    yield over([(0, 6.0 - k, 5.0 - k, 1) for k in range(6)], 0.0, 6.0)
    yield over([(0, 5.0, 5.0, 1)] * 5 + [(0, 3.0, 7.0, 0)] * 2, 0.0, 7.0)
    # a joint in a trim of a trim whose own ends it is not
    yield over(path(4, 3), 0.0, 4.0, (0.5, 3.5), (-1.0, 9.0))


def thinned():
    """Joints that do not bend, or less than the deflection, are left out; all, or some."""
    straight = [(1.0, 2.0, 0.0), (1.0, 0.5, 0.0)]
    for options in (HALVED, COARSE, FINE, FLOORED, (0.25, 8.0, 1, 1), (0.5, 8.0, 1, 1), (1.0, 8.0, 1, 1)):
        yield over([(0, 20.0 + k, 21.0 + k, 1) for k in range(8)], 0.0, 8.0, options=options, rows=[LINE], points=straight)
        yield over(path(8), 0.0, 8.0, options=options)
        yield over(path(8), -1.0, 9.0, (-2.0, 10.0), options=options)
        yield over(path(8), 8.0, 0.0, (8.0, 0.0), options=options)


def wide():
    """Trims so wide that the Rust would merge joints, from a width of 1e9 on, and holds more of them for ends."""
    whole = (-1e9, 1e9)
    for count in (10, 8):
        ranges = [(-0.5, 1e9), (-1.0, 1e9), (-1.0, 999999999.0), (0.0, 1e9), (0.0, math.nextafter(1e9, 0.0))]
        ranges += [(0.5, 1e9), (0.5, 999999999.0), (-0.5, 5e8), (1.5, 1e9), (-2.5, 1e9)]
        ranges += [whole, (-999999990.0, 1e9), (-1e9, 999999996.0), (-1e9, 3.5), (-999999984.0, 1e9)]
        for lo, hi in ranges:
            yield over(path(count, 2), lo, hi, whole)
        yield over(path(count, 2), -0.5, 1e9, whole, (-0.5, 1e9))
        yield over(path(count, 2), -0.5, 1e9, (1e9, -0.5))
        yield over(path(count, 2), NAN, 1.0, (999999999.0, -0.25), (-0.5, 999999999.0))
        yield over(path(count, 2), -0.5, 1e9, whole, options=FLOORED)


def nested():
    """Composites as segments of others: they add no joint, also where the trim goes past the outer one's."""
    inner = path(3, 2, 6)
    for outer in ([(1, 0.0, 3.0, 1)], [(1, 0.0, 3.0, 1), (1, 3.0, 1.0, 1), (1, 0.5, 1.5, 0)]):
        segments, n = inner + outer, float(len(outer))
        rows = [POLYLINE, ("composite", 0, 3, 0.0, 0.0), ("composite", 3, len(outer), 0.0, 0.0)]
        for table in (rows, [*rows, ("trimmed", 2, 1, -1.0, n + 4.0)]):
            for lo, hi in ((0.0, n), (-1.0, n + 4.0), (0.25, n + 1.5)):
                yield edge(table, lo, hi, options=HALVED, segments=segments, points=PATH)
        # a trim of a composite as a segment
        table = [*rows[:2], ("trimmed", 1, 1, -1.0, 4.0), ("composite", 3, len(outer), 0.0, 0.0)]
        yield edge(table, 0.0, n, options=HALVED, segments=[*inner, *((2, a, b, sense) for _, a, b, sense in outer)], points=PATH)


def arcs():
    """Composites that leave their box: the short arc between the vertices has its own joints."""
    step, count = 12 / 512, 12
    for first, last in ((96, 200), (200, 96), (130, 260), (64, 120), (100, 110)):
        ends = [at(first * step), at(last * step)]
        low, high = sorted((first, last))
        around = [at(k * step) for k in range(low, high + 1)]
        box = [tuple(least(p[axis] for p in around) for axis in range(3)) for least in (min, max)]
        for ranges in ((), ((0.0, 12.0),), ((12.0, 0.0),)):
            for options in ((0.01, 8.0, 1, 1), (0.02, 8.0, 7, 2)):
                yield over(path(count, 2, 0), 0.0, 12.0, *ranges, options=options, box=box, ends=ends)


def at(t):
    """A point of the composite of twelve segments with two steps of the path each."""
    i = min(int(2.0 * t), len(PATH) - 2)
    return tuple(a + (b - a) * (2.0 * t - i) for a, b in zip(PATH[i], PATH[i + 1]))


def asked():
    """Joints at which, or beside which, a hyperbola is asked for more than 100, or no longer is; and lists that grow by joints."""
    straight, rows = (1, -2.0, -1.0, 1), (("hyperbola", 0, 3, 1e-43, 1e-43), ("line", 2, 2, 0.0, 0.0))
    points = [*FRAME, *ENDS]
    for far in (100.0, 101.0):
        beyond = (0, far, 0.0, 1)
        for place, count in ((1, 3), (2, 3), (5, 11), (3, 9)):
            segments = [straight] * place + [beyond] + [straight] * (count - place - 1)
            yield over(segments, 0.0, float(count), options=(1e6, 8.0, 1, 2), rows=rows, points=points)
        # a break of the Rust, and no joint
        segments = [(1, 2.0, 4.25, 1), straight, (0, 0.0, 2.0 * far, 1), *[straight] * 6]
        yield over(segments, 0.0, 9.0, options=(1e6, 8.0, 1, 1), rows=rows, points=points)


def strict():
    """Sheets for the program's own buffers."""
    return [*lost(), *kept(), *refused(), *joined(), *thinned(), *wide(), *nested(), *arcs(), *asked()]


def told_whole():
    """Some that are told whole: chords, also those that escape; refusals; and composites."""
    some, rest = list(lost()), [*kept(), *joined(), *wide(), *arcs(), *asked()]
    return [*some[:6], *some[17:24], *some[-4:], *rest[::9], *refused()]
