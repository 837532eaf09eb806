"""Sheets of edges with hyperbolas, for replay-chain: drawn in each form, and asked for a parameter at 100, next to it or beyond at each
step of the road that can be the first to ask. Each is one edge on its last row. Its deflection is a length, so that nothing uses the
extent that the probes give."""
import math

from boundary_sheets import sheet
from replay_common import INF, NAN

NEXT = math.nextafter(100.0, INF)
FRAME = [(0.0, 0.0, 0.0), (0.0, 0.0, 1.0), (1.0, 0.0, 0.0)]
# Vertices at the parameters -2 and 2 of the hyperbola with semi-axes 2 and 1, about.
CUT = [(7.524391, -3.62686, 0.0), (7.524391, 3.62686, 0.0)]
NEAR = [(2.0, 0.0, 0.0), (2.25, 0.5, 0.0)]
ALL = [(-20.0, -20.0, -20.0), (20.0, 20.0, 20.0)]
# A box in which nothing escapes, and one from which all does.
EMPTY = [(1.0, 1.0, 1.0), (0.0, 0.0, 0.0)]
SMALL = [(2.0, 0.0, 0.0), (2.001, 0.001, 0.0)]
HYPERBOLA = ("hyperbola", 0, 3, 2.0, 1.0)
# With these semi-axes the points at 100 lie within 2 of the origin.
TINY = ("hyperbola", 0, 3, 1e-43, 1e-43)
LINE = ("line", 2, 2, 0.0, 0.0)
# deflection, angle, segments, depth
FINE, COARSE, HALVED = (0.02, 0.3, 1, 12), (1e6, 8.0, 1, 12), (0.001, 8.0, 1, 12)


def edge(rows, lo, hi, ends=NEAR, box=EMPTY, options=COARSE, segments=()):
    return sheet([*FRAME, *ends, *box], rows, segments, (3, 4, lo, hi, 0.0, 5, 6), options)


def trims(*ranges):
    """A hyperbola in so many trims."""
    return [HYPERBOLA, *(("trimmed", base, 1, p, q) for base, (p, q) in enumerate(ranges))]


def composite(segments, rows=(TINY, LINE)):
    """A composite of these segments: row, lo, hi, sense."""
    return [*rows, ("composite", 0, len(segments), 0.0, 0.0)], segments


def over(segments, options=COARSE, lo=0.0, hi=None, box=EMPTY, ends=NEAR, rows=(TINY, LINE)):
    """An edge over a composite."""
    table, segments = composite(segments, rows)
    return edge(table, lo, float(len(segments)) if hi is None else hi, ends, box, options, segments)


def straight(count):
    """Segments of the line whose ends are no breaks of a composite."""
    return [(1, -2.0, -1.0, 1)] * count


def drawn():
    """Each form, drawn finely."""
    yield edge([HYPERBOLA], -2.0, 2.0, CUT, ALL, FINE)
    yield edge([("hyperbola", 0, 3, 2.0, -1.0)], -2.0, 2.0, CUT, ALL, FINE)
    yield edge([("hyperbola", 0, 3, 0.0, 1.0)], -1.0, 2.0, NEAR, ALL, FINE)
    yield edge(trims((-2.0, 2.0)), -2.0, 2.0, CUT, ALL, FINE)
    yield edge(trims((-2.0, 2.0), (2.0, -1.0)), NAN, 2.0, CUT, ALL, FINE)
    yield edge(trims((-3.0, 1.0), (-2.0, 2.0)), 0.0, 0.0, CUT, ALL, FINE)
    rows = (HYPERBOLA, LINE)
    yield over([(1, 0.0, 2.0, 1), (0, -2.0, 2.0, 1), (1, 2.0, 0.0, 1)], FINE, box=ALL, rows=rows)
    yield over([(0, -1.0, 2.0, 0), (0, -1.0, 2.0, 1)], FINE, box=ALL, rows=rows)
    # a composite of composites, and a trim of it
    segments = [(0, -1.0, 1.0, 1), (1, 0.0, 2.0, 1), (2, 0.0, 2.0, 0), (2, 0.5, 1.0, 1)]
    nested = [HYPERBOLA, LINE, ("composite", 0, 2, 0.0, 0.0), ("composite", 2, 2, 0.0, 0.0)]
    yield edge(nested, 0.0, 2.0, NEAR, ALL, FINE, segments)
    yield edge([*nested, ("trimmed", 3, 1, 1.75, 0.25)], 0.25, 1.75, NEAR, ALL, FINE, segments)


def rounded(hi, last):
    """A lo for which the last probe, lo + (hi - lo), is this and not hi."""
    return next(lo for lo in (-k / 7 for k in range(1, 700)) if lo + (hi - lo) == last)


def limits():
    """100 and the float after it, plain and in a trim, of either sign; and where rounding passes the limit, or comes back to it."""
    for rows in ([HYPERBOLA], [TINY], trims((-100.0, 100.0)), trims((NEXT, -NEXT)), trims((-NEXT, NEXT))):
        for lo, hi in ((-100.0, 100.0), (0.0, 100.0), (0.0, NEXT), (-NEXT, 0.0), (-NEXT, NEXT)):
            yield edge(rows, lo, hi, options=(1e6, 8.0, 1, 2))
    # the last probe alone is beyond; and it is not, but hi is, which bisection asks for
    yield edge([TINY], rounded(100.0, NEXT), 100.0)
    yield edge([TINY], rounded(NEXT, 100.0), NEXT)


def lost():
    """Ranges that say nothing: a plain hyperbola is asked for -1e6, a trim for its own ends, or not at all from a width of 1e9 on."""
    tables = [HYPERBOLA], trims((-2.0, 2.0)), trims((-NEXT, 2.0)), trims((2.0, -101.0)), trims((0.0, 1e9)), trims((-2.0, 2.0), (0.0, 9e8))
    for rows in tables:
        for lo, hi in ((NAN, 1.0), (1.0, 1.0), (2.0, -2.0), (-INF, INF)):
            yield edge(rows, lo, hi)


def escaped():
    """Edges that leave their box. The sweep over the natural range asks first; then the short arc serves, or the chord."""
    for rows in ([HYPERBOLA], trims((-2.0, 2.0)), trims((-100.0, 100.0)), trims((-100.0, NEXT)), trims((-3.0, NEXT)), trims((2.0, -2.0))):
        yield edge(rows, -2.0, 2.0, CUT, SMALL, FINE)
        # near vertices, in a box that holds the arc between them
        yield edge(rows, -2.0, 2.0, NEAR, [(1.75, -0.25, 0.0), (2.25, 0.5, 0.0)], FINE)
    # no range to draw: the chord stays, or escapes and the sweep asks
    for box in (ALL, [(100.0, 0.0, 0.0), (101.0, 1.0, 1.0)]):
        yield edge(trims((-1e9, 1e9)), NAN, 0.0, NEAR, box, FINE)
    # the sweep of a composite meets a segment that no probe came to
    for far in (101.0, 100.0):
        yield over([*straight(10), (0, far, 0.0, 1), *straight(5)], hi=4.0, box=SMALL, options=(0.02, 8.0, 1, 2))
    # it comes to 99.95 and no farther, and the short arc between the vertices asks beyond
    ends, segments = [(1.2, 1.2, 0.0), (1.0, 0.0, 2.0)], [(0, 0.0, 100.05, 1), (1, 0.0, 1.0, 1)]
    yield over(segments, HALVED, lo=1.0, box=[(1.2, 1.2, 0.0), (1.25, 1.25, 0.0)], ends=ends)


def first_asks():
    """Composites in which one step is the first to ask for more than 100, and the same with 100."""
    for far in (100.0, NEXT, 101.0):
        # at a whole parameter, which is a probe's, the middle one that bisection asks for too, or neither
        for place in (1, 4, 6):
            yield over([*straight(place), (0, far, 0.0, 1), *straight(7 - place)])
        yield over([*straight(2), (0, -5.0, -far, 0), *straight(5)])
        yield over([*straight(7), (0, 0.0, far, 1)])
        # at the second of two breaks, and at a quarter of the way to it
        yield over([*straight(4), (0, far, 0.0, 1), (1, 3.0, 4.0, 1), *straight(3)])
        yield over([(1, 2.0, 4.0, 1), (0, far, 0.0, 1), *straight(7)])
        # at the floor's points alone, two to the segment
        yield over([*straight(2), (0, far, 0.0, 1), *straight(6)], (1e6, 8.0, 18, 1))
    # near the end of a segment: none asks, the floor's points do where they are so many, or bisection does
    for least in (1, 30, 36):
        yield over([(0, 0.0, 110.0, 1), *straight(2)], (1e6, 8.0, least, 12))
    yield over([(0, 0.0, 101.0, 1), *straight(2)], HALVED, rows=(HYPERBOLA, LINE))
    yield over([(0, 0.0, 101.0, 1), *straight(2)], (0.001, 8.0, 1, 6), rows=(HYPERBOLA, LINE))
    # in a composite of composites
    segments = [(0, 0.0, 5.0, 1), (0, 101.0, 5.0, 1), (2, 0.0, 0.75, 1), (2, 0.5, 1.5, 0)]
    nested = [TINY, LINE, ("composite", 0, 2, 0.0, 0.0), ("composite", 2, 2, 0.0, 0.0)]
    for hi in (1.0, 2.0):
        yield edge(nested, 0.0, hi, options=(1e6, 8.0, 1, 1), segments=segments)


def hyperbolas():
    """Sheets for the program's own buffers."""
    return [*drawn(), *limits(), *lost(), *escaped(), *first_asks()]


def cleared():
    """Some that are refused by 11, at each step: all floats of both buffers are then +0.0."""
    left, asks = list(escaped()), list(first_asks())
    return [left[0], left[8], left[13], left[14], left[16], asks[8], asks[13], asks[15], asks[27]]


def raced():
    """Edges whose lists grow before a hyperbola is asked beyond 100, each with the least room in which that comes before the list is
    too long: in bisection; at the points of the segment floor, whose list must have room before; at a probe, where no list is
    begun; in bisection before the first parameter joins; and in the sweep."""
    rows, cut, far = (HYPERBOLA, LINE), (0, -1.0, 1.0, 1), (0, 0.0, 101.0, 1)
    yield 72, over([cut, far, *straight(1)], HALVED, rows=rows)
    yield 71, over([far, cut, *straight(1)], HALVED, rows=rows)
    yield 37, over([(0, 0.0, 110.0, 1), *straight(2)], (1e6, 8.0, 36, 12))
    yield 2, over([cut, (0, 101.0, 0.0, 1)], HALVED, rows=rows)
    # halved four times to the left
    out, back = [(1, -30.0, -29.0, 1)], [(1, -5.0, -4.0, 1)]
    left = [(1, -10.0, -9.0, 1), (0, 101.0, 0.0, 1), *out, *straight(1), *back, *straight(3), *out, *straight(7)]
    yield 2, over(left, HALVED)
    yield 53, edge([HYPERBOLA], -2.0, 2.0, CUT, SMALL, HALVED)
