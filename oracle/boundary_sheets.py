"""Sheets on boundaries that no generated sheet meets, for replay-chain. Each is one edge on its last row."""
import math

from replay_common import beside, hexes

EXAMPLE_POINTS = [(0.0, 0.0, 0.0), (2.0, 0.0, 0.0), (10.0, 0.0, 0.0)]
LINE = ("line", 0, 2, 0.0, 0.0)
MOST_BYTES = 65_536


def sheet(points, rows, segments, edge, options, sense=1):
    """The text of a sheet. edge: start end lo hi tolerance low high, on the last row; options: deflection, angle, segments, depth,
    the deflection a length."""
    start, end, lo, hi, tolerance, low, high = edge
    deflection, angle, least, depth = options
    blocks = [
        ("x y z", [hexes(*point) for point in points]),
        ("kind first count p q", [f"{kind} {first} {count} {hexes(p, q)}" for kind, first, count, p, q in rows]),
        ("curve lo hi sense", [f"{curve} {hexes(a, b)} {sense}" for curve, a, b, sense in segments]),
        (
            "curve start end sense lo hi tolerance low high",
            [f"{len(rows) - 1} {start} {end} {sense} {hexes(lo, hi, tolerance)} {low} {high}"],
        ),
        (
            "deflection angle relative segments depth scale",
            [f"{hexes(deflection, angle)} 0 {least} {depth} {hexes(0.0)}"],
        ),
    ]
    return "\n".join("".join(line + "\n" for line in [names, *lines]) for names, lines in blocks)


def line_of(segments):
    """The scope's line in so many segments: its list has a parameter more. Merging leaves some 20 of the points, so that the
    answer stays short."""
    return sheet(EXAMPLE_POINTS, [LINE], [], (0, 2, 0.0, 5.0, 1.0, 0, 2), (1.0, 1.0, segments, 12))


def sheet_of(size):
    """The scope's line in a sheet of so many bytes: points behind it, and empty polylines before it that start at any of them."""
    def made(points, firsts):
        rows = [("polyline", first, 0, 0.0, 0.0) for first in firsts] + [LINE]
        return sheet(
            EXAMPLE_POINTS + [(0.0, 0.0, 0.0)] * points, rows, [], (0, 2, 0.0, 5.0, 0.0, 0, 2), (1.0, 1.0, 1, 12)
        )

    points = (size - 2_000) // len(hexes(0.0, 0.0, 0.0) + "\n")
    short = size - len(made(points, []))
    row = len(f"polyline  0 {hexes(0.0, 0.0)}\n")
    for rows in range(short // row + 1):
        # the digits of their first points: 1 to 4 each; the edge's row is then numbered by one digit or two
        digits = short - rows * row - (len(str(rows)) - 1)
        if rows <= digits <= 4 * rows:
            places = [1 + (digits - rows + i) // rows for i in range(rows)]
            text = made(points, [10 ** (place - 1) if place > 1 else 0 for place in places])
            assert len(text) == size
            return text
    raise ValueError(size)


def closing(square):
    """A trimmed polyline whose ends lie apart by a distance with this square, and an edge past its end: closed, it wraps."""
    x = 9e-11
    y = next(y for y in around(math.sqrt(square - x * x)) if x * x + y * y == square)
    points = [(0.0, 0.0, 0.0), (1.0, 0.0, 0.0), (1.0, 1.0, 0.0), (x, y, 0.0), (-9.0, -9.0, -9.0), (9.0, 9.0, 9.0)]
    rows = [("polyline", 0, 4, 0.0, 0.0), ("trimmed", 0, 1, 0.0, 4.0)]
    return sheet(points, rows, [], (0, 1, 0.0, 5.0, 0.0, 4, 5), (0.125, 0.5, 1, 4))


def around(x):
    """Floats about one, the nearest first."""
    low = high = x
    for _ in range(1000):
        yield low
        yield high
        low, high = beside(low)[0], beside(high)[2]


def near_breaks(apart):
    """An edge whose curve has two breaks, `apart` times as far from each other as those that count as one. The breaks are the ends
    of its one segment, at a parabola's apex, where points a rounding apart differ; the edge's range is such that the distance is a
    power of two."""
    step = 2.0**-30
    width = next(width for width in around(step / 1e-9) if width * 1e-9 == step)
    points = [(0.0, 0.0, 0.0), (0.0, 0.0, 1.0), (1.0, 0.0, 0.0), (0.0, 1.0, 0.0), (-9.0, -9.0, 0.0), (9.0, 9.0, 0.0)]
    rows = [("parabola", 0, 3, 1.0, 0.0), ("composite", 0, 1, 0.0, 0.0)]
    segments = [(0, 2 * step, (2 + apart) * step, 1)]
    return sheet(points, rows, segments, (0, 3, 0.0, width, 0.0, 4, 5), (0.0, 3.0, 1, 1))


def on_a_line(points, rows, segments):
    """The scope's line behind these rows, with points behind its own."""
    return sheet(EXAMPLE_POINTS + points, [*rows, LINE], segments, (0, 2, 0.0, 5.0, 0.0, 0, 2), (1.0, 1.0, 1, 12))


def forms():
    """A row of each kind, all of them right and their runs at the tables' ends; then one at a time with a count, an unused number
    or a run that is wrong."""
    # kind, first, count, p, q; whether the count is fixed; which of p and q are used
    kinds = [
        (("line", 3, 2, 0.0, 0.0), True, ""),
        (("circle", 2, 3, 1.0, 0.0), True, "p"),
        (("ellipse", 2, 3, 1.0, 1.0), True, "pq"),
        (("parabola", 2, 3, 1.0, 0.0), True, "p"),
        (("polyline", 3, 2, 0.0, 0.0), False, ""),
        (("trimmed", 0, 1, 0.0, 1.0), True, "pq"),
        (("composite", 0, 1, 0.0, 0.0), False, ""),
        (("hyperbola", 2, 3, 1.0, 1.0), True, "pq"),
    ]
    points, segments = [(0.0, 0.0, 1.0), (0.0, 1.0, 0.0)], [(0, 0.0, 1.0, 1)]
    yield on_a_line(points, [LINE, *(row for row, _, _ in kinds)], segments)
    for (kind, first, count, p, q), fixed, used in kinds:
        wrong = [(kind, 3 if kind == "trimmed" else first + 1, count, p, q)]
        wrong += [(kind, 0, n, p, q) for n in (count - 1, count + 1) if fixed]
        wrong += [(kind, first, count, 1.0, q)] * ("p" not in used) + [(kind, first, count, p, 1.0)] * ("q" not in used)
        for row in wrong:
            yield on_a_line(points, [LINE, row], segments)


def empty_nest(trims):
    """So many trims of a composite without segments, whose own nesting is 1."""
    rows = [("composite", 0, 0, 0.0, 0.0)] + [("trimmed", row, 1, 0.0, 1.0) for row in range(trims)]
    return on_a_line([], rows, [])


def boxed(low, high):
    """The scope's line far outside a box: repaired, but that an empty box says nothing."""
    return sheet(EXAMPLE_POINTS + [low, high], [LINE], [], (0, 2, 0.0, 5.0, 0.0, 3, 4), (1.0, 1.0, 1, 12))


def boxes():
    """Boxes that are empty along one axis alone, and flat ones, which are not empty."""
    for axis in range(3):
        low, high = [100.0, 100.0, 100.0], [101.0, 101.0, 101.0]
        for low[axis] in (102.0, 101.0):
            yield boxed(tuple(low), tuple(high))


def backwards():
    """An edge on a trim that runs backwards over a curve without a period: it is held to a range from a slack below the trim's lo to a
    slack above its hi."""
    points = [(0.0, 0.0, 0.0), (1.0, 0.0, 0.0), (1.0, 1.0, 0.0), (-9.0, -9.0, -9.0), (9.0, 9.0, 9.0)]
    rows = [("polyline", 0, 3, 0.0, 0.0), ("trimmed", 0, 1, 2.0, 0.0)]
    return sheet(points, rows, [], (0, 2, 0.25, 1.75, 0.0, 3, 4), (0.125, 0.5, 1, 4))


def boundaries():
    """Sheets for the program's own buffers."""
    sizes = [sheet_of(size) for size in range(MOST_BYTES, MOST_BYTES + 6)]
    closed = [closing(square) for square in beside(1e-20)]
    breaks = [near_breaks(apart) for apart in (0.5, 1.0, 1.5)]
    return [*sizes, *closed, *breaks, *forms(), empty_nest(7), empty_nest(8), *boxes(), backwards()]
