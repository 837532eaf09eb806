"""The curves of a sheet that passes its checks, and what drawing asks of them, in plain floats: ranges, points, the sag, how far a
chain lies from its curve. It follows eval/curve.rs, options.rs and edge.rs, with Python's sine, cosine and their hyperbolic kin, so
that a last digit may differ from the program's. For reading alone: no answer rests on it."""
import math

from sheets import ROUND

TAU = 2 * math.pi
# The farthest parameter that a hyperbola is asked for, either way: beyond it drawing ends with refusal 11.
FARTHEST = 100.0


def along(a, direction, t):
    return tuple(x + t * d for x, d in zip(a, direction))


def minus(a, b):
    return tuple(x - y for x, y in zip(a, b))


def dot(a, b):
    return sum(x * y for x, y in zip(a, b))


def cross(a, b):
    return a[1] * b[2] - a[2] * b[1], a[2] * b[0] - a[0] * b[2], a[0] * b[1] - a[1] * b[0]


def off_chord(p, a, b):
    """How far a point lies from the straight line between two."""
    axis = minus(b, a)
    square = dot(axis, axis)
    t = min(max(dot(minus(p, a), axis) / square, 0.0), 1.0) if square > 0 else 0.0
    return math.dist(p, along(a, axis, t))


def length(points):
    return sum(map(math.dist, points, points[1:]))


def steps(range_, n):
    """The ends of n even pieces of a range."""
    lo, hi = range_
    return [lo + (hi - lo) * (i / n) for i in range(n + 1)]


class Curves:
    """The rows of a sheet as curves, by their numbers."""

    def __init__(self, sheet):
        self.sheet, self.rows = sheet, sheet.curves
        self.places = [tuple(row[axis] for axis in "xyz") for row in sheet.points]

    def run(self, row):
        """The points that a row names."""
        return self.places[row["first"] : row["first"] + row["count"]]

    def base(self, index):
        """The row under the trims of a row."""
        while self.rows[index]["kind"] == "trimmed":
            index = self.rows[index]["first"]
        return self.rows[index]

    def natural(self, index):
        """The range over which a curve is defined."""
        row = self.rows[index]
        kind, count = row["kind"], row["count"]
        return {
            "line": (-1e12, 1e12), "circle": (0.0, TAU), "ellipse": (0.0, TAU), "parabola": (-1e6, 1e6),
            "hyperbola": (-1e6, 1e6), "polyline": (0.0, float(max(count - 1, 0))), "trimmed": (row["p"], row["q"]), "composite": (0.0, float(count)),
        }[kind]  # fmt: skip

    def closed_polyline(self, row):
        first, count = row["first"], row["count"]
        return count > 2 and math.dist(self.places[first], self.places[first + count - 1]) ** 2 < 1e-20

    def period(self, index):
        """After how much a parameter comes round, or none."""
        row = self.base(index)
        if row["kind"] in ROUND:
            return TAU
        return float(row["count"] - 1) if row["kind"] == "polyline" and self.closed_polyline(row) else None

    def lost(self, lo, hi):
        """Whether a range is not finite, empty or reversed, so that the curve's own is drawn."""
        return not (math.isfinite(lo) and math.isfinite(hi) and hi - lo > 0)

    def usable(self, index, lo, hi):
        """The range that is drawn, or none."""
        natural = self.natural(index)
        span = abs(natural[1] - natural[0])
        if self.lost(lo, hi):
            return natural if span < 1e9 else None
        if self.period(index):
            return lo, hi
        return max(lo, natural[0] - span * 1e-9), min(hi, natural[1] + span * 1e-9)

    def point(self, index, t):
        """The curve's own point at a parameter."""
        row = self.rows[index]
        kind = row["kind"]
        if kind == "trimmed":
            return self.point(row["first"], t)
        if kind == "composite":
            return self.composite_point(row, t)
        if kind == "polyline":
            return self.polyline_point(row, t)
        origin, axis, *rest = self.run(row)
        if kind == "line":
            return along(origin, axis, t)
        p, q = row["p"], row["p"] if kind == "circle" else row["q"]
        if kind == "parabola":
            x, y = p * t * t, 2 * p * t
        elif kind == "hyperbola":
            # No point beyond is drawn; here the curve ends there, so that nothing overflows.
            t = min(max(t, -FARTHEST), FARTHEST)
            x, y = p * math.cosh(t), q * math.sinh(t)
        else:
            x, y = p * math.cos(t), q * math.sin(t)
        return along(along(origin, rest[0], x), cross(axis, rest[0]), y)

    def polyline_point(self, row, t):
        first, last = row["first"], row["count"] - 1
        if last < 1:
            return self.places[first] if last == 0 else (0.0, 0.0, 0.0)
        t = t - math.floor(t / last) * last if self.closed_polyline(row) else min(max(t, 0.0), float(last))
        i = min(max(math.floor(t), 0), last - 1)
        a, b = self.places[first + i], self.places[first + i + 1]
        return along(a, minus(b, a), t - i)

    def composite_point(self, row, t):
        count = row["count"]
        if count == 0:
            return 0.0, 0.0, 0.0
        t = min(max(t, 0.0), float(count))
        i = min(math.floor(t), count - 1)
        return self.segment_point(self.sheet.segments[row["first"] + i], t - i)

    def segment_point(self, segment, local):
        """A segment's point, from 0 at its start to 1 at its end, as it is walked."""
        local = local if segment["sense"] == 1 else 1 - local
        return self.point(segment["curve"], segment["lo"] + (segment["hi"] - segment["lo"]) * local)

    def reached(self, index):
        """The rows that a row is made of, itself first, and the segments among them."""
        rows, segments, waiting = {}, {}, [index]
        while waiting:
            row = self.rows[index := waiting.pop()]
            if index in rows:
                continue
            rows[index] = row
            if row["kind"] == "trimmed":
                waiting.append(row["first"])
            elif row["kind"] == "composite":
                for i in range(row["first"], row["first"] + row["count"]):
                    segments[i] = self.sheet.segments[i]
                    waiting.append(segments[i]["curve"])
        return rows, segments

    def own_places(self, index, range_, each):
        """Parameters of a range that show a curve's shape: a polyline's corners, so many places a segment of a composite, and
        eight times as many of another curve."""
        row = self.base(index)
        if row["kind"] not in ("polyline", "composite"):
            return steps(range_, 8 * each)
        fine, last = (1, row["count"] - 1) if row["kind"] == "polyline" else (each, row["count"])
        low, high = min(range_), max(range_)
        if self.period(index):
            # Many turns show nothing that one does not.
            high = min(high, low + 2 * last)
        else:
            low, high = max(low, 0.0), min(high, float(last))
        places = (i / fine for i in range(math.ceil(low * fine), math.floor(high * fine) + 1))
        between = [t for t in places if t not in range_]
        lo, hi = range_
        return [lo, *(between if lo <= hi else reversed(between)), hi]


class Drawing:
    """An edge with its options as drawing resolves them."""

    def __init__(self, sheet):
        self.curves = Curves(sheet)
        self.edge, self.options = sheet.edge, sheet.options
        self.index = self.edge["curve"]
        self.row, self.base = self.curves.rows[self.index], self.curves.base(self.index)
        vertices = (self.curves.places[self.edge[name]] for name in ("start", "end", "low", "high"))
        self.start, self.end, self.low, self.high = vertices
        self.range = self.curves.usable(self.index, self.edge["lo"], self.edge["hi"])
        self.angle = min(max(self.options["angle"], 1e-4), math.pi)
        self.depth = min(max(self.options["depth"], 1), 24)
        self.segments = max(self.options["segments"], 1)
        self.diagonal = math.dist(self.low, self.high)
        self.sag = self.own_sag()

    def at(self, t):
        return self.curves.point(self.index, t)

    def has_scale(self):
        return math.isfinite(self.options["scale"]) and self.options["scale"] > 0

    def extent(self):
        """How large the edge is: its vertices and nine places."""
        points = [self.start, self.end] + ([self.at(t) for t in steps(self.range, 8)] if self.range else [])
        return max(max(axis) - min(axis) for axis in zip(*points))

    def own_sag(self):
        """How far a chord may lie from the curve, for an edge of this size."""
        deflection, scale = self.options["deflection"], self.options["scale"]
        relative = self.options["relative"] == 1
        sag = max(deflection * scale if relative and self.has_scale() else deflection, 2.0**-1022)
        extent = self.extent()
        if not (relative and deflection > 0 and self.has_scale() and extent > 0):
            return sag
        return max(min(max(scale / (2 * extent), 0.5), 2.0) * extent * (deflection * 2), sag / 8)

    def off_ends(self, range_):
        """How far the vertices lie from the ends of the curve over a range, whichever way it is walked."""
        a, b = map(self.at, range_)
        return min(max(math.dist(self.start, p), math.dist(self.end, q)) for p, q in ((a, b), (b, a)))

    def length(self, range_):
        """The length of the curve over a range, to some six digits: in many steps for each turn and for each segment."""
        kind = self.base["kind"]
        turns = math.ceil(abs(range_[1] - range_[0]) / TAU) if kind in ROUND else 1
        each = max(64, 8192 // max(self.base["count"], 1)) if kind == "composite" else 128 * max(1, min(turns, 64))
        points = [self.at(t) for t in self.curves.own_places(self.index, range_, each)]
        if kind in ("polyline", "composite"):
            return length(points)
        # The error of chords falls by four where there are twice as many.
        return (4 * length(points) - length(points[::2])) / 3

    def arc(self):
        """Radius for the closed form of a circle or an ellipse, the step that sag and angle ask for, and the segments."""
        radius = abs(self.base["p"])
        if self.base["kind"] == "ellipse":
            radius = min(radius, abs(self.base["q"]))
        by_sag = 2 * math.acos(min(max(1 - self.sag / radius, -1.0), 1.0)) if radius > self.sag else self.angle
        step = max(min(by_sag, self.angle), 1e-3)
        span = abs(self.range[1] - self.range[0])
        return radius, step, max(math.ceil(span / step), self.segments)
