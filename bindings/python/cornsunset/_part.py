"""A part: tables that are built curve by curve, checked once, and drawn from."""
from array import array
from dataclasses import dataclass, field

from ._frame import directed, sized, square
from ._memory import of_type, real, vector, whole
from ._options import Angle, angle
from ._tables import Checked, Edge, Kind, Tables, check_tables

# The points that are the corners of a part's box.
_LOW, _HIGH = 0, 1


@dataclass(frozen=True, slots=True)
class PointNumber:
    """The number of a point of a part, as Edge holds it."""

    number: int

    def __post_init__(self):
        object.__setattr__(self, "number", whole(self.number, "number"))

    def __index__(self):
        return self.number


@dataclass(frozen=True, slots=True)
class PointRun:
    """Points of a part that stand one behind the other.

    >>> run = Part((0, 0, 0), (1, 1, 1)).points([(0, 0, 0), (1, 0, 0)])
    >>> run.count, run.at(1).number - run.at(0).number
    (2, 1)
    """

    first: int
    count: int

    def __post_init__(self):
        for name in ("first", "count"):
            object.__setattr__(self, name, whole(getattr(self, name), name))

    def at(self, index: int) -> PointNumber:
        """The number of one of them, counted from 0."""
        if not 0 <= index < self.count:
            raise IndexError(f"a run of {self.count} points has none with the index {index}")
        return PointNumber(self.first + index)


@dataclass(frozen=True, slots=True)
class Row:
    """The row of a curve of a part, whose parameter is an Angle on circles, ellipses and trims of them, else a plain float."""

    number: int
    parameter: type = float

    def __post_init__(self):
        object.__setattr__(self, "number", whole(self.number, "number"))
        if self.parameter not in (Angle, float):
            raise TypeError("a curve's parameter is an Angle or a float")

    def __index__(self):
        return self.number

    def _plain(self, value, name):
        """A parameter as the tables hold it."""
        if self.parameter is Angle:
            return angle(value, name)
        if isinstance(value, Angle):
            raise TypeError(f"{name} is a plain float on this curve, and no Angle")
        return real(value, name)


@dataclass(frozen=True, slots=True)
class Segment:
    """A segment of a composite: a range of another curve, run with the curve.

    >>> Segment(Row(0), 0, 1).reversed().sense
    0
    """

    curve: Row
    lo: float
    hi: float
    sense: int = field(default=1, kw_only=True)

    def __post_init__(self):
        of_type(Row, self.curve, "curve")
        # Whether they may be handed to the curve; they stay what they are.
        self._range()
        object.__setattr__(self, "sense", whole(self.sense, "sense"))

    def reversed(self) -> "Segment":
        """The same range, run the other way."""
        return Segment(self.curve, self.lo, self.hi, sense=1 - self.sense)

    def _range(self):
        return [self.curve._plain(self.lo, "lo"), self.curve._plain(self.hi, "hi")]


def _semi_axes(given):
    """Two sizes, the first of them along ref_dir."""
    try:
        first, second = given
    except TypeError:
        raise TypeError(f"semi_axes are two floats, not of type {type(given).__name__}") from None
    return sized(real(first, "a semi-axis")), sized(real(second, "a semi-axis"))


class Part:
    """A part under construction, in a box with these corners. It owns its tables; what it returns are numbers of points and
    rows.

    A chain is repaired (Way) that has a point further from the box's centre than its diagonal and sixteen sags together; a box
    without a diagonal repairs none.

    A frame's axis and ref_dir need be neither unit nor at right angles: here they are made so. Ranges on circles and ellipses
    are Angles, all others plain numbers of the curve's own parameter.

    >>> # A half circle of radius 20, within a box; ref_dir is neither unit nor perpendicular.
    >>> part = Part((-20, 0, 0), (20, 20, 0))
    >>> circle = part.circle((0, 0, 0), (0, 0, 3), (2, 0, 1), 20)
    >>> start, end = part.point((20, 0, 0)), part.point((-20, 0, 0))
    >>> edge = part.edge(circle, start, end, Angle.ZERO, Angle.degrees(180))
    >>> chain = part.check().draw(edge, Options(scale=44.7))
    >>> abs(chain.length() - 20 * 3.141592653589793) < 0.1
    True

    A bare number is no angle:

    >>> part.edge(circle, start, end, 0, 180)
    Traceback (most recent call last):
    TypeError: lo is made by Angle.degrees or Angle.radians: of type int it could be either
    """

    def __init__(self, low, high):
        self._points, self._curves, self._reals = array("d"), array("I"), array("d")
        self._parts, self._ranges = array("I"), array("d")
        self.points((low, high))

    def set_box(self, low, high) -> None:
        """Other corners for the box, for every edge of the part."""
        self._points[:6] = array("d", (*vector(low, "low"), *vector(high, "high")))

    def point(self, position) -> PointNumber:
        """Adds a point."""
        return self.points((position,)).at(0)

    def points(self, positions) -> PointRun:
        """Adds points, one behind the other, as a polyline needs them."""
        vectors = [vector(position, "a point") for position in positions]
        run = PointRun(len(self._points) // 3, len(vectors))
        self._points.fromlist([x for v in vectors for x in v])
        return run

    def line(self, origin, direction) -> Row:
        """Adds a line. A parameter on it counts directions, which need not be unit: at 2 lies origin + 2 direction."""
        run = vector(origin, "origin"), directed(vector(direction, "direction"))
        return self._over_points(Kind.LINE, run, (0.0, 0.0), float)

    def circle(self, origin, axis, ref_dir, radius: float) -> Row:
        """Adds a circle. Its angles turn about the axis by the right hand, from ref_dir.

        >>> part = Part((0, 0, 0), (1, 1, 1))
        >>> part.circle((0, 0, 0), (0, 0, 1), (0, 0, 5), 20)
        Traceback (most recent call last):
        cornsunset.Parallel: a ref_dir runs along its axis
        """
        return self._framed(Kind.CIRCLE, origin, axis, ref_dir, (sized(real(radius, "radius")), 0.0), Angle)

    def ellipse(self, origin, axis, ref_dir, semi_axes) -> Row:
        """Adds an ellipse, with the first of its two semi-axes along ref_dir and the other at right angles to it. At an angle u
        lies origin + first cos u along ref_dir + second sin u beside it."""
        return self._framed(Kind.ELLIPSE, origin, axis, ref_dir, _semi_axes(semi_axes), Angle)

    def parabola(self, origin, axis, ref_dir, focal: float) -> Row:
        """Adds a parabola, open along ref_dir. At a parameter u lies origin + focal u u along ref_dir + 2 focal u beside it. An
        edge on it whose range is lost is drawn from -1e6 to 1e6, which ends in NoRoom or mostly in Way.RUNAWAY; in Mode.STRICT it
        is the chord of its vertices."""
        return self._framed(Kind.PARABOLA, origin, axis, ref_dir, (sized(real(focal, "focal")), 0.0), float)

    def hyperbola(self, origin, axis, ref_dir, semi_axes) -> Row:
        """Adds the branch of a hyperbola that opens along ref_dir. At a parameter u lies origin + first cosh u along ref_dir +
        second sinh u beside it. A range is within -100 to 100: an edge that would ask for another parameter is refused with TooFar,
        and so is one that is no trim and whose range is lost, or which leaves the box. In Mode.STRICT the lost range gives the
        chord of the vertices.

        >>> import math
        >>> # A cone of half angle 45 degrees, cut 3 from its axis: 3 cosh u high, 3 sinh u to the side.
        >>> part = Part((-4, 3, 0), (4, 5, 0))
        >>> cut = part.hyperbola((0, 0, 0), (0, 0, -1), (0, 1, 0), (3, 3))
        >>> start, end = part.point((-4, 5, 0)), part.point((4, 5, 0))
        >>> side = math.log(3)  # 3 cosh u is 5, and 3 sinh u is 4
        >>> chain = part.check().draw(part.edge(cut, start, end, -side, side), Options(scale=8.2))
        >>> all(abs(p.y * p.y - p.x * p.x - 9) < 1e-12 for p in chain)
        True
        >>> part.check().draw(part.edge(cut, start, end, math.nan, math.nan), Options(scale=8.2))
        Traceback (most recent call last):
        cornsunset.TooFar: a hyperbola would be asked for a parameter beyond 100 in magnitude
        """
        return self._framed(Kind.HYPERBOLA, origin, axis, ref_dir, _semi_axes(semi_axes), float)

    def polyline(self, run: PointRun) -> Row:
        """Adds the polyline through a run of points. A parameter on it is a point's index, from 0. Drawn as one edge it can miss its
        curve, with no sign (docs/DIFFERENCES.md): draw it as an edge a leg.

        >>> part = Part((0, 0, 0), (3, 4, 0))
        >>> corners = part.points([(0, 0, 0), (3, 0, 0), (3, 4, 0)])
        >>> edge = part.edge(part.polyline(corners), corners.at(0), corners.at(2), 0, 2)
        >>> part.check().draw(edge, Options(scale=5)).length()
        7.0
        """
        of_type(PointRun, run, "run")
        return self._row(Kind.POLYLINE, run.first, run.count, (0.0, 0.0), float)

    def trimmed(self, base: Row, lo, hi) -> Row:
        """Adds a part of a curve. A parameter on it is one on its base, and of the base's sort."""
        of_type(Row, base, "base")
        return self._row(Kind.TRIMMED, base.number, 1, (base._plain(lo, "lo"), base._plain(hi, "hi")), base.parameter)

    def composite(self, segments) -> Row:
        """Adds a chain of segments of other curves. A parameter on it is a segment's index, from 0, and runs on by 1 in each.
        Drawn as one edge it can miss its curve, with no sign (docs/DIFFERENCES.md): draw it as an edge a segment.

        >>> part = Part((0, 0, 0), (2, 1, 0))
        >>> line = part.line((0, 0, 0), (1, 0, 0))
        >>> circle = part.circle((1, 1, 0), (0, 0, 1), (0, -1, 0), 1)
        >>> both = part.composite([Segment(line, 0, 1), Segment(circle, Angle.ZERO, Angle.degrees(90))])
        >>> edge = part.edge(both, part.point((0, 0, 0)), part.point((2, 1, 0)), 0, 2)
        >>> abs(part.check().draw(edge, Options(scale=2.2)).length() - 1 - 3.141592653589793 / 2) < 0.01
        True
        """
        segments = [of_type(Segment, segment, "a segment") for segment in segments]
        parts = [x for segment in segments for x in (segment.curve.number, segment.sense)]
        ranges = [x for segment in segments for x in segment._range()]
        first = len(self._parts) // 2
        self._parts.fromlist(parts)
        self._ranges.fromlist(ranges)
        return self._row(Kind.COMPOSITE, first, len(segments), (0.0, 0.0), float)

    def edge(self, curve: Row, start: PointNumber, end: PointNumber, lo, hi, *, sense=1, tolerance=0.0) -> Edge:
        """An edge on one of the part's curves between two of its points."""
        of_type(Row, curve, "curve"), of_type(PointNumber, start, "start"), of_type(PointNumber, end, "end")
        lo, hi = curve._plain(lo, "lo"), curve._plain(hi, "hi")
        return Edge(curve=curve, start=start, end=end, sense=sense, lo=lo, hi=hi, tolerance=tolerance, low=_LOW, high=_HIGH)

    def tables(self) -> Tables:
        """A copy of the tables as they are."""
        lent = Tables(points=self._points, curves=self._curves, reals=self._reals, parts=self._parts, ranges=self._ranges)
        return lent.copy()

    def check(self) -> Checked:
        """Checks the tables, once for all edges. Returns them as they are now, or raises the lowest of the refusals 1 to 5 that
        they have."""
        return check_tables(self.tables())

    def copy(self) -> "Part":
        """A part of the same tables that goes on by itself."""
        copied = object.__new__(Part)
        copied.__dict__.update({name: table[:] for name, table in self.__dict__.items()})
        return copied

    __copy__ = copy

    def _framed(self, kind, origin, axis, ref_dir, reals, parameter):
        """A row over a frame of its own."""
        origin = vector(origin, "origin")
        axis, ref_dir = square(vector(axis, "axis"), vector(ref_dir, "ref_dir"))
        return self._over_points(kind, (origin, axis, ref_dir), reals, parameter)

    def _over_points(self, kind, positions, reals, parameter):
        """A row over points of its own."""
        run = self.points(positions)
        return self._row(kind, run.first, run.count, reals, parameter)

    def _row(self, kind, first, count, reals, parameter):
        row = Row(len(self._curves) // 3, parameter)
        self._curves.fromlist([int(kind), first, count])
        self._reals.fromlist(list(reals))
        return row
