"""Angles, how finely to draw, and in which mode."""
import enum
import math
from ctypes import byref, c_double, c_uint32, c_uint64
from dataclasses import dataclass

from ._library import library
from ._memory import real, whole


class Angle:
    """An angle, made by Angle.degrees or Angle.radians: a bare number is none.

    >>> Angle.degrees(360) == Angle.FULL_TURN
    True
    >>> Angle.radians(8).is_clamped(), Angle.degrees(8).is_clamped()
    (True, False)
    >>> Options(angle=8.0)
    Traceback (most recent call last):
    TypeError: angle is made by Angle.degrees or Angle.radians: of type float it could be either
    """

    __slots__ = ("_radians",)

    #: No angle: where a circle begins.
    ZERO: "Angle"
    #: Once round.
    FULL_TURN: "Angle"

    def __new__(cls, *_, **__):
        raise TypeError("an angle is made by Angle.degrees or Angle.radians")

    @staticmethod
    def degrees(x: float) -> "Angle":
        """So many degrees."""
        return _angle(library.cs_degrees(real(x, "an angle")))

    @staticmethod
    def radians(x: float) -> "Angle":
        """So many radians."""
        return _angle(real(x, "an angle"))

    def to_radians(self) -> float:
        """In radians."""
        return self._radians

    def is_clamped(self) -> bool:
        """Whether drawing changes it where it stands in Options, as it does below 1e-4 and above pi: a caller can warn."""
        return library.cs_is_clamped(self._radians)

    def __setattr__(self, name, value):
        raise AttributeError("an angle does not change")

    def __repr__(self):
        return f"Angle.radians({self._radians!r})"

    def __reduce__(self):
        return Angle.radians, (self._radians,)

    def __hash__(self):
        return hash((Angle, self._radians))

    def __eq__(self, other):
        return self._radians == other._radians if isinstance(other, Angle) else NotImplemented

    def __lt__(self, other):
        return self._radians < other._radians if isinstance(other, Angle) else NotImplemented

    def __le__(self, other):
        return self._radians <= other._radians if isinstance(other, Angle) else NotImplemented


def _angle(radians):
    angle = object.__new__(Angle)
    object.__setattr__(angle, "_radians", radians)
    return angle


Angle.ZERO = _angle(0.0)
Angle.FULL_TURN = _angle(math.tau)


def angle(value, name):
    """The radians of an angle, which is no bare number."""
    if not isinstance(value, Angle):
        raise TypeError(f"{name} is made by Angle.degrees or Angle.radians: of type {type(value).__name__} it could be either")
    return value.to_radians()


def _preset(store):
    numbers = c_double(), c_double(), c_uint32(), c_uint64(), c_uint32(), c_double()
    store(*map(byref, numbers))
    deflection, radians, relative, segments, depth, scale = (number.value for number in numbers)
    return {
        "deflection": deflection,
        "angle": Angle.radians(radians),
        "relative": relative,
        "segments": segments,
        "depth": depth,
        "scale": scale,
    }


_DEFAULT = _preset(library.cs_flat_default)


@dataclass(frozen=True, kw_only=True, slots=True)
class Options:
    """How finely to draw. deflection and angle are what a span is tested by, and no bounds on the chain: what a curve does
    between the places that are looked at is not seen, and a span with no depth left is not tested again.

    What is not given is as in the preset `default`: 0.0004 of the scale and 8 degrees. Set the scale before drawing.

    >>> options = Options(angle=Angle.degrees(20), scale=470)
    >>> options.deflection, options.relative, options.segments, options.depth
    (0.0004, 1, 1, 12)
    >>> Options.draft(scale=470).deflection
    0.01

    deflection: the sag: how far a span's chord may lie from the curve at the span's middle parameter. A length, unless relative
    is 1 and there is a scale: then this fraction of the scale for an edge whose extent is a quarter of the scale up to all of
    it, of its own extent for a larger edge, and for a smaller one four times this fraction of its extent, but never less than
    an eighth of what it is for the whole.

    angle: an Angle. Where a curve is bisected, how far the tangents at a span's two ends may turn from each other; on a circle
    or an ellipse the largest step of its parameter, 1e-3 radians at least, and no tangent is looked at, unless these even steps
    miss the sag: then it is bisected too. Held to 1e-4 radians to pi.

    relative: 0 or 1.

    segments: the least number of segments that an edge is sampled with, before points are merged; a chord has one. 0 counts as
    1. Where halving gives fewer, so many even steps of the parameter are drawn instead, and these are not tested. It has no
    upper end but the room: n segments need n + 1 points.

    depth: how often a span may be halved, where a curve is bisected. Held to 1 to 24.

    scale: the size of the part, in its own unit of length, as the diagonal of its box; not finite or not above zero, it is
    none, and the deflection is a length whatever relative says.
    """

    deflection: float = _DEFAULT["deflection"]
    angle: Angle = _DEFAULT["angle"]
    relative: int = _DEFAULT["relative"]
    segments: int = _DEFAULT["segments"]
    depth: int = _DEFAULT["depth"]
    scale: float = _DEFAULT["scale"]

    def __post_init__(self):
        angle(self.angle, "angle")
        for name in ("deflection", "scale"):
            object.__setattr__(self, name, real(getattr(self, name), name))
        for name, bits in (("relative", 32), ("segments", 64), ("depth", 32)):
            object.__setattr__(self, name, whole(getattr(self, name), name, bits))

    @classmethod
    def default(cls, **changes) -> "Options":
        """0.0004 of the scale and 8 degrees, with these changes."""
        return cls(**changes)

    @classmethod
    def draft(cls, **changes) -> "Options":
        """For a quick preview: 0.01 of the scale and 35 degrees, with these changes."""
        return cls(**{**_preset(library.cs_flat_draft), **changes})

    @classmethod
    def fine(cls, **changes) -> "Options":
        """For close inspection: 0.0001 of the scale and 4 degrees, with these changes."""
        return cls(**{**_preset(library.cs_flat_fine), **changes})

    def _arguments(self):
        return self.deflection, self.angle.to_radians(), self.relative, self.segments, self.depth, self.scale


class Mode(enum.IntEnum):
    """What a lost range means, and where a composite breaks. It stands beside the options, and is none of them; what is not told a
    mode draws in the reference's. Its number is the same in C and Rust. There may be more of them later.

    >>> from math import nan
    >>> from cornsunset import Part
    >>> # A dish of focal distance 250 and 800 across, of which the range was lost.
    >>> part = Part((0, -400, 0), (160, 400, 0))
    >>> dish = part.parabola((0, 0, 0), (0, 0, 1), (1, 0, 0), 250)
    >>> profile = part.edge(dish, part.point((160, -400, 0)), part.point((160, 400, 0)), nan, nan)
    >>> chain = part.check().draw(profile, Options(scale=816), mode=Mode.STRICT)
    >>> chain.way.name, chain.length()
    ('CHORD', 800.0)

    REFERENCE: the chain is that of the Rust from which the library was rewritten, bit for bit.

    STRICT: two things differ, and nothing else does. A parabola or a hyperbola whose range is lost (not finite, or not rising) has
    no real domain. Where it is the edge's own row, and not under a trim, which has a range of its own, the chain is the chord of
    the edge's vertices: Way.CHORD, in the first buffer, with the parameters lo and hi, their bits and all, whatever the sense.
    Repair does not touch it, and it is refused neither with 8 nor with 11. And a composite of n segments, or a trim of one, breaks
    where its segments meet: at each of the whole numbers 1 to n - 1 that lies inside the range by more than 1e-9 of its width, and
    none is merged with another. In REFERENCE the breaks are the lo and hi of its segments, taken for parameters of the composite.
    In both a break is dropped where three places between those beside it show no bend, and composites inside segments add none. No
    refusal is new, and 1 to 7 are the same in both.
    """

    #: The default: the chain is that of the Rust from which the library was rewritten, bit for bit.
    REFERENCE = 0
    #: The chord for the lost range of a parabola or a hyperbola, and a composite breaks where its segments meet.
    STRICT = 1
