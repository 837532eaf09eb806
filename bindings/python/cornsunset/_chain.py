"""Chains, their points, and walks over them."""
from collections.abc import Iterator, Sequence
from ctypes import byref, c_double, c_size_t
from dataclasses import dataclass
from math import sqrt

from ._answer import Way
from ._library import WIDTH, library
from ._memory import FLOATS, Memory, lent


@dataclass(frozen=True, slots=True)
class Point:
    """A point of a chain: x, y, z, and t, the curve's own parameter there. A later version may have more of them: name them.

    >>> point = next(Walk([1.0, 2.0, 3.0, 0.5]))
    >>> point.position, point.t
    ((1.0, 2.0, 3.0), 0.5)
    """

    x: float
    y: float
    z: float
    t: float

    @property
    def position(self) -> tuple[float, float, float]:
        """Its x, y and z."""
        return self.x, self.y, self.z


class Chain(Sequence):
    """A chain: a sequence of points. Drawing makes it.

    Where it was drawn into the caller's buffers it is the part that holds it, and the next drawing into them changes it; `copy`
    gives one of its own.

    >>> from cornsunset import Edge, Options, Tables, draw
    >>> tables = Tables(points=[0, 0, 0, 2, 0, 0, 10, 0, 0], curves=[1, 0, 2], reals=[0, 0])
    >>> chain = draw(tables, Edge(curve=0, start=0, end=2, lo=0, hi=5, low=0, high=2), Options())
    >>> chain.way.name, len(chain), chain.length()
    ('AS_DRAWN', 2, 10.0)
    >>> [point.t for point in chain.backwards()]
    [5.0, 0.0]
    >>> chain.floats.tolist()
    [0.0, 0.0, 0.0, 0.0, 10.0, 0.0, 0.0, 5.0]
    """

    __slots__ = ("_memory", "_way")

    def __init__(self, memory, way):
        self._memory, self._way = memory, way

    @property
    def way(self) -> Way:
        """The way in which it was got."""
        return self._way

    @property
    def floats(self) -> memoryview:
        """Its points as plain floats, WIDTH each, to read. For numpy: `numpy.asarray(chain.floats).reshape(-1, WIDTH)`."""
        return self._memory.view.toreadonly()

    def length(self) -> float:
        """Its length: the distances from each point to its next, summed from the start. This is what a cutter runs."""
        xs, ys, zs = (self._memory.view[i::WIDTH].tolist() for i in range(3))
        total = 0.0
        for i in range(1, len(xs)):
            x, y, z = xs[i] - xs[i - 1], ys[i] - ys[i - 1], zs[i] - zs[i - 1]
            total += sqrt(x * x + y * y + z * z)
        return total

    def forwards(self) -> "Walk":
        """A walk from its start."""
        return Walk(self, True)

    def backwards(self) -> "Walk":
        """A walk from its end."""
        return Walk(self, False)

    def copy(self) -> "Chain":
        """A copy that owns its points."""
        return _chain(bytes(self._memory.view), self._way)

    def __len__(self):
        return self._memory.length // WIDTH

    def __getitem__(self, index):
        places = range(len(self))[index]
        return [self._point(i) for i in places] if isinstance(index, slice) else self._point(places)

    def _point(self, i):
        return Point(*self._memory.view[WIDTH * i : WIDTH * (i + 1)])

    def __eq__(self, other):
        if not isinstance(other, Chain):
            return NotImplemented
        return self._way == other._way and self._memory.view == other._memory.view

    __hash__ = None

    def __repr__(self):
        return f"<Chain {self._way.name}, {len(self)} points>"

    def __reduce__(self):
        return _chain, (bytes(self._memory.view), self._way)


def _chain(stored, way):
    """A chain of which the bytes were stored."""
    return Chain(Memory.own(FLOATS, stored), way)


class Walk(Iterator):
    """A walk over the whole points of a chain, or of floats that are read as points, from the start if forward, else from the
    end. A step with no point left keeps its place.

    >>> walk = Walk([0.0, 0.0, 0.0, 0.0, 7.0, 0.0, 0.0, 1.0])
    >>> [point.x for point in walk]
    [0.0, 7.0]
    >>> walk.turn()
    >>> [point.x for point in walk]
    [7.0, 0.0]
    """

    __slots__ = ("_memory", "_forward", "_at")

    def __init__(self, floats, forward=True):
        self._memory = floats._memory if isinstance(floats, Chain) else lent(FLOATS, floats, WIDTH, "floats")
        self._forward = bool(forward)
        self._at = c_size_t(library.cs_start(self._memory.address, self._memory.length, self._forward))

    def turn(self) -> None:
        """Turns round: the next step passes the last point again."""
        self._forward = not self._forward

    def __next__(self):
        point = (c_double * WIDTH)()
        if not library.cs_step(self._memory.address, self._memory.length, self._forward, byref(self._at), point):
            raise StopIteration
        return Point(*point)
