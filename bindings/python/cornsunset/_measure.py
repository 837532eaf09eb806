"""How far a point lies from a chord, and from which place on the chord that is measured."""
from ctypes import byref, c_double
from dataclasses import dataclass

from ._library import library
from ._memory import vector


@dataclass(frozen=True, slots=True)
class Measured:
    """What measure_for_thinning and measure_for_bisection say of a point p and the chord from a to b: numbers that drawing itself
    works with, bit for bit. A later version may have more of them: name them.

    Any floats may be measured. Where none is NaN or beyond 1e150 in magnitude, both are finite; else both may be NaN, and the distance
    infinite.

    Who wants the very numbers of a drawing hands over what it measured: breaks and spans are measured on the curve, in the order of
    its parameters, while a chain's ends are the vertices, and it may run against its curve; a polyline's points are measured on the
    chain.

    >>> from cornsunset import Walk
    >>> # The start, the middle and the end of a chain.
    >>> a, p, b = (point.position for point in Walk([0, 0, 0, 0, 2, 3, 0, 1, 8, 0, 0, 2]))
    >>> measured = measure_for_thinning(a, b, p)
    >>> measured.distance, measured.place
    (3.0, 0.25)
    >>> # Where that was measured from, with the bits of drawing itself.
    >>> [a[i] + (b[i] - a[i]) * measured.place for i in range(3)]
    [2.0, 0.0, 0.0]

    distance: from p to the place on the chord, or to a where the chord has no length.

    place: where the foot of the perpendicular from p lies, held to the chord: it counts from 0 at a to 1 at b, and is 0.0 where the
    chord has no length. If it is a number it lies in 0..1, and it may be -0.0. The foot is a[i] + (b[i] - a[i]) * place for each
    coordinate.
    """

    distance: float
    place: float


def measure_for_thinning(a, b, p) -> Measured:
    """Measures as thinning does a composite's breaks and a polyline's points: the chord has a length where its square, the sum of
    x x, y y and z z of b - a, is above zero, and the place is worked out by dividing by that square. a, b and p are x, y, z each.

    >>> measure_for_thinning((0, 0, 0), (4, 0, 0), (7, 0, 4))
    Measured(distance=5.0, place=1.0)
    >>> measure_for_thinning((0, 0, 0), (0, 0, 0), (4, 0, 0))
    Measured(distance=4.0, place=0.0)
    """
    return _measured(library.cs_flat_measure_for_thinning, a, b, p)


def measure_for_bisection(a, b, p) -> Measured:
    """Measures as bisection does a span's sag, from the curve's points at the span's ends, in the order of their parameters, to p,
    that at its middle parameter: the chord has a length where the root of its square is above 1e-300, and the divisor is the root
    times itself, so that last bits may differ from measure_for_thinning. a, b and p are x, y, z each.

    >>> from cornsunset import Angle, Options, Part
    >>> part = Part((0, -4, 0), (2, 4, 0))
    >>> dish = part.parabola((0, 0, 0), (0, 0, 1), (1, 0, 0), 2)
    >>> rim, other = (2, -4, 0), (2, 4, 0)
    >>> profile = part.edge(dish, part.point(rim), part.point(other), -1, 1)
    >>> sag = measure_for_bisection(rim, other, (0, 0, 0)).distance
    >>> # With this sag allowed the profile is not halved, and with less it is.
    >>> coarse, fine = (Options(deflection=x, relative=0, angle=Angle.degrees(180)) for x in (sag, 0.999 * sag))
    >>> len(part.check().draw(profile, coarse)), len(part.check().draw(profile, fine)) > 2
    (2, True)
    """
    return _measured(library.cs_flat_measure_for_bisection, a, b, p)


def _measured(measure, a, b, p):
    place = c_double()
    vectors = ((c_double * 3)(*vector(value, name)) for value, name in ((a, "a"), (b, "b"), (p, "p")))
    distance = measure(*vectors, byref(place))
    return Measured(distance, place.value)
