"""Directions made unit and frames made square, which the library takes as they are handed."""
from math import isfinite, sqrt


class PartError(ValueError):
    """Why a curve could not be added to a part. Each has a class of its own, and a message. There may be more of them later."""

    message = "a curve could not be added"

    def __str__(self):
        return self.message


class NoDirection(PartError):
    """An axis, a ref_dir or the direction of a line has no length, or is not finite."""

    message = "an axis, ref_dir or direction has no length, or is not finite"


class Parallel(PartError):
    """A ref_dir runs along its axis, so that nothing of it lies beside."""

    message = "a ref_dir runs along its axis"


class NoSize(PartError):
    """A radius, a semi-axis or a focal distance is not above zero."""

    message = "a radius, semi-axis or focal distance is not above zero"


# How near a ref_dir may come to its axis, as the sine of the angle between them: below it, what is left beside the axis is mostly
# rounding.
LEAST_SINE = 1e-9


def square(axis, ref_dir):
    """The axis and ref_dir of a frame: the axis made unit, ref_dir made perpendicular to it and unit."""
    axis, along = unit(axis), unit(ref_dir)
    beside = without(along, axis)
    if sqrt(dot(beside, beside)) < LEAST_SINE:
        raise Parallel
    # Twice, since the first leaves more along the axis the shorter it is.
    return axis, unit(without(unit(beside), axis))


def directed(v):
    """Refuses a direction that has no length or is not finite."""
    unit(v)
    return v


def unit(v):
    if not any(v) or not all(map(isfinite, v)):
        raise NoDirection
    # Scaled first, so that no square is too large or too small to have a root.
    most = max(map(abs, v))
    scaled = [x / most for x in v]
    length = sqrt(dot(scaled, scaled))
    return tuple(x / length for x in scaled)


def without(v, axis):
    """What is left of v beside a unit axis."""
    height = dot(v, axis)
    return tuple(v[i] - height * axis[i] for i in range(3))


def dot(a, b):
    return a[0] * b[0] + a[1] * b[1] + a[2] * b[2]


def sized(x):
    """Refuses a size that is not a number above zero; that it is not too large is left to the check."""
    if not x > 0:
        raise NoSize
    return x
