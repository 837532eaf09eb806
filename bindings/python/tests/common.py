"""What several tests take: a line to draw, and floats by their bits."""
import struct
from array import array
from dataclasses import replace

import cornsunset as cs


def bits(floats):
    """The bits of floats: NaNs are alike that have the same payload, and zeros that have the same sign."""
    return array("d", floats).tobytes()


def of_bits(number):
    return struct.unpack("<d", struct.pack("<Q", number))[0]


# What no drawing writes.
MARK = of_bits(0x7FF4DEAD0000BEEF)

# Origin 0 and direction (2, 0, 0), with vertices at x 0 and 10.
POINTS = [0.0, 0.0, 0.0, 2.0, 0.0, 0.0, 10.0, 0.0, 0.0]
LINE = {"points": POINTS, "curves": [cs.Kind.LINE, 0, 2], "reals": [0.0, 0.0]}
EDGE = cs.Edge(curve=0, start=0, end=2, sense=1, lo=0.0, hi=5.0, tolerance=0.0, low=0, high=2)
OPTIONS = cs.Options(deflection=1.0, angle=cs.Angle.radians(1.0), relative=0, segments=4)


def line(**changes):
    return cs.Tables(**{**LINE, **changes})


def edge(**changes):
    return replace(EDGE, **changes)


def options(**changes):
    return replace(OPTIONS, **changes)


def marked(n):
    return array("d", [MARK]) * n


def floats(n):
    return array("d", bytes(8 * n))


def trims(n):
    """A line and n trims, each of the one before."""
    return line(curves=[(1, 0, 2)] + [(6, i, 1) for i in range(n)], reals=[(0.0, 0.0)] + [(0.0, 5.0)] * n)
