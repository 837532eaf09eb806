#!/usr/bin/env python3
"""A perforated plate: an outline with rounded corners and a grid of holes, summed to the length that a cutter runs.
bindings/c/plate.c and bindings/rust/examples/plate.rs draw the same plate and print the same."""
import sys
from math import sqrt
from pathlib import Path

sys.path.insert(0, str(Path(__file__).resolve().parent.parent))
from cornsunset import Angle, Options, Part

COLUMNS = 12
ROWS = 7

# Millimetres.
LENGTH = 400
BREADTH = 250
CORNER = 12
HOLE = 5
MARGIN = 35
PITCH = 30


def side(part, start, end):
    """A straight edge."""
    (x0, y0), (x1, y1) = start, end
    line = part.line((x0, y0, 0), (x1 - x0, y1 - y0, 0))
    return part.edge(line, part.point((x0, y0, 0)), part.point((x1, y1, 0)), 0, 1)


def circle(part, centre, radius):
    return part.circle((*centre, 0), (0, 0, 1), (1, 0, 0), radius)


def corner(part, centre, degrees, start, end):
    """The quarter of a corner, from so many degrees on."""
    start, end = part.point((*start, 0)), part.point((*end, 0))
    return part.edge(circle(part, centre, CORNER), start, end, Angle.degrees(degrees), Angle.degrees(degrees + 90))


def hole(part, x, y):
    vertex = part.point((x + HOLE, y, 0))
    return part.edge(circle(part, (x, y), HOLE), vertex, vertex, Angle.ZERO, Angle.FULL_TURN)


def outline(part):
    """Each corner and the side that leads on to the next."""
    length, breadth, r = LENGTH, BREADTH, CORNER
    starts = [(length - r, 0), (length, breadth - r), (r, breadth), (0, r)]
    ends = [(length, r), (length - r, breadth), (0, breadth - r), (r, 0)]
    centres = [(length - r, r), (length - r, breadth - r), (r, breadth - r), (r, r)]
    edges = []
    for i in range(4):
        edges.append(corner(part, centres[i], 270 + 90 * i, starts[i], ends[i]))
        edges.append(side(part, ends[i], starts[(i + 1) % 4]))
    return edges


def holes(part):
    return [hole(part, MARGIN + PITCH * i, MARGIN + PITCH * j) for j in range(ROWS) for i in range(COLUMNS)]


def cut(part, name, edges, options):
    """The length of these edges, and a line about them."""
    chains = [part.draw(edge, options) for edge in edges]
    # One after the other: from 3.12 on, sum() rounds in another way.
    length = 0.0
    for chain in chains:
        length += chain.length()
    print(f"{name}: {len(edges)} edges, {sum(map(len, chains))} points, {length:.9f} mm")
    return length


def main():
    part = Part((0, 0, 0), (LENGTH, BREADTH, 0))
    edges = outline(part), holes(part)
    part = part.check()

    options = Options(scale=sqrt(LENGTH * LENGTH + BREADTH * BREADTH))
    total = cut(part, "outline", edges[0], options) + cut(part, "holes", edges[1], options)
    turn = Angle.FULL_TURN.to_radians()
    truth = 2 * (LENGTH + BREADTH - 4 * CORNER) + turn * CORNER + COLUMNS * ROWS * turn * HOLE
    print(f"cut length: {total:.9f} mm, {100 * (truth - total) / truth:.3f} % under the true {truth:.9f} mm")


main()
