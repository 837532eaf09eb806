#!/usr/bin/env python3
"""The profile of a dish, a parabola, whose range a file has lost. In the reference's mode the parabola is sampled over two million
units, and with options as fine as these that is refused for want of room; in strict mode the profile is the chord of its vertices,
and its way says so. A chord is no profile: a range that was lost can be worked out from a vertex and the focal distance."""
import sys
from dataclasses import replace
from math import nan
from pathlib import Path

sys.path.insert(0, str(Path(__file__).resolve().parent.parent))
from cornsunset import Mode, NoRoom, Options, Part, Way

# Millimetres.
FOCAL = 250
RIM = 400
DEPTH = RIM * RIM / (4 * FOCAL)

# A sag of a twentieth of a millimetre, however often a span has to be halved for it.
OPTIONS = Options(deflection=0.05, relative=0, depth=20)


def tell(name, chain):
    print(f"{name}: {chain.way.name}, {len(chain)} points, {chain.length():.9f} mm")


def main():
    part = Part((0, -RIM, 0), (DEPTH, RIM, 0))
    dish = part.parabola((0, 0, 0), (0, 0, 1), (1, 0, 0), FOCAL)
    start, end = part.point((DEPTH, -RIM, 0)), part.point((DEPTH, RIM, 0))
    profile = part.edge(dish, start, end, nan, nan)
    part = part.check()

    try:
        tell("reference", part.draw(profile, OPTIONS))
    except NoRoom as refusal:
        print(f"reference: refused with {refusal.number}, {refusal}")

    chain = part.draw(profile, OPTIONS, mode=Mode.STRICT)
    tell("strict", chain)
    if chain.way is Way.CHORD:
        # At u the parabola is 2 FOCAL u beside its axis.
        u = RIM / (2 * FOCAL)
        tell(f"range {-u} to {u}", part.draw(replace(profile, lo=-u, hi=u), OPTIONS, mode=Mode.STRICT))


main()
