"""Sheets as values of the module, and answers as the oracle tells them. The layout (sheets/README.md) is taken for granted."""
import struct
from array import array
from pathlib import Path

import cornsunset as cs

ROOT = Path(__file__).resolve().parents[3]
SEPARATOR = "====\n"

# What the oracle calls the ways.
WAYS = {
    cs.Way.AS_DRAWN: "as drawn",
    cs.Way.CHORD: "chord for want of a range",
    cs.Way.COMPLEMENT: "complement",
    cs.Way.SHORT_ARC: "short arc",
    cs.Way.RUNAWAY: "runaway chord",
}

# The float that both buffers hold throughout before a sheet is drawn, where the oracle tells the whole answer.
BEFORE = bytes.fromhex("5555555555555540")


def real(digits):
    return struct.unpack(">d", bytes.fromhex(digits))[0]


def hexes(*floats):
    """Floats as listings have them, with one space between."""
    return " ".join(struct.pack(">d", x).hex() for x in floats)


def read(text):
    """The tables, as arguments of Tables, the edge and the options."""
    points, curves, segments, edge, options = ([row.split(" ") for row in block.splitlines()[1:]] for block in text.split("\n\n"))
    tables = {
        "points": [[real(x) for x in row] for row in points],
        "curves": [[cs.Kind[row[0].upper()], int(row[1]), int(row[2])] for row in curves],
        "reals": [[real(x) for x in row[3:]] for row in curves],
        "parts": [[int(row[0]), int(row[3])] for row in segments],
        "ranges": [[real(row[1]), real(row[2])] for row in segments],
    }
    return tables, read_edge(edge[0]), read_options(options[0])


def read_edge(row):
    names = "curve start end sense lo hi tolerance low high".split()
    return cs.Edge(**{name: real(x) if len(x) == 16 else int(x) for name, x in zip(names, row)})


def read_options(row):
    deflection, angle, relative, segments, depth, scale = row
    return cs.Options(
        deflection=real(deflection),
        angle=cs.Angle.radians(real(angle)),
        relative=int(relative),
        segments=int(segments),
        depth=int(depth),
        scale=real(scale),
    )


def listing(chain):
    """What the program prints for a chain."""
    return "".join(line + "\n" for line in ("x y z t", *(hexes(p.x, p.y, p.z, p.t) for p in chain)))


def told(text):
    """What `oracle batch` prints after `ask both`: the answer, and the floats of both buffers, by their bits."""
    answer, *buffers = text.splitlines()
    floats = [array("d", bytes.fromhex(buffer)) for buffer in buffers]
    for buffer in floats:
        buffer.byteswap()
    return answer, *(buffer.tobytes() for buffer in floats)


def whole(draw, lengths):
    """The same of a drawing."""
    first, second = (array("d", BEFORE * length) for length in lengths)
    try:
        chain = draw(first, second)
        answer = f"way {WAYS[chain.way]} points {len(chain)}"
    except cs.Refusal as refusal:
        answer = f"refusal {refusal.number}"
    return answer, first.tobytes(), second.tobytes()
