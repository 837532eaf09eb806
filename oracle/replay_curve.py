"""Parts `curve` for crates/replay, sheets each with parameters behind it, and the answers of `oracle eval` without its line
`sampled`. The sheets: some written here, of every kind, with odd runs, trims, senses, ranges and sags; and the accepted ones of
`oracle gen`. Hyperbolas are asked up to 100 alone: sheets whose probes or breaks ask beyond, and such parameters, are left out."""
import math

from replay_common import INF, LEAST, MOST, NAN, NORMAL, SEPARATOR, Random, ask, beside, floats, hexes

TURN = 2 * math.pi
# Beyond every curve; no number; NaNs with other bits.
ODD = [0.0, -0.0, LEAST, -LEAST, NORMAL, -NORMAL, 1e9, -1e9, 1e300, -1e300, MOST, -MOST, INF, -INF, NAN]
ODD_NANS = ["fff8000000000000", "7ff0000000000001", "ffffffffffffffff", "7ff8000000000001"]
MALFORMED = ["", " ", "3ff", "3ff000000000000", "3ff00000000000000", "3FF0000000000000", "3ff0000000000000 ", " 3ff0000000000000",
    "3ff000000000000g", "+ff0000000000000", "0x3ff00000000000", "===", "x" * 200]  # fmt: skip


class Sheet:
    """A sheet in the making. Its first four points are the edge's two vertices and its box."""

    def __init__(self, scale=8.0):
        self.points = [(0.0, 0.0, 0.0), (scale, 0.0, 0.0), (-scale, -scale, -scale), (scale, scale, scale)]
        self.curves = []
        self.segments = []

    def row(self, kind, first, count, p=0.0, q=0.0):
        self.curves.append(f"{kind} {first} {count} {hexes(p, q)}")
        return len(self.curves) - 1

    def run(self, points):
        self.points += points
        return len(self.points) - len(points)

    def polyline(self, *points):
        return self.row("polyline", self.run(list(points)), len(points))

    def line(self, origin=(1.0, 2.0, 3.0), direction=(2.0, -1.0, 0.5)):
        return self.row("line", self.run([origin, direction]), 2)

    def conic(self, kind, p, q=0.0, axis=(0.0, 0.0, 1.0), ref=(1.0, 0.0, 0.0)):
        return self.row(kind, self.run([(1.0, -1.0, 0.25), axis, ref]), 3, p, q)

    def trim(self, base, lo, hi):
        return self.row("trimmed", base, 1, lo, hi)

    def composite(self, *segments):
        first = len(self.segments)
        self.segments += [f"{curve} {hexes(lo, hi)} {sense}" for curve, lo, hi, sense in segments]
        return self.row("composite", first, len(segments))

    def text(self, lo, hi, deflection=0.01, relative=0, scale=0.0, curve=None, sense=1, tolerance=0.0):
        """The sheet, its edge on the last row or another."""
        row = len(self.curves) - 1 if curve is None else curve
        lines = ["x y z", *(hexes(*point) for point in self.points), ""]
        lines += ["kind first count p q", *self.curves, ""]
        lines += ["curve lo hi sense", *self.segments, ""]
        lines += ["curve start end sense lo hi tolerance low high", f"{row} 0 1 {sense} {hexes(lo, hi, tolerance)} 2 3", ""]
        lines += ["deflection angle relative segments depth scale", f"{hexes(deflection, 0.14)} {relative} 1 12 {hexes(scale)}"]
        return "".join(line + "\n" for line in lines)


TRIANGLE = [(0.0, 0.0, 0.0), (4.0, 0.0, 0.0), (4.0, 3.0, 0.0)]


def bases():
    """A sheet and its last row, for every kind and its odd forms."""
    axes = {"axis": (0.0, 0.6, 0.8), "ref": (0.0, 0.8, -0.6)}
    skew = {"axis": (0.0, 2.0, 0.5), "ref": (3.0, 1.0, 0.0)}
    yield lambda s: s.line()
    yield lambda s: s.line(direction=(0.0, 0.0, 0.0))
    yield lambda s: s.line(direction=(0.0, -0.0, 2.0**-511))
    yield lambda s: s.line(direction=(0.0, 0.0, math.nextafter(2.0**-511, 1)))
    yield lambda s: s.line(origin=(1e9, -1e9, LEAST), direction=(1e9, 1e-9, -1e9))
    for frame in ({}, axes, skew):
        yield lambda s: s.conic("circle", 2.5, **frame)
        yield lambda s: s.conic("ellipse", 3.0, 1.0, **frame)
        yield lambda s: s.conic("parabola", 0.75, **frame)
        yield lambda s: s.conic("hyperbola", 1.5, 0.5, **frame)
    yield lambda s: s.conic("circle", 0.0)
    yield lambda s: s.conic("circle", -2.0)
    yield lambda s: s.conic("circle", 1e9, axis=(1e9, 0.0, 0.0), ref=(0.0, 1e9, 0.0))
    yield lambda s: s.conic("ellipse", 1.0, -4.0)
    yield lambda s: s.conic("ellipse", 0.0, 1e-9)
    yield lambda s: s.conic("hyperbola", 0.0, 1.0)
    yield lambda s: s.conic("hyperbola", -2.0, -0.0)
    yield lambda s: s.conic("hyperbola", 1e9, -1e9, axis=(1e9, 0.0, 0.0), ref=(0.0, 1e9, 0.0))
    yield lambda s: s.conic("hyperbola", 1e-43, 1e-43)
    yield lambda s: s.conic("parabola", 0.0)
    yield lambda s: s.conic("parabola", -1e9)
    for count in range(4):
        yield lambda s: s.polyline(*TRIANGLE[:count])
    yield lambda s: s.polyline(*TRIANGLE, TRIANGLE[0])
    yield lambda s: s.polyline(*TRIANGLE, (0.0, 0.0, 0.9e-10))
    yield lambda s: s.polyline(*TRIANGLE, (0.0, 0.0, 1e-10))
    yield lambda s: s.polyline(*TRIANGLE, (0.0, 0.0, 1.1e-10))
    yield lambda s: s.polyline(TRIANGLE[0], TRIANGLE[0])
    yield lambda s: s.polyline(TRIANGLE[1], TRIANGLE[1], TRIANGLE[1])
    yield lambda s: s.polyline(*[(math.cos(k * TURN / 24), math.sin(k * TURN / 24), 0.0) for k in range(24)], (1.0, 0.0, 0.0))
    yield lambda s: s.composite()


def alone():
    """Every base, over a range of its own, and within a trim, trims of trims, and a composite either way."""
    for base in bases():
        sheet = Sheet()
        base(sheet)
        yield sheet.text(0.0, 2.0)
        sheet = Sheet()
        row = base(sheet)
        sheet.trim(sheet.trim(sheet.trim(row, 0.0, TURN), 2.0, 0.5), -1.0, 1.0)
        yield sheet.text(-0.5, 0.5)
        sheet = Sheet()
        row = base(sheet)
        sheet.composite((row, 0.0, 2.0, 1), (row, 0.0, 2.0, 0), (row, 2.0, -1.0, 1), (row, 1.0, 1.0, 0))
        yield sheet.text(0.0, 4.0, deflection=0.05)


def whole_trims():
    """Trims that are about as long as a closed base: closed, or not."""
    for base in ("circle", "ellipse"):
        for extra in (0.0, 0.9e-9, 1e-9, 1.1e-9, -0.9e-9, -1.1e-9, 1e-3):
            for lo in (0.0, -math.pi):
                sheet = Sheet()
                sheet.trim(sheet.conic(base, 2.0, 1.0 if base == "ellipse" else 0.0), lo, lo + TURN + extra)
                yield sheet.text(lo, lo + 1.0)
    sheet = Sheet()
    sheet.trim(sheet.polyline(*TRIANGLE, TRIANGLE[0]), 3.0, 0.0)
    yield sheet.text(0.0, 3.0)


def nests():
    """Trims and composites in turn, to the deepest nesting there may be."""
    for base in ("line", "circle", "ellipse", "parabola", "hyperbola", "polyline"):
        for depth in range(1, 9):
            for start in (0, 1):
                sheet = Sheet()
                if base == "line":
                    row = sheet.line()
                elif base == "polyline":
                    row = sheet.polyline(*TRIANGLE, (0.0, 3.0, 1.0))
                else:
                    row = sheet.conic(base, 2.0, 1.0 if base in ("ellipse", "hyperbola") else 0.0)
                for level in range(depth):
                    if (level + start) % 2:
                        row = sheet.trim(row, 0.125 * level, 2.0)
                    else:
                        row = sheet.composite((row, 0.0, 1.5, 1), (row, 1.5, 0.25 * level, level % 2))
                yield sheet.text(0.0, 2.0)


def breaks():
    """Composites whose breaks are equal, nearly equal, in reverse order, or outside the edge's range."""
    whole = [(float(i), i + 1.0) for i in range(6)]
    lists = [
        whole, whole[::-1], [(hi, lo) for lo, hi in whole], [(1.0, 1.0)] * 4, [(0.0, 3.0)] * 3, [(2.0, 2.0 + 1e-13), (2.0 + 1e-12, 3.0)],
        [(1.0, 1.0 + 1e-9), (1.0 + 2e-9, 1.0 + 1e-8), (5.0, 1.0)], [(-1.0, 7.0)], [(0.0, 6.0), (-0.0, 6.0)], [(4.5, 0.25), (4.5, 0.75)],
        [(0.0, LEAST), (-LEAST, NORMAL)], [(k / 7, (k + 1) / 7) for k in range(30)], [(5 - k / 9, k / 9) for k in range(20)],
        [(1e9, -1e9), (3.0, 2.0)], [(k * k * 0.01, k * 0.5) for k in range(40)],
    ]  # fmt: skip
    sags = [(1e-3, 0, 0.0), (0.3, 0, 0.0), (0.01, 1, 8.0), (-1.0, 0, 0.0), (1.0, 1, NAN), (0.02, 1, INF)]
    spans = [(0.0, 6.0), (0.5, 2.5), (6.0, 0.0), (NAN, 1.0)]
    for number, ranges in enumerate(lists):
        for other, kind in enumerate(["polyline", "circle", "trim", "trim"]):
            sheet = Sheet()
            row = sheet.polyline(*TRIANGLE, (0.0, 3.0, 1.0)) if kind == "polyline" else sheet.conic("circle", 2.0)
            sheet.composite(*[(row, a, b, (number + i) % 2) for i, (a, b) in enumerate(ranges)])
            if kind == "trim":
                sheet.trim(sheet.trim(len(sheet.curves) - 1, 6.0, -1.0), 0.25, 5.75)
            yield sheet.text(*spans[(number + other) % 4], *sags[(number + 2 * other) % 6])


def edges():
    """Ranges that an edge may have: reversed, equal, not finite, past the seam, at and beyond both ends of the curve."""
    ranges = [(a, b) for a in (0.0, 2.0, -1e9) for b in (-0.0, 2.0, 3.0 + 1e-9, 7.0)] + [(NAN, 1.0), (0.0, INF), (-INF, 1.0), (1.0, NAN)]
    for kind in ("line", "circle", "parabola", "hyperbola", "trim", "polyline", "closed", "composite"):
        for lo, hi in ranges:
            sheet = Sheet()
            if kind == "line":
                sheet.line()
            elif kind == "polyline":
                sheet.polyline(*TRIANGLE, (0.0, 3.0, 1.0))
            elif kind == "closed":
                sheet.polyline(*TRIANGLE, TRIANGLE[0])
            elif kind == "composite":
                sheet.composite(*[(sheet.conic("circle", 1.0), 0.5, 1.5, 1)] * 3)
            elif kind == "hyperbola":
                sheet.conic("hyperbola", 1.0, 2.0)
            elif kind == "trim":
                sheet.trim(sheet.conic("hyperbola", 1.0, 2.0), -1.0, 2.5)
            else:
                sheet.conic(kind, 1.0)
            yield sheet.text(lo, hi, deflection=1e-3, relative=1, scale=16.0)


def refused():
    """One sheet for each refusal that a sheet can have, and what a reader can trip over."""
    good = Sheet()
    good.line()
    text = good.text(0.0, 1.0)
    beyond = Sheet(scale=1.1e9)
    beyond.line()
    upwards = Sheet()
    upwards.trim(0, 0.0, 1.0)
    deep = Sheet()
    row = deep.line()
    for _ in range(9):
        row = deep.trim(row, 0.0, 1.0)
    yield beyond.text(0.0, 1.0)
    yield good.text(0.0, 1.0, sense=2)
    yield upwards.text(0.0, 1.0)
    yield deep.text(0.0, 1.0)
    yield good.text(0.0, 1.0, curve=1)
    yield text.replace("line", "lines")
    yield text[:-1]
    yield text + "\n"
    yield ""
    # above 65,536 bytes
    large = Sheet()
    large.polyline(*[(float(i), 0.0, 0.0) for i in range(1300)])
    yield large.text(0.0, 1.0)
    # the most points that fit
    large = Sheet()
    large.polyline(*[(float(i), i * 0.5, 0.0) for i in range(1260)])
    yield large.text(0.0, 1.0)


def written():
    for kind in (alone(), whole_trims(), nests(), breaks(), edges(), refused()):
        yield from kind


def generated(seed, count):
    for text in ask(["gen", str(seed), str(count)], "").split(SEPARATOR):
        if text.endswith("\n") and not ask(["eval"], text).startswith("refusal"):
            yield text


def parameters(random, text, few):
    """Lines about the ends of the curve's own range and of the edge's usable one, and anywhere."""
    said = {line.split()[0]: line.split()[1:] for line in ask(["eval"], text).splitlines() if " " in line}
    ends = floats(said.get("natural", [])) + (floats(said["usable"]) if len(said.get("usable", [])) == 2 else [])
    ends = ends or [0.0, 1.0]
    lo, hi = ends[-2:]
    inside = [lo + (hi - lo) * random.unit() for _ in range(6)] + [float(i) for i in range(-1, 5)]
    near = [y for x in ends for y in beside(x)] + [x + d for x in ends for d in (-1.0, 1.0, 1e-9)]
    if few:
        chosen = [random.of(inside), random.of(near), random.of(near), random.of(ODD)]
    else:
        chosen = inside + near + ODD
    hyperbola = "\nhyperbola " in text
    if hyperbola:
        # nothing asks one for NaN
        chosen = [x for x in chosen if x == x]
        chosen += [random.of([100.0, -100.0, *beside(100.0)]), 200 * random.unit() - 100, 10 * random.unit() - 5]
    lines = [hexes(x) for x in chosen]
    if random.below(20) == 0:
        lines += [random.of(MALFORMED), random.of(ODD_NANS)][: 1 if hyperbola else 2]
    return "".join(line + "\n" for line in lines)


def answered(text, lines):
    """A part and its answer, with those of the lines that no hyperbola is asked beyond 100 for; none where there is no such line, or
    its probes or breaks ask so."""
    said = ask(["eval"], text + SEPARATOR + lines).splitlines(keepends=True)
    places = [place for place, line in enumerate(said) if line.startswith("at ") or line == "?\n"]
    if said[0] == "refusal\n":
        return f"{text}parameters\n{lines}", "".join(said)
    head = said[: places[0]]
    pieces = [said[a:b] for a, b in zip(places, [*places[1:], len(said)])]
    kept = [pair for pair in zip(lines.splitlines(keepends=True), pieces, strict=True) if not pair[1][-1].startswith("beyond ")]
    if not kept or any(line.startswith("beyond ") for line in head):
        return None
    values = "".join(line for line in head if not line.startswith("sampled "))
    return f"{text}parameters\n{''.join(line for line, _ in kept)}", values + "".join("".join(piece) for _, piece in kept)


def parts(seed, count):
    """The sheets written here, and the accepted ones of so many generated."""
    random = Random(seed)
    sheets = [(text, number % 20 > 0) for number, text in enumerate(written())] + [(text, True) for text in generated(seed, count)]
    pairs = [(text, parameters(random, text, few)) for text, few in sheets]
    # the malformed lines all at once
    pairs[-1] = (pairs[-1][0], "".join(line + "\n" for line in [*MALFORMED, hexes(1.0)]))
    return [pair for pair in (answered(*pair) for pair in pairs) if pair]


def stored():
    return parts(1, 300)
