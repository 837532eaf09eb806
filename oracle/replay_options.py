"""Parts `options` for crates/replay, and the answers of `oracle resolve`: presets; each option at each of its boundary values; all
options at random; presets by their names, and angles in degrees; lines that a reader can trip over."""
import math

from replay_common import INF, LEAST, MOST, NAN, NORMAL, Random, ask, beside, hexes

ODD = [0.0, -0.0, LEAST, -LEAST, NORMAL, -NORMAL, MOST, -MOST, INF, -INF, NAN]
EIGHT_DEGREES = 8 * (math.pi / 180)
DEFLECTIONS = ODD + [1e-4, 4e-4, 1e-2, 1.0, -1.0, 1e9, *beside(NORMAL), *beside(NORMAL / 2)]
ANGLES = ODD + [8.0, 0.14, EIGHT_DEGREES, 1.0, -1.0, 1e-3, *beside(1e-4), *beside(math.pi), *beside(1e-3)]
RELATIVES = [0, 1]
SEGMENTS = [0, 1, 2, 3, 9, 10, 99, 2**32 - 1, 2**32, 10**19, 2**63, 2**64 - 1]
DEPTHS = [0, 1, 2, 12, 23, 24, 25, 2**31, 2**32 - 1]
SCALES = ODD + [1.0, -1.0, 1e3, 1e-3, 250.0, 1e9]
TOTALS = ODD + [2 * math.pi, math.pi / 2, -math.pi / 2, 1e-3, 1.0, 1e15, 1e300, 2.0**64, *beside(2.0**53 * 1e-3)]
DEGREES = ODD + [1.0, -1.0, 4.0, 8.0, 35.0, 90.0, *beside(180.0), 360.0, -360.0, *beside(180 / math.pi), 1e300]
# about the least angle, 1e-4, and about 8 radians; 180 above is about the largest
DEGREES += [y for x in (1e-4 * 180 / math.pi, 8 * 180 / math.pi) for y in beside(x)]
NAMES = ["default", "draft", "fine"]
PRESETS = [(4e-4, EIGHT_DEGREES), (1e-2, 35 * (math.pi / 180)), (1e-4, 4 * (math.pi / 180))]


def first_line(deflection, angle, relative, segments, depth, scale):
    return f"{hexes(deflection, angle)} {relative} {segments} {depth} {hexes(scale)}"


def arcs(random, deflection, relative, scale):
    """Lines about the sizes at which the answers turn: the extents where the proportion is held to 0.5 and to 2, and
    radii about the sag."""
    usable = 0 < scale < INF
    sag = deflection * scale if relative and usable else deflection
    model = scale if usable else 1.0
    extents = ODD + [1.0, -1.0] + [y for k in (0.125, 0.25, 1, 4) for y in beside(model * k)]
    radii = ODD + [1.0, -1.0, 1e6, random.size(-6, 6)]
    radii += [y for k in (0.5, 1, 2, 1e3, 1e7) for y in beside(sag * k)] + [-2 * sag]
    sizes = [model * 10.0**k for k in range(-3, 4)]
    for _ in range(14):
        extent = random.of(extents if random.below(2) else sizes)
        yield hexes(extent, random.of(radii), random.of(TOTALS))
    for _ in range(4):
        yield hexes(random.size(-3, 3), random.size(-4, 4), random.size(-3, 1))


def group(random, options):
    return [first_line(*options), *arcs(random, options[0], options[2], options[5])]


def presets():
    for deflection, angle in PRESETS:
        for scale in (0.0, 1.0, 250.0, 1e6):
            for relative in (0, 1):
                yield deflection, angle, relative, 1, 12, scale


def boundaries():
    """One option at a time at each of its values, with a scale and without."""
    for scale in (0.0, 64.0):
        usual = [4e-4, EIGHT_DEGREES, 1, 1, 12, scale]
        for place, values in enumerate([DEFLECTIONS, ANGLES, RELATIVES, SEGMENTS, DEPTHS]):
            for value in values:
                yield (*usual[:place], value, *usual[place + 1 :])
    for scale in SCALES:
        for relative in (0, 1):
            yield 4e-4, EIGHT_DEGREES, relative, 1, 12, scale


def mixed(random, count):
    for _ in range(count):
        deflection = random.of(DEFLECTIONS) if random.below(3) == 0 else random.size(-6, 1)
        angle = random.of(ANGLES) if random.below(3) == 0 else random.size(-3, 0)
        scale = random.of(SCALES) if random.below(3) == 0 else random.size(-3, 6)
        yield deflection, angle, random.below(2), random.of(SEGMENTS), random.of(DEPTHS), scale


def named(random):
    for name, (deflection, _) in zip(NAMES, PRESETS):
        yield [name, *arcs(random, deflection, 1, 0.0)]
    degrees = [*DEGREES, *(random.size(-4, 4) for _ in range(40))]
    yield ["fine", *(f"degrees {hexes(x)}" for x in degrees)]


def malformed():
    good = first_line(4e-4, EIGHT_DEGREES, 1, 1, 12, 64.0)
    arc = hexes(64.0, 1.0, 1.0)
    one = hexes(1.0)
    firsts = [
        "", " ", "?", "===", "=====", good[1:], good + " ", " " + good, good[:-1], good + "0", good.upper(), good + " 1",
        good.replace(" 12 ", " 012 "), good.replace(" 12 ", "  12 "), good.replace(" 12 ", " +12 "), good.replace(" 12 ", " -1 "),
        good.replace(" 12 ", "  "), good.replace(" 12 ", " 4294967296 "), good.replace(" 1 1 ", " 4294967296 1 "),
        good.replace(" 1 1 ", " 1 18446744073709551616 "), good.replace(" 1 1 ", " 1 99999999999999999999 "),
        good.replace(" 1 1 ", " 1 1 1 "), good.replace(" ", "\t"), arc, "x" * 127, "x" * 128, "x" * 70000, good + " " * 40,
    ]  # fmt: skip
    for first in firsts:
        yield [first, arc]
    yield [
        good, arc, "", arc[1:], arc + "0", arc + " ", " " + arc, arc.upper(), f"{one} {one}", f"{one} {one} {one} {one}",
        f"{one}  {one} {one}", f"{one} {one} 3ff000000000000g", "=", "x" * 127, "x" * 128, "x" * 70000, arc + "\0", good, arc,
    ]  # fmt: skip
    yield [good]
    for first in ("Default", "default ", " default", "defaul", "fine fine", f"degrees {one}"):
        yield [first, arc]
    yield [good, "degrees", "degrees ", f"degrees  {one}", f"degrees {one} ", f"Degrees {one}", f"degrees {one} {one}", "fine", arc]


def parts(seed, count):
    """All of those, so many of them at random."""
    random = Random(seed)
    groups = [group(random, options) for kind in (presets(), boundaries(), mixed(random, count)) for options in kind]
    groups += [*named(random), *malformed()]
    texts = ["".join(line + "\n" for line in lines) for lines in groups]
    return [(text, ask(["resolve"], text)) for text in texts]


def stored():
    return parts(1, 150)
