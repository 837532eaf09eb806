"""What the program's answer tells: how a chain was got and how far it lies from its curve, or where a refusal 8, 9 or 11 comes
from. In plain floats, for reading alone."""
import bisect
import math

from curves import FARTHEST, TAU, length, off_chord, steps
from sheets import ROUND
from slips import NEAR, at_vertices, in_radians, in_strict_mode, lost_range, none_near, num, range_slips, with_bits

# The points that each of the program's two buffers has room for.
ROOM = 2048
# A chain that is shorter than its curve by this part is told: 35 degrees, a draft's, leave 1.6 %.
SHORTER = 0.02
# The ways of README.md, and what they draw.
WAYS = {
    "AsDrawn": "as drawn",
    "Chord": "the straight line between the vertices, for want of a range",
    "Complement": "the rest of the curve, since the range's own part leaves the box",
    "ShortArc": "the arc nearest to the vertices, since the range's own part leaves the box",
    "Runaway": "the straight line between the vertices, since nothing on the curve stays near the box",
}


class Chain:
    """The points and parameters of a listing."""

    def __init__(self, rows):
        self.points = [(row["x"], row["y"], row["z"]) for row in rows]
        self.params = [row["t"] for row in rows]
        self.ends = rows[0].text["t"], rows[-1].text["t"]
        self.length = length(self.points)
        # Less than this is not told from the rounding of sines and of coordinates.
        self.rounding = 1e-12 * max(abs(x) for point in self.points for x in point)
        self.rising = [abs(t - self.params[0]) for t in self.params]

    def runs_over(self, range_):
        """Whether these are the ends of a range; the last of even steps may be off by a rounding."""
        lo, hi = range_ or (math.nan, math.nan)
        return sorted((self.params[0], self.params[-1])) in (sorted((lo, hi)), sorted((lo, lo + (hi - lo))))

    def chord(self, t):
        """The number of the chord that a parameter falls on."""
        at = bisect.bisect_right(self.rising, abs(t - self.params[0])) - 1
        return min(max(at, 0), len(self.points) - 2)

    def off(self, p, t, enough):
        """How far a point of the curve lies from the chain; where it is near enough, from the chord of its parameter."""
        at = self.chord(t)
        near = off_chord(p, *self.points[at : at + 2])
        return near if near <= enough else min(map(off_chord, [p] * len(self.points), self.points, self.points[1:]))


def way(drawing, chain):
    """How a chain was got, as its parameters tell, and the range that it runs over; none for a straight line."""
    lo, hi = drawing.edge.text["lo"], drawing.edge.text["hi"]
    period = drawing.curves.period(drawing.index)
    rest = (drawing.edge["hi"], drawing.edge["lo"] + period) if period else None
    if drawing.range is None and chain.ends == (lo, hi):
        return "Chord", None
    if chain.runs_over(drawing.range):
        return "AsDrawn", drawing.range
    if chain.ends == (lo, lo) and len(chain.points) == 2:
        return "Runaway", None
    if chain.runs_over(rest):
        return "Complement", rest
    return "ShortArc", (chain.params[0], chain.params[-1])


def drawn(drawing, chain):
    """What looks like a slip in a chain, as `slips` has it, and what else there is to say of the chain."""
    how, range_ = way(drawing, chain)
    found, summary = [], f"{len(chain.points)} points, {num(chain.length)} long, {WAYS[how]}"
    if how not in ("AsDrawn", "Chord"):
        found.append((drawing.edge, "lo", f"repaired: {WAYS[how]}; is the range right, and the box?"))
    if range_:
        worst, t, count = farthest(drawing, chain, range_)
        curve = drawing.length(range_)
        summary += f"; the curve is {num(curve)} long"
        summary += f"; {count} of its own points lie within {num(worst)} of the chain (sag {num(drawing.sag)})"
        if worst > drawing.sag * (1 + 1e-6) + chain.rounding:
            found.append(missed(drawing, chain, range_, worst, t))
        if chain.length < curve * (1 - SHORTER):
            found.append(too_short(drawing, chain, curve))
    return found, summary


def farthest(drawing, chain, range_):
    """Of the curve's own points the one that lies farthest from the chain: how far, its parameter, and how many there are."""
    places = drawing.curves.own_places(drawing.index, range_, 8)
    worst, t = max((chain.off(drawing.at(t), t, drawing.sag), t) for t in places)
    return worst, t, len(places)


def too_short(drawing, chain, curve):
    shorter = f"the chain is {100 * (1 - chain.length / curve):.2f} % shorter than its curve, {num(chain.length)} of {num(curve)}"
    asked = f"the sag is {num(drawing.sag)}, the edge {num(drawing.extent())} in size, and the angle {in_degrees(drawing.angle)}"
    return drawing.options, "angle" if drawing.angle > math.pi / 2 else "deflection", f"{shorter}; {asked}"


def in_degrees(angle):
    return f"{math.degrees(angle):.4g} degrees"


def missed(drawing, chain, range_, worst, t):
    """Why a chain misses its curve at a parameter: its ends were moved, the depth was spent, or halving looked elsewhere."""
    kind, sag, options = drawing.base["kind"], drawing.sag, drawing.options
    times = f"{worst / sag:.3g} times" if worst < 1e6 * sag else "far more than"
    told = f"the curve's point at {num(t)} lies {num(worst)} from the chain, {times} the sag of {num(sag)}"
    at = chain.chord(t)
    a, b = chain.params[at : at + 2]
    middle = off_chord(drawing.at(0.5 * (a + b)), drawing.at(a), drawing.at(b))
    if at in (0, len(chain.points) - 2) and middle <= sag and drawing.off_ends(range_) > sag:
        return drawing.edge, "start", f"{told}: the chain's ends were moved to the vertices"
    # Of a polyline's samples some are dropped, so that a chord's middle tells nothing; its width may.
    spent = abs(b - a) <= 1.001 * abs(range_[1] - range_[0]) / 2**drawing.depth
    if spent or kind != "polyline" and middle > 1.5 * sag and len(chain.points) - 1 != drawing.segments:
        return options, "depth", f"{told}: the depth of {drawing.depth} ended first; {more_depth(drawing, max(middle, worst))}"
    if kind in ("polyline", "composite"):
        pieces = f"{drawing.base['count'] - 1} legs" if kind == "polyline" else f"{drawing.base['count']} segments"
        return drawing.edge, "lo", f"{told}: halving met no corner there; an edge for each of its {pieces} would"
    return options, "deflection", told


def more_depth(drawing, off):
    """The depth that may do: with each halving a chord lies four times as near, at a corner twice."""
    each = 1 if drawing.base["kind"] in ("polyline", "composite") else 2
    halvings = math.ceil((math.log2(off) - math.log2(drawing.sag)) / each)
    more = min(24, drawing.depth + max(1, halvings))
    return f"{more} may reach it" if more > drawing.depth else "24 is the most"


# Refusals that come with drawing


def no_room(drawing):
    """Where refusal 8 comes from: the row, the name of the value, and why."""
    options, edge, kind = drawing.options, drawing.edge, drawing.base["kind"]
    if drawing.segments >= ROOM:
        return options, "segments", f"segments is {drawing.segments}, and the program has room for {ROOM} points"
    if not options["deflection"] > 0:
        return options, "deflection", none_near(options["deflection"])
    if drawing.range and kind in ROUND:
        radius, step, segments = drawing.arc()
        if segments >= ROOM:
            return arc_too_long(drawing, radius, step, segments)
    if drawing.range and kind == "parabola" and drawing.curves.lost(edge["lo"], edge["hi"]):
        lo, hi = map(num, drawing.range)
        return edge, "lo", f"the range is lost, and the parabola is drawn from {lo} to {hi}{in_strict_mode(drawing)}"
    told = f"a sag of {num(drawing.sag)} and an angle of {in_degrees(drawing.angle)} ask for more than {ROOM} points"
    return options, "deflection", f"{told}, here or where a chain that leaves its box is repaired; coarser ones, or less depth"


def arc_too_long(drawing, radius, step, segments):
    """A circle or an ellipse that asks for too many points by its range, its angle or its sag."""
    span = abs(drawing.range[1] - drawing.range[0])
    told = f"{segments + 1} points, and the program has room for {ROOM}"
    if span > TAU * (1 + 1e-9):
        turns = f"the range goes {span / TAU:.4g} times round the {drawing.base['kind']}"
        return drawing.edge, "hi", f"{turns}, with {told}; in degrees? {in_radians(drawing.edge['hi'])}"
    fits = span / (ROOM - 1)
    if step >= drawing.angle:
        asks = f"an angle of {num(drawing.angle)} asks for {told}"
        return drawing.options, "angle", f"{asks}; {with_bits(fits * 1.001)} would do"
    # The sag grows as the deflection does.
    deflection = drawing.options["deflection"] * radius * (1 - math.cos(fits / 2)) * 1.01 / drawing.sag
    asks = f"a sag of {num(drawing.sag)} on a radius of {num(radius)} asks for {told}"
    return drawing.options, "deflection", f"{asks}; a deflection of {with_bits(deflection)} would do"


def endless(drawing):
    """Where refusal 9 comes from: the row, the name of the value, and why."""
    points = drawing.curves.run(drawing.base)
    nearest = min((gap for gap in map(math.dist, points, points[1:]) if gap > 0), default=0.0)
    away = max(map(math.hypot, *zip(*points))) if points else 0.0
    told = f"points of this polyline lie {num(nearest)} apart and {num(away)} from the origin"
    told += f", where floats are {num(math.ulp(away))} apart: a span of them turns, and no point of it lies off its chord"
    return drawing.base, "first", f"{told}; fewer points, or the part nearer to the origin"


def too_far(drawing):
    """Where refusal 11 comes from: the row, the name of the value, and why."""
    edge, row, range_ = drawing.edge, drawing.row, drawing.range or ()
    if drawing.base["kind"] != "hyperbola":
        return in_segments(drawing)
    lost = drawing.curves.lost(edge["lo"], edge["hi"])
    if lost and row["kind"] == "hyperbola":
        return edge, "lo", lost_range(drawing) + in_strict_mode(drawing)
    beyond = [t for t in (*range_, *(steps(range_, 8) if range_ else ())) if abs(t) > FARTHEST]
    if not beyond:
        own = " to ".join(map(num, drawing.curves.natural(drawing.index)))
        told = f"the chain leaves its box, and is looked for on all of the curve, {own}; a hyperbola is asked for {NEAR} alone"
        return edge, "lo", f"{told}{at_vertices(drawing)}; is the range right, and the box?"
    # The range is the edge's, or where that is lost its trim's.
    title, place, names = (f"curve {drawing.index}", row, ("p", "q")) if lost else ("the edge", edge, ("lo", "hi"))
    for found in range_slips(drawing, title, place, names, drawing.index):
        return found
    return place, names[1], rounded(*range_, title if lost else "the range", names)


def rounded(lo, hi, title, names=("lo", "hi")):
    """Of a range that ends within what a hyperbola is asked for, and whose last place does not."""
    last = "{0} + ({1} - {0})".format(*names)
    return f"the last place of {title}, {last}, rounds to {lo + (hi - lo)!r}; a hyperbola is asked for {NEAR} alone"


def in_segments(drawing):
    """The first segment that has too far a range on a hyperbola."""
    curves = drawing.curves
    for at, segment in sorted(curves.reached(drawing.index)[1].items()):
        if curves.base(segment["curve"])["kind"] == "hyperbola":
            lo, hi, title = segment["lo"], segment["hi"], f"segment {at}"
            for found in range_slips(drawing, title, segment, ("lo", "hi"), segment["curve"]):
                return found
            if abs(lo + (hi - lo)) > FARTHEST:
                return segment, "hi", rounded(lo, hi, title)
    return drawing.edge, "lo", f"a hyperbola that this curve is made of is asked for {NEAR} alone"
