"""What of an accepted sheet looks like a slip before anything is drawn: the row and the name of the value, which are its place, and
what to say of it. In plain floats, for reading alone."""
import math

from curves import FARTHEST, TAU, cross, dot, minus
from sheets import ROUND, bits

# A vector that is longer or shorter than 1, or further from the perpendicular, by this is no slip of rounding.
FRAME_SLACK = 1e-6
# The parameters that a hyperbola is asked for.
NEAR = f"{-FARTHEST:g} to {FARTHEST:g}"
# A place is off by a slip where it is off by ten tolerances, which drawing reckons with, and by this part of the size.
PLACE_SLACK = 1e-6


def num(value):
    return f"{value:.6g}"


def with_bits(value):
    return f"{num(value)} ({bits(value)})"


def in_radians(degrees):
    """What a number would be if it were meant as degrees."""
    return f"{num(degrees)} degrees are {with_bits(math.radians(degrees))}"


def slips(drawing):
    """All of them, of the rows that the edge's curve is made of."""
    yield from option_slips(drawing)
    yield from box_slips(drawing)
    rows, segments = drawing.curves.reached(drawing.index)
    for at, row in rows.items():
        yield from shape_slips(drawing, at, row)
        if row["kind"] == "trimmed":
            yield from range_slips(drawing, f"curve {at}", row, ("p", "q"), row["first"])
    for at, row in segments.items():
        yield from range_slips(drawing, f"segment {at}", row, ("lo", "hi"), row["curve"])
    yield from range_slips(drawing, "the edge", drawing.edge, ("lo", "hi"), drawing.index)
    yield from edge_slips(drawing)


# Options and the box


def option_slips(drawing):
    options, deflection, scale = drawing.options, drawing.options["deflection"], drawing.options["scale"]
    yield from angle_slips(options, options["angle"])
    if not deflection > 0:
        yield options, "deflection", none_near(deflection)
    if options["relative"] == 1 and not drawing.has_scale():
        yield options, "scale", f"relative is 1 and scale is {scale!r}, which is none: the deflection counts as a length"
    elif options["relative"] == 1 and deflection > 0.1:
        told = f"deflection is {num(deflection)} and relative is 1: {num(deflection * scale)} of a size of {num(scale)}"
        yield options, "deflection", told
    if options["depth"] != drawing.depth:
        yield options, "depth", f"depth is {options['depth']} and counts as {drawing.depth}"


def angle_slips(options, angle):
    if angle > math.pi:
        yield options, "angle", f"angle is {num(angle)} radians and is clamped to pi; {in_radians(angle)}"
    elif angle < 1e-4:
        yield options, "angle", f"angle is {num(angle)} radians and is raised to 1e-4"
    elif angle > math.pi / 2:
        yield options, "angle", f"angle is {num(angle)} radians, {math.degrees(angle):.0f} degrees; {in_radians(angle)}"


def none_near(deflection):
    return f"deflection is {num(deflection)}: no chord is near enough, and the depth alone ends the halving"


def box_slips(drawing):
    edge, low, high = drawing.edge, drawing.low, drawing.high
    exchanged = ", ".join(axis for axis, a, b in zip("xyz", low, high) if a > b)
    unrepaired = "a chain that runs away is not repaired"
    if exchanged:
        yield edge, "low", f"the box's low corner lies above its high one in {exchanged}: exchanged? So {unrepaired}"
    elif drawing.diagonal == 0:
        yield edge, "low", f"the box has no size: {unrepaired}"
    else:
        slack = max(10 * edge["tolerance"], PLACE_SLACK * drawing.diagonal)
        for name, vertex in (("start", drawing.start), ("end", drawing.end)):
            outside = max(max(a - x, x - b) for a, x, b in zip(low, vertex, high))
            if outside > slack:
                yield edge, name, f"the {name} vertex lies {num(outside)} outside the box"


# Curves


def shape_slips(drawing, at, row):
    kind = row["kind"]
    if kind == "polyline" and row["count"] < 2:
        yield row, "count", f"curve {at} is a polyline of {row['count']} points"
    elif kind == "composite":
        yield from composite_slips(drawing, at, row)
    elif kind == "line" and not any(drawing.curves.run(row)[1]):
        yield point_row(drawing, row, 1), "x", f"the direction of curve {at} has no length"
    elif kind in (*ROUND, "parabola", "hyperbola"):
        for name in "pq" if kind in ("ellipse", "hyperbola") else "p":
            if row[name] == 0:
                yield row, name, f"{name} of curve {at} is 0: the {kind} has no width"
            elif row[name] < 0:
                yield row, name, f"{name} of curve {at} is {num(row[name])}, below zero: it is taken as it is, and turns the {kind} round"
        yield from frame_slips(drawing, at, row)


def point_row(drawing, row, offset):
    return drawing.curves.sheet.points[row["first"] + offset]


def composite_slips(drawing, at, row):
    """No segments, or two that do not meet."""
    if row["count"] == 0:
        yield row, "count", f"curve {at} is a composite of 0 segments"
    first, segments = row["first"], drawing.curves.sheet.segments[row["first"] : row["first"] + row["count"]]
    slack = max(10 * drawing.edge["tolerance"], PLACE_SLACK * max(drawing.extent(), drawing.diagonal))
    for i, (one, other) in enumerate(zip(segments, segments[1:]), first):
        gap = math.dist(drawing.curves.segment_point(one, 1.0), drawing.curves.segment_point(other, 0.0))
        if gap > slack:
            yield other, "lo", f"segment {i + 1} begins {num(gap)} from where segment {i} ends"


def frame_slips(drawing, at, row):
    axis, ref_dir = drawing.curves.run(row)[1:]
    lengths = math.hypot(*axis), math.hypot(*ref_dir)
    for offset, name, size in zip((1, 2), ("axis", "ref_dir"), lengths):
        if abs(size - 1) > FRAME_SLACK:
            yield point_row(drawing, row, offset), "x", f"the {name} of curve {at} has length {num(size)}, and should have 1"
    if all(lengths):
        cosine = min(max(dot(axis, ref_dir) / lengths[0] / lengths[1], -1.0), 1.0)
        if abs(cosine) > FRAME_SLACK:
            told = f"the ref_dir of curve {at} is {math.degrees(math.acos(cosine)):.4g} degrees from its axis, and should be 90"
            yield point_row(drawing, row, 2), "x", told


# Ranges


def range_slips(drawing, title, row, names, index):
    """A range that goes more than once round, past the end of a polyline or a composite, or too far along a hyperbola."""
    lo, hi = row[names[0]], row[names[1]]
    under, period = drawing.curves.base(index), drawing.curves.period(index)
    if not (math.isfinite(lo) and math.isfinite(hi)):
        return
    if period and abs(hi - lo) > period * (1 + 1e-9):
        degrees = f"; in degrees? {in_radians(hi)}" if under["kind"] in ROUND else ""
        yield row, names[1], f"{title} goes {abs(hi - lo) / period:.4g} times round the {under['kind']}{degrees}"
    elif not period and under["kind"] in ("polyline", "composite"):
        last = under["count"] - (under["kind"] == "polyline")
        for name in names:
            if not -1e-9 * last <= row[name] <= last * (1 + 1e-9):
                yield row, name, f"{name} of {title} is {num(row[name])}, past the ends of the {under['kind']}, 0 and {last}"
    elif under["kind"] == "hyperbola" and row is drawing.edge:
        yield from too_far_slips(drawing)
    elif under["kind"] == "hyperbola":
        for name in names:
            if abs(row[name]) > FARTHEST:
                yield row, name, f"{name} of {title} is {row[name]!r}, and a hyperbola is asked for {NEAR} alone"


def too_far_slips(drawing):
    """The ends of the edge's own range that lie too far along a hyperbola, after its trim has cut them; a range that is lost is not
    asked for at all."""
    edge, given, ends = drawing.edge, (drawing.edge["lo"], drawing.edge["hi"]), drawing.curves.natural(drawing.index)
    if drawing.curves.lost(*given):
        return
    # Where an end is cut to just beyond the trim's, the trim's own is near enough, but that the last place may round beyond.
    lo, hi = (end if used != own else own for own, used, end in zip(given, drawing.range, ends))
    fits = lo, hi if abs(lo + (hi - lo)) <= FARTHEST else math.nextafter(hi, lo)
    for name, own, used, end, fit in zip(("lo", "hi"), given, drawing.range, ends, fits):
        told = f"{name} of the edge is {own!r}"
        if abs(used) <= FARTHEST:
            continue
        if used != own and abs(end) <= FARTHEST:
            told += f" and is cut to {used!r}, a billionth of the trim's span beyond its end"
            yield edge, name, f"{told}, and a hyperbola is asked for {NEAR} alone; {fit!r} would do{at_vertices(drawing)}"
        else:
            yield edge, name, f"{told}, and a hyperbola is asked for {NEAR} alone{at_vertices(drawing)}"


def edge_slips(drawing):
    """A range that is lost or cut, and vertices off the ends of what is drawn."""
    edge, row, lo, hi = drawing.edge, drawing.row, drawing.edge["lo"], drawing.edge["hi"]
    if drawing.curves.lost(lo, hi):
        yield edge, "lo", lost_range(drawing)
        if drawing.range is None or row["kind"] in (*ROUND, "hyperbola"):
            return
    if drawing.base["kind"] == "hyperbola" and max(map(abs, drawing.range)) > FARTHEST:
        return
    if row["kind"] == "trimmed" and not drawing.curves.lost(lo, hi) and drawing.range != (lo, hi):
        yield edge, "lo", cut_range(drawing)
    yield from tolerance_slips(drawing)
    gap = drawing.off_ends(drawing.range)
    if gap > max(10 * edge["tolerance"], PLACE_SLACK * max(drawing.extent(), drawing.diagonal)):
        ends = " and ".join(map(num, drawing.range))
        meant = at_vertices(drawing) if drawing.base["kind"] == "hyperbola" else ""
        yield edge, "start", f"the vertices lie {num(gap)} off the curve's points at {ends}; the chain ends at them all the same{meant}"


def cut_range(drawing):
    """What is left of a range that runs past its trim, each end that is cut by the trim's own, to a billionth."""
    lo, hi = drawing.edge["lo"], drawing.edge["hi"]
    ends = zip((lo, hi), drawing.range, drawing.curves.natural(drawing.index))
    left = " to ".join(num(own if used == own else end) for own, used, end in ends)
    runs = f"the trim runs from {num(drawing.row['p'])} to {num(drawing.row['q'])}, and a billionth of its span beyond"
    return f"the range {num(lo)} to {num(hi)} is cut to {left}: {runs}"


def tolerance_slips(drawing):
    """A tolerance that says nothing, or that merges as much as any may."""
    tolerance = drawing.edge["tolerance"]
    if tolerance < 0:
        yield drawing.edge, "tolerance", f"tolerance is {num(tolerance)}, below zero: nothing is merged"
    elif tolerance > drawing.sag:
        told = f"tolerance is {num(tolerance)}, above the sag of {num(drawing.sag)}: points within half the sag of each other become one"
        yield drawing.edge, "tolerance", told


def lost_range(drawing):
    """What is drawn for a range that is lost, and what may have been meant."""
    lo, hi = drawing.edge["lo"], drawing.edge["hi"]
    how = "reversed" if hi < lo else "empty" if hi == lo else "lost"
    told = f"the range {lo!r} to {hi!r} is {how}: "
    if drawing.range is None:
        return told + "the straight line between the vertices is drawn"
    if drawing.base["kind"] == "hyperbola" and max(map(abs, drawing.range)) > FARTHEST:
        own = f"the curve's own, {num(drawing.range[0])} to {num(drawing.range[1])}, would be drawn"
        return told + f"{own}, and a hyperbola is asked for {NEAR} alone{at_vertices(drawing)}"
    if drawing.row["kind"] not in ROUND:
        return told + f"the curve's own is drawn, {num(drawing.range[0])} to {num(drawing.range[1])}"
    told += f"the whole {drawing.row['kind']} is drawn, {num(drawing.length(drawing.range))} long"
    arcs = vertex_arcs(drawing)
    if arcs:
        (shorter, (a, b)), (longer, _) = arcs
        told += f"; between the vertices the arcs are {num(shorter)} and {num(longer)} long"
        told += f", the shorter from {with_bits(a)} to {with_bits(b)}"
    return told


def in_strict_mode(drawing):
    """What else could be had where the range of a parabola or a hyperbola is lost; nothing of a trim of one, which has a range of its
    own."""
    if drawing.row["kind"] not in ("parabola", "hyperbola"):
        return ""
    return "; in strict mode, which a caller of the library can ask for, the straight line between the vertices is drawn"


def at_vertices(drawing):
    """Where on the edge's hyperbola its vertices lie, to be said behind what is wrong with its range; nothing where they lie on none."""
    origin, axis, ref_dir = drawing.curves.run(drawing.base)
    side, q = cross(axis, ref_dir), drawing.base["q"]
    square = q * dot(side, side)
    if drawing.start == drawing.end or not square:
        return ""
    range_ = sorted(math.asinh(dot(minus(vertex, origin), side) / square) for vertex in (drawing.start, drawing.end))
    slack = max(10 * drawing.edge["tolerance"], PLACE_SLACK * max(drawing.diagonal, math.dist(drawing.start, drawing.end)))
    if max(map(abs, range_)) > FARTHEST or not drawing.off_ends(range_) <= slack:
        return ""
    return f"; the vertices lie at {with_bits(range_[0])} and {with_bits(range_[1])}"


def vertex_arcs(drawing):
    """The two arcs of a circle or an ellipse between the vertices, the shorter first: length and range. None where it has no width
    or the vertices are one."""
    row = drawing.row
    origin, axis, ref_dir = drawing.curves.run(row)
    p, q = row["p"], row["q"] if row["kind"] == "ellipse" else row["p"]
    if drawing.start == drawing.end or not p or not q:
        return None
    side, away = cross(axis, ref_dir), (minus(vertex, origin) for vertex in (drawing.start, drawing.end))
    a, b = (math.atan2(dot(v, side) / q, dot(v, ref_dir) / p) % TAU for v in away)
    ranges = [(s, t if t > s else t + TAU) for s, t in ((a, b), (b, a))]
    return sorted((drawing.length(range_), range_) for range_ in ranges)
