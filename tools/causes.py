"""The causes 2 to 6 for which a sheet is turned away, each with the place that has it. 1 and 7 no sheet can have; 8, 9 and 11 come
with drawing; 10 is sheets.read's. The program decides: tools/test-explain holds this reading to it."""
import math

MOST_MAGNITUDE = 1e9
MOST_NESTING = 8
COUNTS = {"line": 2, "circle": 3, "ellipse": 3, "parabola": 3, "hyperbola": 3, "trimmed": 1}
USES = {"circle": "p", "parabola": "p", "ellipse": "pq", "hyperbola": "pq", "trimmed": "pq"}
SENSE = "1 is along the range, 0 against it"


def causes(sheet):
    """Each cause that applies: its number, the row and the name of the value, and what is wrong. Where there is a 3, references are
    not followed for 4 and 5."""
    yield from ((2, *found) for found in unbounded(sheet))
    malformed = list(ill_formed(sheet))
    yield from ((3, *found) for found in malformed)
    if not malformed:
        upwards = list(unordered(sheet))
        yield from ((4, *found) for found in upwards)
        if not upwards:
            yield from ((5, *found) for found in too_deep(sheet))
    yield from ((6, *found) for found in missing(sheet))


def titled(sheet):
    """Every row, with what it is called."""
    for title, rows in (("point", sheet.points), ("curve", sheet.curves), ("segment", sheet.segments)):
        yield from ((row, f"{title} {at}") for at, row in enumerate(rows))
    yield sheet.edge, "the edge"
    yield sheet.options, "the options"


def unbounded(sheet):
    may_be_lost = {(id(sheet.edge), "lo"), (id(sheet.edge), "hi"), (id(sheet.options), "scale")}
    for row, title in titled(sheet):
        for name, value in row.value.items():
            if not isinstance(value, float) or abs(value) <= MOST_MAGNITUDE:
                continue
            if math.isfinite(value):
                yield row, name, f"{name} of {title} is {value!r}, and {MOST_MAGNITUDE:g} is the most"
            elif (id(row), name) not in may_be_lost:
                yield row, name, f"{name} of {title} is {value!r}, and it must be finite"


def ill_formed(sheet):
    for at, row in enumerate(sheet.curves):
        yield from ill_formed_row(sheet, at, row)
    for at, row in enumerate(sheet.segments):
        if row["curve"] >= len(sheet.curves):
            yield row, "curve", f"segment {at} is on curve {row['curve']}, and there are {counted(sheet.curves)}"
        if row["sense"] > 1:
            yield row, "sense", f"sense of segment {at} is {row['sense']}: {SENSE}"
    if sheet.edge["sense"] > 1:
        yield sheet.edge, "sense", f"sense of the edge is {sheet.edge['sense']}: {SENSE}"
    if sheet.options["relative"] > 1:
        yield sheet.options, "relative", f"relative is {sheet.options['relative']}: 1 for a fraction of the scale, 0 for a length"


def counted(rows):
    return f"{len(rows)}, numbered from 0" if rows else "none"


def ill_formed_row(sheet, at, row):
    kind, first, count = row["kind"], row["first"], row["count"]
    table, called = {"trimmed": (sheet.curves, "row"), "composite": (sheet.segments, "segment")}.get(kind, (sheet.points, "point"))
    if count != COUNTS.get(kind, count):
        yield row, "count", f"count of curve {at} is {count}, and {'an' if kind == 'ellipse' else 'a'} {kind} has {COUNTS[kind]}"
    elif first + count > len(table):
        run = f"{called}s {first} to {first + count - 1}" if count > 1 else f"{called} {first}"
        yield row, "first", f"curve {at} has {run}, and there are {counted(table)}"
    for name in "pq":
        if name not in USES.get(kind, "") and row[name] != 0:
            yield row, name, f"{name} of curve {at} is {row[name]!r}, and a {kind} does not use it: 0"


def children(sheet, row):
    """The rows that a row is made of, each with the row and the name that say so."""
    if row["kind"] == "trimmed":
        yield row["first"], row, "first"
    elif row["kind"] == "composite":
        for segment in sheet.segments[row["first"] : row["first"] + row["count"]]:
            yield segment["curve"], segment, "curve"


def unordered(sheet):
    for at, row in enumerate(sheet.curves):
        for child, place, name in children(sheet, row):
            if child >= at:
                made = "is a trim of" if row["kind"] == "trimmed" else "has this segment, on"
                yield place, name, f"curve {at} {made} curve {child}, and what a curve is made of stands in a lower row"


def too_deep(sheet):
    """Each row that is one too deep; those above it are deeper still, and are not told."""
    depths = []
    for at, row in enumerate(sheet.curves):
        below = [(depths[child], child) for child, _, _ in children(sheet, row)]
        nests = row["kind"] in ("trimmed", "composite")
        depths.append(1 + max(below, default=(0, 0))[0] if nests else 0)
        if depths[at] == MOST_NESTING + 1:
            through = path(sheet, depths, at)
            yield row, "kind", f"curve {at} is nested {depths[at]} deep, through {through}, and {MOST_NESTING} is the most"


def path(sheet, depths, at):
    """The rows on the deepest way down from a row."""
    rows = [at]
    while below := [child for child, _, _ in children(sheet, sheet.curves[rows[-1]])]:
        rows.append(max(below, key=lambda child: depths[child]))
    return ", ".join(map(str, rows))


def missing(sheet):
    for name in ("curve", "start", "end", "low", "high"):
        table, called = (sheet.curves, "curves") if name == "curve" else (sheet.points, "points")
        if sheet.edge[name] >= len(table):
            yield sheet.edge, name, f"{name} of the edge is {sheet.edge[name]}, and of {called} there are {counted(table)}"
