"""The builder: what it puts into the tables, frames, errors of its own, ranges."""
import copy
import math
import pickle
import unittest
from dataclasses import replace

import cornsunset as cs
from cornsunset import Angle, Edge, Kind, Options, Part, Row, Segment, Way

O, X, Y, Z = (0, 0, 0), (1, 0, 0), (0, 1, 0), (0, 0, 1)
FINE = Options(deflection=0.01, relative=0)


def part():
    return Part((-50, -50, 0), (50, 50, 0))


def frame(axis, ref_dir):
    """The axis and ref_dir that a circle gets."""
    built = part()
    built.circle(O, axis, ref_dir, 1)
    points = built.tables().points.tolist()
    return tuple(points[9:12]), tuple(points[12:15])


def dot(a, b):
    return sum(x * y for x, y in zip(a, b))


class Building(unittest.TestCase):
    def test_rows_of_each_kind_stand_in_the_tables(self):
        built = Part((-1, -1, -1), (2, 2, 2))
        line = built.line((5, 5, 5), (0, 2, 0))
        circle = built.circle(O, Z, X, 3)
        ellipse = built.ellipse(O, Z, Y, (4, 2))
        parabola = built.parabola(O, X, Y, 0.5)
        corners = built.points([O, X, Y])
        polyline = built.polyline(corners)
        trim = built.trimmed(ellipse, Angle.ZERO, Angle.radians(1.5))
        composite = built.composite([Segment(line, -1, 1), Segment(trim, Angle.ZERO, Angle.radians(1)).reversed()])
        hyperbola = built.hyperbola(O, Z, X, (6, 7))
        rows = (line, circle, ellipse, parabola, polyline, trim, composite, hyperbola)
        self.assertEqual([row.number for row in rows], list(range(8)))
        self.assertEqual([row.parameter for row in rows], [float, Angle, Angle, float, float, Angle, float, float])
        self.assertEqual((corners.at(0).number, corners.at(2).number, corners.count), (13, 15, 3))

        tables = built.tables()
        runs = [(2, 2), (4, 3), (7, 3), (10, 3), (13, 3), (2, 1), (0, 2), (16, 3)]
        self.assertEqual(tables.curves.tolist(), [x for kind, run in zip(Kind, runs) for x in (kind, *run)])
        self.assertEqual(tables.reals.tolist(), [0, 0, 3, 0, 4, 2, 0.5, 0, 0, 0, 0, 1.5, 0, 0, 6, 7])
        self.assertEqual((tables.parts.tolist(), tables.ranges.tolist()), ([0, 1, 5, 0], [-1, 1, 0, 1]))
        self.assertEqual(tables.points.tolist()[:12], [-1, -1, -1, 2, 2, 2, 5, 5, 5, 0, 2, 0])
        self.assertIsInstance(built.check(), cs.Checked)

    def test_an_edge_names_its_row_its_points_and_the_box(self):
        built = part()
        circle = built.circle(O, Z, X, 3)
        start, end = built.point((3, 0, 0)), built.point((0, 3, 0))
        edge = built.edge(circle, start, end, Angle.ZERO, Angle.degrees(90))
        asked = {"curve": 0, "start": 5, "end": 6, "lo": 0, "hi": math.pi / 2, "low": 0, "high": 1}
        self.assertEqual(edge, Edge(**asked, sense=1, tolerance=0))
        edge = built.edge(circle, start, end, Angle.ZERO, Angle.degrees(90), sense=0, tolerance=0.5)
        self.assertEqual(edge, Edge(**asked, sense=0, tolerance=0.5))
        built.set_box((-7, -7, -7), (7, 7, 7))
        self.assertEqual(built.tables().points.tolist()[:6], [-7, -7, -7, 7, 7, 7])

    def test_a_frame_is_made_unit_and_square(self):
        self.assertEqual(frame(Z, X), (Z, X))
        self.assertEqual(frame((0, 0, 5), (2, 0, 7)), (Z, X))
        self.assertEqual(frame((0, 0, 1e-300), (1e300, 0, 1e300)), (Z, X))
        for axis, ref_dir in (((1, 2, 3), (3, 1, -2)), ((1, 1, 1), (1, 1, 1 + 1e-8)), ((-2, 0.1, 9), Z)):
            a, r = frame(axis, ref_dir)
            self.assertTrue(abs(dot(a, a) - 1) < 1e-15 and abs(dot(r, r) - 1) < 1e-15 and abs(dot(a, r)) < 1e-15)
            # The axis as it was, ref_dir still on its own side.
            self.assertTrue(dot(a, axis) > 0 and dot(r, ref_dir) > 0)

    def test_directions_and_sizes_that_say_nothing_are_errors(self):
        built = part()
        for none in (O, (math.nan, 1, 0), (math.inf, 0, 0), (0, -0.0, 0)):
            for add in (
                lambda: built.line(O, none),
                lambda: built.circle(O, none, X, 1),
                lambda: built.circle(O, Z, none, 1),
                lambda: built.parabola(O, Z, none, 1),
                lambda: built.hyperbola(O, none, X, (2, 1)),
            ):
                self.assertRaises(cs.NoDirection, add)
        for along in (Z, (0, 0, -3), (1e-12, 0, 1)):
            self.assertRaises(cs.Parallel, built.ellipse, O, Z, along, (2, 1))
            self.assertRaises(cs.Parallel, built.hyperbola, O, Z, along, (2, 1))
        for none in (0, -1, math.nan, -0.0):
            self.assertRaises(cs.NoSize, built.circle, O, Z, X, none)
            self.assertRaises(cs.NoSize, built.ellipse, O, Z, X, (1, none))
            self.assertRaises(cs.NoSize, built.parabola, O, Z, X, none)
            self.assertRaises(cs.NoSize, built.hyperbola, O, Z, X, (none, 1))
            self.assertRaises(cs.NoSize, built.hyperbola, O, Z, X, (1, none))
        # Nothing was added.
        self.assertEqual(repr(built.tables()), "<Tables of 2 points, 0 curve rows, 0 segments>")
        for error in (cs.NoDirection, cs.Parallel, cs.NoSize):
            self.assertTrue(issubclass(error, cs.PartError) and issubclass(error, ValueError))
            self.assertTrue(str(error()).startswith("a") and not str(error()).endswith("."))

    def test_a_check_refuses_what_the_library_refuses(self):
        built = part()
        built.point((math.nan, 0, 0))
        self.assertRaises(cs.Unbounded, built.check)
        built = part()
        built.points([O] * 65_535)
        self.assertRaises(cs.Oversize, built.check)
        deep = part()
        row = deep.line(O, X)
        for _ in range(8):
            row = deep.trimmed(row, 0, 1)
        deeper = deep.copy()
        deeper.trimmed(row, 0, 1)
        self.assertIsInstance(deep.check(), cs.Checked)
        self.assertRaises(cs.TooDeep, deeper.check)

    def test_a_part_goes_on_after_a_check(self):
        built = part()
        line = built.line(O, X)
        start, end = built.point(O), built.point((10, 0, 0))
        edge = built.edge(line, start, end, 0, 10)
        checked, tables = built.check(), built.tables()
        built.point((math.nan, 0, 0))
        try:
            built.check()
        except cs.Unbounded:
            # Also while the refusal is still known.
            built.point(O)
        self.assertEqual(checked.draw(edge, FINE).length(), 10)
        self.assertEqual(len(tables.points), 3 * 6)

    def test_copies_go_on_by_themselves(self):
        built = part()
        for other in (built.copy(), copy.copy(built), copy.deepcopy(built), pickle.loads(pickle.dumps(built))):
            other.line(O, X)
            self.assertEqual((len(other.tables().curves), len(built.tables().curves)), (3, 0))


class Ranges(unittest.TestCase):
    def setUp(self):
        self.part = part()
        self.round = self.part.circle(O, Z, X, 1), self.part.ellipse(O, Z, X, (2, 1))
        self.straight = self.part.line(O, X), self.part.parabola(O, Z, X, 1), self.part.polyline(self.part.points([O, X]))
        self.straight += (self.part.hyperbola(O, Z, X, (2, 1)),)
        self.vertex = self.part.point(X)

    def test_a_bare_number_is_no_angle(self):
        half = self.part.trimmed(self.round[0], Angle.ZERO, Angle.degrees(180))
        for curve in (*self.round, half):
            for lo, hi in ((0, 360), (0.0, Angle.FULL_TURN), (Angle.ZERO, 6.28), (None, None), ("0", "1")):
                for take in (
                    lambda: self.part.edge(curve, self.vertex, self.vertex, lo, hi),
                    lambda: self.part.trimmed(curve, lo, hi),
                    lambda: Segment(curve, lo, hi),
                ):
                    with self.assertRaisesRegex(TypeError, "Angle.degrees or Angle.radians"):
                        take()

    def test_an_angle_is_no_plain_number(self):
        segment = Segment(self.straight[0], 0, 1)
        for curve in (*self.straight, self.part.composite([segment]), self.part.trimmed(self.straight[0], 0, 1)):
            for lo, hi in ((Angle.ZERO, Angle.FULL_TURN), (0, Angle.FULL_TURN), (None, 1), ("0", 1)):
                self.assertRaises(TypeError, self.part.edge, curve, self.vertex, self.vertex, lo, hi)
                self.assertRaises(TypeError, self.part.trimmed, curve, lo, hi)
                self.assertRaises(TypeError, Segment, curve, lo, hi)

    def test_points_rows_and_runs_are_told_apart(self):
        line, run, vertex = self.straight[0], self.part.points([O, X]), self.vertex
        mixed = (0, vertex, vertex), (vertex, vertex, vertex), (line, 0, vertex), (line, line, vertex), (line, vertex, run)
        for curve, start, end in mixed:
            self.assertRaises(TypeError, self.part.edge, curve, start, end, 0, 1)
        for wrong in (0, vertex, run, None):
            self.assertRaises(TypeError, self.part.trimmed, wrong, 0, 1)
            self.assertRaises(TypeError, Segment, wrong, 0, 1)
        for wrong in (0, vertex, line, None, [O, X]):
            self.assertRaises(TypeError, self.part.polyline, wrong)
        for wrong in (0, line, [line], [None], None):
            self.assertRaises(TypeError, self.part.composite, wrong)

    def test_a_run_has_no_point_behind_its_last(self):
        run = self.part.points([O, X])
        for index in (2, -1):
            with self.assertRaisesRegex(IndexError, f"a run of 2 points has none with the index {index}"):
                run.at(index)
        self.assertEqual(self.part.points([]).count, 0)

    def test_what_is_no_vector_or_size_is_refused(self):
        before = bytes(self.part.tables().points)
        endless = iter(int, 1)
        unordered = {1, 2, 3}, {1: 1, 2: 2, 3: 3}
        for wrong in (None, 1, "xyz", b"abc", (1, 2), (1, 2, 3, 4), (1, 2, "3"), (1, 2, None), endless, *unordered):
            self.assertRaises((TypeError, ValueError), self.part.point, wrong)
            self.assertRaises((TypeError, ValueError), self.part.points, [O, wrong])
            self.assertRaises((TypeError, ValueError), self.part.set_box, O, wrong)
            self.assertRaises((TypeError, ValueError), self.part.line, wrong, X)
            self.assertRaises((TypeError, ValueError), self.part.circle, O, wrong, X, 1)
            self.assertRaises((TypeError, ValueError), Part, O, wrong)
        for wrong in (None, "1", 1j, X, Angle.ZERO):
            self.assertRaises(TypeError, self.part.circle, O, Z, X, wrong)
            self.assertRaises(TypeError, self.part.parabola, O, Z, X, wrong)
            self.assertRaises((TypeError, ValueError), self.part.ellipse, O, Z, X, wrong)
            self.assertRaises(TypeError, self.part.ellipse, O, Z, X, (1, wrong))
            self.assertRaises((TypeError, ValueError), self.part.hyperbola, O, Z, X, wrong)
            self.assertRaises(TypeError, self.part.hyperbola, O, Z, X, (wrong, 1))
        self.assertEqual(bytes(self.part.tables().points), before)

    def test_numbers_of_rows_and_points_have_32_bits(self):
        for make in (Row, cs.PointNumber, lambda n: cs.PointRun(n, 0), lambda n: cs.PointRun(0, n)):
            for wrong in (-1, 2**32):
                self.assertRaises(OverflowError, make, wrong)
            for wrong in (1.0, "1", None):
                self.assertRaises(TypeError, make, wrong)
        self.assertRaises(TypeError, Row, 0, int)
        self.assertRaises(OverflowError, Segment, Row(0), 0, 1, sense=2**32)


class Drawing(unittest.TestCase):
    def test_a_circle_of_any_ref_dir_has_its_radius(self):
        built = part()
        circle = built.circle(O, (0, 0, 4), (2, 0, 0), 20)
        vertex = built.point((20, 0, 0))
        edge = built.edge(circle, vertex, vertex, Angle.ZERO, Angle.FULL_TURN)
        checked = built.check()
        chain = checked.draw(edge, FINE)
        self.assertIs(chain.way, Way.AS_DRAWN)
        self.assertTrue(all(abs(math.hypot(p.x, p.y) - 20) < 1e-12 for p in chain))
        self.assertTrue(20 * math.tau * 0.999 < chain.length() < 20 * math.tau)
        # Against the curve, the other way round, at the same length; and walked there and back.
        against = checked.draw(replace(edge, sense=0), FINE)
        self.assertEqual(list(against.forwards()), list(chain.backwards()))
        self.assertEqual(list(against.backwards()), list(chain.forwards()))
        self.assertTrue(abs(against.length() - chain.length()) < 1e-12)

    def test_a_parabola_is_drawn_alike_with_buffers_and_without(self):
        built = part()
        parabola = built.parabola(O, Z, X, 2)
        start, end = built.point((8, -8, 0)), built.point((18, 12, 0))
        edge = built.edge(parabola, start, end, -2, 3)
        checked = built.check()
        owned = checked.draw(edge, FINE)
        lent = cs.draw(checked.tables, edge, FINE, *(memoryview(bytearray(32_000)).cast("d") for _ in range(2)))
        self.assertEqual((owned, owned.length()), (lent, lent.length()))
        # Points of the parabola: x is y * y / 8.
        self.assertTrue(all(abs(p.x - p.y * p.y / 8) < 1e-12 for p in owned))

    def test_a_hyperbola_is_drawn_within_a_hundred_of_zero(self):
        built = part()
        hyperbola, u = built.hyperbola(O, Z, X, (3, 4)), math.log(8)
        start, end = built.point((3, 0, 0)), built.point((3 * math.cosh(u), 4 * math.sinh(u), 0))
        edge, trimmed = (built.edge(row, start, end, 0, u) for row in (hyperbola, built.trimmed(hyperbola, 0, u)))
        checked = built.check()
        chain = checked.draw(edge, FINE)
        self.assertIs(chain.way, Way.AS_DRAWN)
        self.assertTrue(len(chain) > 4 and all(abs((p.x / 3) ** 2 - (p.y / 4) ** 2 - 1) < 1e-12 for p in chain))
        self.assertEqual(checked.draw(trimmed, FINE), chain)
        # Without a range a hyperbola is asked at -1e6, and a trim of one over its own range.
        for lo, hi in ((math.nan, 2), (0, math.inf), (1, 1), (2, 0), (0, 100.1), (-101, 0)):
            self.assertRaises(cs.TooFar, checked.draw, replace(edge, lo=lo, hi=hi), FINE)
        self.assertEqual(checked.draw(replace(trimmed, lo=math.nan), FINE), chain)
        # And so is one that leaves the box.
        built.set_box(O, (3, 1, 0))
        self.assertRaises(cs.TooFar, built.check().draw, edge, FINE)

    def test_composites_and_trims_run_on(self):
        built = part()
        line = built.line((10, 0, 0), (-1, 0, 0))
        circle = built.circle((10, 5, 0), Z, (0, -1, 0), 5)
        half = built.trimmed(circle, Angle.ZERO, Angle.degrees(180))
        both = built.composite([Segment(line, 0, 10).reversed(), Segment(half, Angle.ZERO, Angle.degrees(180))])
        edge = built.edge(both, built.point(O), built.point((10, 10, 0)), 0, 2)
        chain = built.check().draw(edge, FINE)
        self.assertEqual((chain[0].position, chain[-1].position), (O, (10, 10, 0)))
        self.assertTrue(abs(chain.length() - 10 - 5 * math.pi) < 0.05)


if __name__ == "__main__":
    unittest.main()
