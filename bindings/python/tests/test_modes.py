"""Modes: what strict mode changes, what it leaves, and that the reference's is what is drawn where no mode is named."""
import math
import unittest
from dataclasses import replace

import cornsunset as cs
from cornsunset import Angle, Mode, Part, Segment, Way

from .common import EDGE, OPTIONS, bits, line, marked, of_bits, options

# NaNs with payloads, quiet and signalling.
NAN, OTHER = of_bits(0x7FF80000DEADBEEF), of_bits(0xFFF40123456789AB)

# Ranges that are lost: NaN, infinite, empty and reversed.
LOST = [
    (NAN, OTHER),
    (OTHER, NAN),
    (NAN, 1.5),
    (0.0, OTHER),
    (-math.inf, 1.5),
    (0.0, math.inf),
    (-math.inf, math.inf),
    (1.0, 1.0),
    (-0.0, 0.0),
    (0.0, -0.0),
    (1.5, 0.0),
]

# A frame in the plane, two vertices, and a point near the first. A parabola of focal distance 2 (row 0) is at the first vertex at
# -2 and at the second at 3; a hyperbola (row 1) is near both; rows 2 and 3 are trims of the two, row 4 a line.
POINTS = [(0, 0, 0), (0, 0, 1), (1, 0, 0), (8, -8, 0), (18, 12, 0), (9, -7, 0)]
CONICS = cs.Tables(
    points=POINTS,
    curves=[(4, 0, 3), (8, 0, 3), (6, 0, 1), (6, 1, 1), (1, 0, 2)],
    reals=[(2, 0), (4, 3), (-2, 3), (-1.5, 2), (0, 0)],
)
PARABOLA = cs.Edge(curve=0, start=3, end=4, lo=-2, hi=3, low=3, high=4)
HYPERBOLA = replace(PARABOLA, curve=1, lo=-1.5, hi=2)
FINE = options(deflection=0.01, angle=Angle.degrees(8), segments=1)

# A corner of two lines, (0,0,0) to (4,0,0) to (4,4,0), whose own ranges are 0.25..1.25; row 3 is a trim of it.
CORNER = cs.Tables(
    points=[(-1, 0, 0), (4, 0, 0), (4, -1, 0), (0, 4, 0), (0, 0, 0), (4, 4, 0), (2, 0, 0)],
    curves=[(1, 0, 2), (1, 2, 2), (7, 0, 2), (6, 2, 1)],
    reals=[(0, 0), (0, 0), (0, 0), (0.5, 2)],
    parts=[(0, 1), (1, 1)],
    ranges=[(0.25, 1.25), (0.25, 1.25)],
)
ROUND = cs.Edge(curve=2, start=4, end=5, lo=0, hi=2, low=4, high=5)
COARSE = options(deflection=0.5, angle=Angle.radians(math.pi), segments=1, depth=1)


def lost(edge):
    """The edge with each lost range, of either sense, with its vertices either way round and with one vertex."""
    for lo, hi in LOST:
        for start, end in ((3, 4), (4, 3), (3, 3)):
            for sense in (0, 1):
                yield replace(edge, lo=lo, hi=hi, start=start, end=end, sense=sense)


def told(call, over, *asked, lengths, **mode):
    """The answer, and the bits of both buffers."""
    first, second = map(marked, lengths)
    try:
        chain = call(over, *asked, first, second, **mode)
        answer = chain.way, len(chain)
    except cs.Refusal as refusal:
        answer = type(refusal), 0
    return answer, bits(first), bits(second)


class Modes(unittest.TestCase):
    def drawn(self, tables, edge, finely, mode, lengths=(400, 401)):
        """Over the tables, checked, the answer is the same; in the reference's mode it is that of what names none."""
        checked = cs.check_tables(tables)
        answer = told(cs.draw, tables, edge, finely, lengths=lengths, mode=mode)
        self.assertEqual(told(cs.draw_over, checked, edge, finely, lengths=lengths, mode=mode), answer)
        if mode is Mode.REFERENCE:
            self.assertEqual(told(cs.draw, tables, edge, finely, lengths=lengths), answer)
            self.assertEqual(told(cs.draw_over, checked, edge, finely, lengths=lengths), answer)
        return answer

    def alike(self, tables, edge, finely=FINE, lengths=(4_000, 4_001)):
        """What both modes make of an edge, where it is the same."""
        reference, strict = (self.drawn(tables, edge, finely, mode, lengths) for mode in Mode)
        self.assertEqual(strict, reference)
        return reference[0]

    def is_chord(self, answer, edge, lengths):
        """The chord in the first buffer, with lo and hi by their bits and nothing behind it."""
        chord = bits([*POINTS[edge.start], edge.lo, *POINTS[edge.end], edge.hi])
        m, n = lengths
        self.assertEqual(answer, ((Way.CHORD, 2), chord + bytes(8 * m - len(chord)), bytes(8 * n)), edge)

    def test_there_are_two(self):
        self.assertEqual([mode.name for mode in Mode], ["REFERENCE", "STRICT"])
        self.assertEqual(Mode.STRICT.value, 1)
        self.assertIs(Mode["STRICT"], Mode(1))

    def test_a_parabola_or_hyperbola_without_a_range_gets_the_chord_in_strict_mode(self):
        for conic, refusal in ((PARABOLA, cs.NoRoom), (HYPERBOLA, cs.TooFar)):
            for edge in lost(conic):
                for lengths in ((400, 401), (8, 8), (15, 90)):
                    self.is_chord(self.drawn(CONICS, edge, FINE, Mode.STRICT, lengths), edge, lengths)
                    answer, first, second = self.drawn(CONICS, edge, FINE, Mode.REFERENCE, lengths)
                    self.assertEqual((answer[0], first + second), (refusal, bytes(8 * sum(lengths))))

    def test_without_buffers(self):
        checked, deep = cs.check_tables(CONICS), replace(FINE, depth=24)
        for conic, refusal in ((PARABOLA, cs.NoRoom), (HYPERBOLA, cs.TooFar)):
            edge = replace(conic, lo=NAN, hi=OTHER)
            for call, over in ((cs.draw, CONICS), (cs.draw_over, checked), (cs.Checked.draw, checked)):
                chain = call(over, edge, replace(deep, segments=2**64 - 1), mode=Mode.STRICT)
                self.assertEqual((chain.way, len(chain)), (Way.CHORD, 2))
                self.assertEqual(bits(point.t for point in chain), bits([NAN, OTHER]))
                self.assertRaises(refusal, call, over, edge, deep)
                self.assertRaises(refusal, call, over, edge, deep, mode=Mode.REFERENCE)

    def test_segments_tolerance_and_scale_make_nothing_else_of_the_chord(self):
        edge = replace(PARABOLA, lo=NAN, tolerance=1e9)
        many = replace(FINE, segments=2**64 - 1, relative=1, scale=math.nan, depth=0)
        self.is_chord(self.drawn(CONICS, edge, many, Mode.STRICT, (8, 9)), edge, (8, 9))

    def test_the_strict_chord_is_not_repaired(self):
        # A box at the origin, outside which both vertices lie, and one at the start.
        for low, high in ((0, 2), (3, 5)):
            for conic in (PARABOLA, HYPERBOLA):
                edge = replace(conic, lo=NAN, hi=OTHER, low=low, high=high)
                self.is_chord(self.drawn(CONICS, edge, FINE, Mode.STRICT, (40, 41)), edge, (40, 41))
            # A line's chord is, in both modes.
            edge = replace(PARABOLA, curve=4, lo=NAN, hi=OTHER, low=low, high=high)
            self.assertEqual(self.alike(CONICS, edge), (Way.RUNAWAY, 2))

    def test_refusals_1_to_7_come_before_the_strict_chord(self):
        edge = replace(PARABOLA, lo=NAN)
        self.assertIs(self.alike(CONICS, replace(edge, tolerance=NAN))[0], cs.Unbounded)
        self.assertIs(self.alike(CONICS, replace(edge, hi=2e9))[0], cs.Unbounded)
        self.assertIs(self.alike(CONICS, replace(edge, sense=2))[0], cs.IllFormed)
        self.assertIs(self.alike(CONICS, replace(edge, end=6))[0], cs.Missing)
        for lengths in ((7, 80), (80, 0)):
            self.assertIs(self.alike(CONICS, edge, lengths=lengths)[0], cs.ShortBuffer)
        unordered = cs.Tables(points=POINTS, curves=[(4, 0, 3), (6, 1, 1)], reals=[(2, 0), (0, 1)])
        self.assertRaises(cs.Unordered, cs.draw, unordered, edge, FINE, mode=Mode.STRICT)

    def test_all_other_edges_are_drawn_as_in_the_reference(self):
        # Trims of the two have a range of their own, and a good one is good in both modes.
        for edge in (PARABOLA, HYPERBOLA, replace(PARABOLA, curve=2), replace(HYPERBOLA, curve=3)):
            way, points = self.alike(CONICS, edge)
            self.assertTrue(way is Way.AS_DRAWN and points > 4)
        for row, conic in ((2, PARABOLA), (3, HYPERBOLA)):
            trim = replace(conic, curve=row)
            for lo, hi in LOST:
                self.assertEqual(self.alike(CONICS, replace(trim, lo=lo, hi=hi)), self.alike(CONICS, trim))
        # A good range that leaves the box, or asks beyond 100.
        self.assertEqual(self.alike(CONICS, replace(PARABOLA, low=0, high=2)), (Way.RUNAWAY, 2))
        self.assertIs(self.alike(CONICS, replace(HYPERBOLA, low=0, high=2))[0], cs.TooFar)
        self.assertIs(self.alike(CONICS, replace(HYPERBOLA, hi=101))[0], cs.TooFar)
        self.assertEqual(self.alike(line(), EDGE, OPTIONS), (Way.AS_DRAWN, 5))
        # Rows of the other kinds, with a good range and without one.
        kinds = (1, 2, (0, 0), 5), (2, 3, (3, 0), 6), (3, 3, (3, 1), 6), (5, 5, (0, 0), 4), (7, 0, (0, 0), 1)
        for kind, count, reals, end in kinds:
            tables = cs.Tables(points=POINTS, curves=[kind, 0, count], reals=reals)
            for lo, hi in ((0, end), (NAN, OTHER), (1, 1), (end, 0)):
                for lengths in ((4_000, 4_001), (8, 8)):
                    self.alike(tables, replace(PARABOLA, lo=lo, hi=hi), lengths=lengths)

    def test_a_composite_breaks_where_its_segments_meet_in_strict_mode(self):
        def parameters(edge, mode, finely=COARSE):
            self.drawn(CORNER, edge, finely, mode)
            return [point.t for point in cs.draw(CORNER, edge, finely, mode=mode)]

        # The reference breaks at its segments' own 0.25 and 1.25, and halves between them.
        self.assertEqual(parameters(ROUND, Mode.REFERENCE), [0, 0.25, 0.75, 1.25, 2])
        self.assertEqual(parameters(ROUND, Mode.STRICT), [0, 1, 2])
        self.assertEqual(cs.draw(CORNER, ROUND, COARSE, mode=Mode.STRICT)[1].position, (4, 0, 0))
        # A trim of it, to 0.5..2, has the same breaks inside it, and a lost range is the whole.
        trim = replace(ROUND, curve=3, start=6, lo=0.5)
        self.assertEqual(parameters(trim, Mode.STRICT), [0.5, 1, 2])
        self.assertEqual(parameters(replace(trim, lo=NAN), Mode.STRICT), [0.5, 1, 2])
        self.assertEqual(parameters(replace(ROUND, lo=NAN), Mode.STRICT), [0, 1, 2])
        # Where 1 is an end of the range it is no break, and breaks are thinned: this sag lets the corner pass.
        self.assertEqual(parameters(replace(ROUND, lo=1), Mode.STRICT), [1, 2])
        self.assertEqual(parameters(ROUND, Mode.STRICT, replace(COARSE, deflection=3)), [0, 2])

    def test_no_joint_is_merged_beside_a_wide_range(self):
        # Nine points to and fro, (4 i, 0 or 4, 0), as eight segments, the n-th over n - 1..n of its line, under a trim to
        # -0.5..1e9.
        def height(i):
            return 4 * (i % 2)

        part = Part((0, 0, 0), (32, 4, 0))
        rises = [height(i + 1) - height(i) for i in range(8)]
        lines = [part.line((0, height(i) - i * rise, 0), (4, rise, 0)) for i, rise in enumerate(rises)]
        trim = part.trimmed(part.composite([Segment(line, i, i + 1) for i, line in enumerate(lines)]), -0.5, 1e9)
        edge = part.edge(trim, part.point((0, 0, 0)), part.point((32, 0, 0)), -0.5, 1e9)
        checked = part.check()
        # But for 7: the three places that are looked at between 6 and 1e9 all lie at the end.
        joints = [-0.5, 1, 2, 3, 4, 5, 6, 1e9]
        self.assertEqual([point.t for point in checked.draw(edge, COARSE, mode=Mode.STRICT)], joints)
        self.assertNotEqual([point.t for point in checked.draw(edge, COARSE)], joints)

    def test_a_part_is_drawn_in_a_mode(self):
        # An S of two half circles, whose own ranges are 0..pi and pi..2 pi: its middle lies on the chord, and so it is missed.
        part = Part((0, 0, 0), (20, 40, 0))
        upper, lower = (part.circle((10, y, 0), (0, 0, 1), (0, 1, 0), 10) for y in (30, 10))
        half = Angle.degrees(180)
        both = part.composite([Segment(upper, Angle.ZERO, half), Segment(lower, half, Angle.FULL_TURN).reversed()])
        edge = part.edge(both, part.point((10, 40, 0)), part.point((10, 0, 0)), 0, 2)
        checked = part.check()
        missed = checked.draw(edge, FINE)
        self.assertEqual((len(missed), missed.length()), (2, 40))
        self.assertEqual(checked.draw(edge, FINE, mode=Mode.REFERENCE), missed)
        strict = checked.draw(edge, FINE, mode=Mode.STRICT)
        self.assertEqual([round(x, 12) for p in strict if p.t == 1 for x in p.position], [10, 20, 0])
        self.assertAlmostEqual(strict.length(), 20 * math.pi, delta=0.1)
        self.assertEqual(cs.draw(checked.tables, edge, FINE, mode=Mode.STRICT), strict)
        # It grows its buffers.
        self.assertEqual(len(checked.draw(edge, replace(FINE, segments=5_000), mode=Mode.STRICT)), 5_001)


if __name__ == "__main__":
    unittest.main()
