"""Measures of a point and a chord: beside it, beyond its ends, without a length, of any floats; and that they are what drawing
works with."""
import copy
import dataclasses
import math
import pickle
import random
import unittest
from array import array

import cornsunset as cs
from cornsunset import Angle, Measured, Options, Part, Segment, measure_for_bisection, measure_for_thinning

from .common import bits, of_bits

O = (0.0, 0.0, 0.0)
BOTH = measure_for_thinning, measure_for_bisection


def bits_of(measured):
    return bits([measured.distance, measured.place])


def below(x):
    """The next float nearer to zero."""
    return math.nextafter(x, 0.0)


class Measures(unittest.TestCase):
    def both_are(self, a, b, p, distance, place):
        """That both measures are these two numbers, by their bits."""
        for measure in BOTH:
            self.assertEqual(bits_of(measure(a, b, p)), bits([distance, place]), (measure, a, b, p))

    def test_the_place_is_held_to_the_chord(self):
        b = (8.0, 0.0, 0.0)
        for p, distance, place in (((2, 3, 0), 3, 0.25), ((-3, 4, 0), 5, 0), ((11, 0, 4), 5, 1), (b, 0, 1)):
            self.both_are(O, b, p, distance, place)
            self.both_are(b, O, p, distance, 1 - place)

    def test_the_place_may_be_negative_zero(self):
        falling = (-1, -2, -2)
        self.both_are(O, falling, O, 0, -0.0)
        self.both_are(O, falling, falling, 0, 1)
        self.both_are(O, falling, (1, 2, 2), 3, 0.0)

    def test_without_a_length(self):
        p = (0, -3, -4)
        # The same point, zeros of other signs, and squares that vanish.
        for b in (O, (-0.0, 0, -0.0), (-0.0, -0.0, -0.0), (1e-170, 0, 0)):
            self.both_are(O, b, p, 5, 0.0)
            self.both_are(b, O, p, 5, 0.0)
        self.both_are(p, p, O, 5, 0.0)
        self.both_are(p, p, p, 0, 0.0)

    def test_the_two_differ_in_their_last_bits(self):
        asked = O, (1, 0, 2), (1, 1, 1)
        self.assertEqual(measure_for_thinning(*asked), Measured(1.0954451150103324, 0.6))
        self.assertEqual(measure_for_bisection(*asked), Measured(1.0954451150103321, 0.5999999999999999))

    def test_a_place_that_is_a_number_lies_on_the_chord(self):
        lot, numbers = random.Random(2026), 0
        anything = [[of_bits(lot.getrandbits(64)) for _ in range(9)] for _ in range(4_000)]
        # Each coordinate NaN, infinite or the largest.
        odd = math.nan, math.inf, -math.inf, 1.7976931348623157e308
        anything += [[x if i == place else float(i) for i in range(9)] for place in range(9) for x in odd]
        for floats in anything:
            for measure in BOTH:
                measured = measure(floats[:3], floats[3:6], floats[6:])
                self.assertTrue(math.isnan(measured.place) or 0 <= measured.place <= 1, floats)
                numbers += not math.isnan(measured.place)
        self.assertGreater(numbers, 1_000)
        # NaN passes; a chord that has NaN has no length.
        endless, lost, beside = (math.inf, 0, 0), (math.nan, 0, 0), (0, 3, 4)
        for measure in BOTH:
            self.assertTrue(math.isnan(measure(O, endless, beside).place) and math.isnan(measure(O, beside, lost).place))
        self.both_are(O, lost, beside, 5, 0.0)

    def test_the_distance_is_measured_from_the_foot(self):
        lot = random.Random(2027)
        for n in range(4_000):
            # Of one magnitude, but for some binades.
            power, more = lot.randrange(-400, 400), 60 if n % 2 else 1
            a, b, p = ([math.ldexp(lot.uniform(-1, 1), power + lot.randrange(more)) for _ in range(3)] for _ in range(3))
            for measure in BOTH:
                measured = measure(a, b, p)
                self.assertTrue(0 <= measured.place <= 1, (a, b, p))
                x, y, z = (p[i] - (a[i] + (b[i] - a[i]) * measured.place) for i in range(3))
                self.assertEqual(measured.distance, math.sqrt(x * x + y * y + z * z), (a, b, p))

    def test_three_numbers_of_any_sort_are_taken(self):
        point = next(cs.Walk([2.0, 3.0, 0.0, 0.5]))
        others = [2, 3, 0], array("d", [2, 3, 0]), memoryview(array("f", [2, 3, 0])), (2, 3.0, False), iter((2, 3, 0))
        for p in (point.position, *others):
            self.assertEqual(measure_for_thinning(O, (8, 0, 0), p), Measured(3.0, 0.25))

    def test_what_is_no_vector_is_refused(self):
        unordered = {1, 2, 3}, {1: 1, 2: 2, 3: 3}
        for measure in BOTH:
            for wrong in (None, 1, "xyz", b"abc", (1, 2), (1, 2, 3, 4), (1, 2, "3"), (1, 2, None), (1, 2, 1j), *unordered):
                for asked in ((wrong, O, O), (O, wrong, O), (O, O, wrong)):
                    self.assertRaises((TypeError, ValueError), measure, *asked)
            self.assertRaises(OverflowError, measure, O, O, (10**400, 0, 0))
            with self.assertRaisesRegex(TypeError, "b is x, y, z, not of type Point"):
                measure(O, next(cs.Walk([0.0] * 4)), O)

    def test_what_is_measured_does_not_change(self):
        measured = measure_for_thinning(O, (8, 0, 0), (2, 3, 0))
        self.assertRaises(dataclasses.FrozenInstanceError, setattr, measured, "place", 1.0)
        for other in (copy.copy(measured), pickle.loads(pickle.dumps(measured))):
            self.assertEqual((other, hash(other)), (measured, hash(measured)))


class Drawn(unittest.TestCase):
    """That drawing works with these numbers, to the last bit."""

    def counts(self, part, edge, deflection, angle):
        """How many points the chain has at this deflection, and at the next float below; a span is halved once at most."""
        checked = part.check()
        finely = (Options(deflection=x, angle=Angle.radians(angle), relative=0, depth=1) for x in (deflection, below(deflection)))
        return [len(checked.draw(edge, options)) for options in finely]

    def test_bisection_halves_a_span_where_its_sag_is_above_the_deflection(self):
        # The number for thinning is greater on the one parabola, and less on the other.
        for hi, thinning_is_greater in ((3.0, True), (3.5, False)):
            end, middle = (hi * hi, 2 * hi, 0), (hi * hi / 4, hi, 0)
            part = Part(O, end)
            parabola = part.parabola(O, (0, 0, 1), (1, 0, 0), 1)
            edge = part.edge(parabola, part.point(O), part.point(end), 0, hi)
            sag, other = (measure(O, end, middle).distance for measure in (measure_for_bisection, measure_for_thinning))
            self.assertNotEqual(sag, other)
            self.assertEqual(sag < other, thinning_is_greater)
            self.assertEqual(self.counts(part, edge, sag, math.pi), [2, 3])

    def test_thinning_keeps_a_break_above_the_deflection(self):
        corner, end = (3, 1, 0), (2, 4, 0)
        part = Part(O, end)
        lines = part.line(O, corner), part.line(corner, (-1, 3, 0))
        both = part.composite([Segment(line, 0, 1) for line in lines])
        edge = part.edge(both, part.point(O), part.point(end), 0, 2)
        bend, other = (measure(O, end, corner).distance for measure in BOTH)
        # By bisection's number, which is less, the corner would not be kept.
        self.assertLessEqual(other, below(bend))
        self.assertEqual(self.counts(part, edge, bend, math.pi), [2, 3])

    def test_thinning_keeps_a_point_above_a_hundredth_of_the_deflection(self):
        # A polyline up to halfway down its second leg, which is halved for its turn: its middle lies before the corner.
        end, middle = (6, 0.625, 0), (3, 0.9375, 0)
        part = Part(O, end)
        run = part.points((O, (4, 1.25, 0), (8, 0, 0)))
        edge = part.edge(part.polyline(run), run.at(0), part.point(end), 0, 1.5)
        height, other = (measure(O, end, middle).distance for measure in BOTH)
        self.assertLess(other, height)
        deflection = height / 0.01
        self.assertEqual([deflection * 0.01, below(deflection) * 0.01], [height, below(height)])
        self.assertEqual(self.counts(part, edge, deflection, 0.5), [2, 3])


if __name__ == "__main__":
    unittest.main()
