"""Drawing and checking: refusals and what they leave of the buffers, ways, tables that are checked once, NaN parameters, walks,
angles and presets."""
import math
import pickle
import threading
import unittest
from array import array

import cornsunset as cs

from .common import EDGE, MARK, OPTIONS, POINTS, bits, edge, floats, line, marked, of_bits, options, trims


class Drawing(unittest.TestCase):
    def test_a_line_is_drawn_into_the_first_buffer(self):
        first, second = marked(30), marked(41)
        chain = cs.draw(line(), EDGE, OPTIONS, first, second)
        self.assertEqual((chain.way, len(chain)), (cs.Way.AS_DRAWN, 5))
        self.assertEqual([(p.x, p.y, p.z, p.t) for p in chain], [(2.5 * i, 0.0, 0.0, 1.25 * i) for i in range(5)])
        self.assertEqual(chain.length(), 10.0)
        self.assertEqual(bits(first[20:]) + bits(second), bits([0.0] * 51))
        # It is a part of the buffer, and not a copy of it.
        first[4] = 7.0
        self.assertEqual(chain[1].x, 7.0)
        self.assertEqual(bits(chain.floats), bits(first[:20]))

    def test_a_repaired_chain_is_drawn_into_the_second_buffer(self):
        first, second = marked(30), marked(41)
        chain = cs.draw(line(), edge(high=1), options(deflection=0.01), first, second)
        self.assertEqual((chain.way, len(chain)), (cs.Way.RUNAWAY, 2))
        self.assertEqual(bits(second[:8]), bits([0, 0, 0, 0, 10, 0, 0, 0]))
        self.assertEqual(bits(first) + bits(second[8:]), bits([0.0] * 63))

    def test_each_way(self):
        ways = {"AS_DRAWN": edge(), "CHORD": edge(lo=math.nan), "RUNAWAY": edge(high=1)}
        for way, asked in ways.items():
            chain = cs.draw(line(), asked, options(deflection=0.01))
            self.assertIs(chain.way, cs.Way[way])
        # A quarter of a circle that a file has the wrong way round: the other three leave the box.
        points = [(0, 0, 0), (0, 0, 1), (1, 0, 0), (10, 0, 0), (0, 10, 0), (0, 0, 0), (10, 10, 0)]
        circle = cs.Tables(points=points, curves=[2, 0, 3], reals=[10, 0])
        asked = {"curve": 0, "start": 3, "end": 4, "low": 5, "high": 6}
        fine = options(deflection=0.001, angle=cs.Angle.degrees(8), segments=1)
        around = cs.Edge(**asked, lo=math.pi / 2, hi=math.tau)
        self.assertIs(cs.draw(circle, around, fine).way, cs.Way.COMPLEMENT)
        # A hair of an ellipse of three kilometres, of which a file says that it is the whole.
        points = [(3000, 30, 0), (0, 0, 1), (1, 0, 0), (14.5, 59.5, 0), (14.5, 0.5, 0), (0, 0, 0), (100, 60, 0)]
        ellipse = cs.Tables(points=points, curves=[3, 0, 3], reals=[3000, 300])
        whole = cs.Edge(**asked, lo=0, hi=math.tau)
        self.assertIs(cs.draw(ellipse, whole, options(deflection=0.1, segments=1)).way, cs.Way.SHORT_ARC)

    def test_without_buffers_the_chain_owns_its_points(self):
        first, second = floats(30), floats(41)
        lent = cs.draw(line(), EDGE, OPTIONS, first, second)
        owned, copied = cs.draw(line(), EDGE, OPTIONS), lent.copy()
        self.assertEqual(owned, lent)
        self.assertEqual(owned.length(), lent.length())
        cs.draw(line(), edge(end=0, start=2), OPTIONS, first, second)
        self.assertNotEqual(lent, owned)
        self.assertEqual(copied, owned)

    def test_buffers_grow_up_to_the_most_points(self):
        checked = cs.check_tables(line())
        for n in (2, 63, 64, 65, 256, 257, 5_000, cs.MOST_POINTS):
            self.assertEqual(len(cs.draw(line(), EDGE, options(segments=n - 1))), n)
            self.assertEqual(len(checked.draw(EDGE, options(segments=n - 1))), n)
        for call in (lambda *asked: cs.draw(line(), *asked), checked.draw):
            with self.assertRaises(cs.NoRoom):
                call(EDGE, options(segments=cs.MOST_POINTS))
            with self.assertRaises(cs.NoRoom):
                call(EDGE, options(segments=2**64 - 1))
            # What is no want of room is answered at once.
            with self.assertRaises(cs.Missing):
                call(edge(curve=9), OPTIONS)

    def test_the_most_room_is_16384_points(self):
        def drawn(segments, m, n):
            return len(cs.draw(line(), EDGE, options(segments=segments), marked(m), marked(n)))

        self.assertEqual(drawn(1, 8, 8), 2)
        self.assertEqual(drawn(1, 8, 65_536), 2)
        self.assertEqual(drawn(16_383, 65_536, 65_539), 16_384)
        with self.assertRaises(cs.NoRoom):
            drawn(16_384, 65_540, 70_000)

    def test_a_nan_parameter_keeps_its_bits(self):
        payloads = of_bits(0x7FF80000DEADBEEF), of_bits(0xFFFC0123456789AB), of_bits(0x7FF4000000000001)
        for lo, hi in zip(payloads, payloads[1:] + payloads[:1]):
            for sense in (0, 1):
                asked = edge(lo=lo, hi=hi, sense=sense)
                for chain in (cs.draw(line(), asked, OPTIONS), cs.draw(line(), asked, OPTIONS, marked(30), marked(41))):
                    self.assertEqual((chain.way, len(chain)), (cs.Way.CHORD, 2))
                    self.assertEqual(bits([chain[0].t, chain[1].t]), bits([lo, hi]))
                    self.assertEqual(bits([point.t for point in chain.backwards()]), bits([hi, lo]))
                    self.assertEqual(bits(chain.floats[3::4].tolist()), bits([lo, hi]))

    def test_infinite_parameters_and_scales_are_taken(self):
        for x in (math.inf, -math.inf, math.nan):
            self.assertIs(cs.draw(line(), edge(lo=x), OPTIONS).way, cs.Way.CHORD)
            self.assertEqual(len(cs.draw(line(), EDGE, options(scale=x))), 5)


class Refusals(unittest.TestCase):
    def refused(self, number, tables, asked=EDGE, finely=OPTIONS, lengths=(80, 80)):
        """That this is refused so, and that the buffers are as it should leave them."""
        first, second = map(marked, lengths)
        with self.assertRaises(cs.Refusal) as caught:
            cs.draw(tables, asked, finely, first, second)
        self.assertEqual(caught.exception.number, number)
        self.assertIs(type(caught.exception), cs.Refusal.from_number(number))
        left = MARK if number <= 7 else 0.0
        self.assertEqual(bits(first) + bits(second), bits([left] * sum(lengths)))
        if number <= 6:
            with self.assertRaises(cs.Refusal.from_number(number)):
                cs.check(tables, asked, finely)
        else:
            self.assertIsNone(cs.check(tables, asked, finely))

    def test_each_has_its_number_and_leaves_the_buffers(self):
        sizes = {"points": 3 * 65_536, "curves": 3 * 4_096, "reals": 2 * 4_096, "parts": 2 * 4_096, "ranges": 2 * 4_096}
        for name, size in sizes.items():
            self.refused(1, line(**{name: [0] * (size + 1)}))
        self.refused(2, line(), edge(tolerance=math.nan))
        self.refused(2, line(points=[math.inf] * 9))
        self.refused(2, line(), finely=options(deflection=2e9))
        self.refused(2, line(), finely=options(angle=cs.Angle.radians(math.nan)))
        self.refused(3, line(points=POINTS[:8]))
        self.refused(3, line(reals=[0.0]))
        self.refused(3, line(curves=[1, 0]))
        self.refused(3, line(curves=[99, 0, 2]))
        self.refused(3, line(), edge(sense=2))
        self.refused(3, line(), finely=options(relative=2))
        self.refused(4, line(curves=[6, 0, 1], reals=[0.0, 1.0]))
        self.refused(5, trims(9))
        self.refused(6, line(), edge(high=3))
        self.refused(6, line(), edge(curve=2**32 - 1))
        self.refused(6, cs.Tables())
        for lengths in ((7, 80), (80, 7), (80, 0), (0, 0)):
            self.refused(7, line(), lengths=lengths)
        for lengths in ((8, 8), (80, 19), (19, 80)):
            self.refused(8, line(), lengths=lengths)

    def test_a_span_that_would_be_split_without_end(self):
        u, x = 2.0**-23, 6e8
        tables = line(points=[x, x, 0, x + u, x, 0, x + 10 * u, x + 3 * u, 0], curves=[5, 0, 3])
        self.refused(9, tables, edge(hi=2.0), options(angle=cs.Angle.radians(0.14), segments=1, depth=1))

    def test_a_hyperbola_beyond_a_hundred(self):
        tables = line(points=[0, 0, 0, 0, 0, 1, 1, 0, 0], curves=[8, 0, 3], reals=[1, 2])
        near = edge(hi=100.0, high=0)
        self.assertIsNone(cs.check(tables, near, OPTIONS))
        self.refused(11, tables, edge(hi=100.00000000000001, high=0))
        self.refused(11, tables, edge(lo=math.nan, high=0), lengths=(8, 8))
        self.refused(3, line(curves=[8, 0, 2]), near)
        self.refused(3, line(curves=[9, 0, 3]), near)

    def test_tables_are_refused_whatever_the_edge(self):
        def number(tables):
            with self.assertRaises(cs.Refusal) as caught:
                cs.check_tables(tables)
            return caught.exception.number

        self.assertEqual(number(line(points=[0] * (3 * 65_536 + 1))), 1)
        self.assertEqual(number(line(points=[math.nan] * 9)), 2)
        self.assertEqual(number(line(points=POINTS[:8])), 3)
        self.assertEqual(number(line(curves=[1, 2, 2])), 3)
        self.assertEqual(number(line(curves=[6, 0, 1], reals=[0.0, 1.0])), 4)
        self.assertEqual(number(trims(9)), 5)
        self.assertIsInstance(cs.check_tables(trims(8)), cs.Checked)
        self.assertIsInstance(cs.check_tables(cs.Tables()), cs.Checked)

    def test_tables_at_their_size_are_accepted(self):
        tables = cs.Tables(
            points=POINTS + [0] * (3 * 65_536 - 9),
            curves=[1, 0, 2] * 4_096,
            reals=[0] * (2 * 4_096),
            parts=[0] * (2 * 4_096),
            ranges=[0] * (2 * 4_096),
        )
        self.assertEqual(len(cs.draw(tables, edge(curve=4_095), OPTIONS)), 5)
        self.assertEqual(len(cs.check_tables(tables).draw(edge(curve=4_095), OPTIONS)), 5)
        self.refused(6, tables, edge(curve=4_096))

    def test_a_refusal_is_an_exception_with_a_number_and_a_message(self):
        self.assertTrue(issubclass(cs.Refusal, Exception))
        refusal = cs.ShortBuffer()
        self.assertEqual((refusal.number, str(refusal)), (7, "a chain buffer is shorter than two points"))
        for kind in cs.Refusal.ALL:
            again = pickle.loads(pickle.dumps(kind()))
            self.assertEqual((type(again), again.number, str(again)), (kind, kind.number, kind.message))
            self.assertTrue(kind.message[0].islower() and not kind.message.endswith("."))
        self.assertEqual([cs.Refusal.from_number(n) for n in (0, 10, -1, None)], [None] * 4)


class Checking(unittest.TestCase):
    def test_over_checked_tables_an_edge_is_drawn_as_by_itself(self):
        trimmed = {"curves": [1, 0, 2, 6, 0, 1], "reals": [0.0, 0.0, 1.0, 4.0]}
        hyperbola = {"points": [0, 0, 0, 0, 0, 1, 1, 0, 0], "curves": [8, 0, 3], "reals": [1, 2]}
        cases = [
            (line(), EDGE, OPTIONS, 30, 41, 0),
            (line(), edge(sense=0, start=2, end=0), OPTIONS, 41, 30, 0),
            (line(**trimmed), edge(curve=1, lo=1.0, hi=4.0), OPTIONS, 80, 80, 0),
            (line(), edge(lo=math.nan), OPTIONS, 8, 8, 0),
            (line(), edge(tolerance=math.nan), OPTIONS, 80, 80, 2),
            (line(), EDGE, options(deflection=2e9), 80, 80, 2),
            (line(), edge(sense=2), OPTIONS, 80, 80, 3),
            (line(), EDGE, options(relative=2), 80, 80, 3),
            (line(), edge(curve=1), OPTIONS, 80, 80, 6),
            (cs.Tables(), EDGE, OPTIONS, 80, 80, 6),
            (line(), EDGE, OPTIONS, 80, 7, 7),
            (line(), EDGE, OPTIONS, 8, 8, 8),
            (line(**hyperbola), edge(hi=1.5), OPTIONS, 400, 400, 0),
            (line(**hyperbola), edge(lo=math.nan), OPTIONS, 8, 8, 11),
        ]
        for tables, asked, finely, m, n, number in cases:
            answers = []
            for call, over in ((cs.draw, tables), (cs.draw_over, cs.check_tables(tables))):
                first, second = marked(m), marked(n)
                try:
                    chain = call(over, asked, finely, first, second)
                    answer = 0, chain.way, len(chain)
                except cs.Refusal as refusal:
                    answer = refusal.number, None, None
                answers.append((answer, bits(first), bits(second)))
            self.assertEqual(answers[0], answers[1])
            self.assertEqual(answers[0][0][0], number)

    def test_a_later_change_does_not_reach_checked_tables(self):
        points, curves, reals = array("d", POINTS), array("I", [1, 0, 2]), array("d", [0, 0])
        tables = cs.Tables(points=points, curves=curves, reals=reals)
        checked = cs.check_tables(tables)
        expected = checked.draw(EDGE, OPTIONS)
        points[6], curves[0], curves[1] = math.nan, 6, 2**32 - 1
        self.assertEqual(checked.draw(EDGE, OPTIONS), expected)
        self.assertEqual(cs.draw_over(checked, EDGE, OPTIONS, floats(80), floats(80)), expected)
        # It does reach what was lent and not checked.
        with self.assertRaises(cs.Unbounded):
            cs.draw(tables, EDGE, OPTIONS)

    def test_checked_tables_come_from_a_check_alone(self):
        for make in (cs.Checked, lambda: cs.Checked(line())):
            with self.assertRaises(TypeError):
                make()
        checked = cs.check_tables(line())
        with self.assertRaises(AttributeError):
            checked.tables = line()
        with self.assertRaises(TypeError):
            checked.tables.points[0] = 1.0
        for wrong in (line(), None, [checked]):
            with self.assertRaises(TypeError):
                cs.draw_over(wrong, EDGE, OPTIONS)

    def test_threads_draw_side_by_side(self):
        checked = cs.check_tables(line())
        expected = checked.draw(EDGE, options(segments=3_000))
        shared, answers = (floats(20_000), floats(20_000)), []

        def draws():
            for _ in range(20):
                answers.append(checked.draw(EDGE, options(segments=3_000)) == expected)
                # Into the same buffers: the chain is whole as long as no other is drawn into them.
                cs.draw_over(checked, EDGE, options(segments=3_000), *shared)

        threads = [threading.Thread(target=draws) for _ in range(4)]
        for thread in threads:
            thread.start()
        for thread in threads:
            thread.join()
        self.assertEqual(answers, [True] * 80)
        self.assertEqual(bits(shared[0][: 4 * 3_001]), bits(expected.floats))


class Chains(unittest.TestCase):
    def test_a_chain_is_a_sequence_of_points(self):
        chain = cs.draw(line(), EDGE, OPTIONS)
        points = list(chain)
        self.assertEqual((chain[0], chain[-1], chain[1:3], chain[::-1]), (points[0], points[4], points[1:3], points[::-1]))
        self.assertEqual(list(reversed(chain)), points[::-1])
        self.assertTrue(points[2] in chain and chain.index(points[2]) == 2)
        for wrong in (5, -6):
            with self.assertRaises(IndexError):
                chain[wrong]
        with self.assertRaises(TypeError):
            chain["x"]
        with self.assertRaises(TypeError):
            chain[0] = points[0]
        with self.assertRaises(TypeError):
            chain.floats[0] = 1.0
        self.assertEqual(points[1].position, (2.5, 0.0, 0.0))
        with self.assertRaises(AttributeError):
            points[1].x = 1.0
        # A later version may have more in it, and what is unpacked by place would take the wrong one.
        with self.assertRaises(TypeError):
            x, y, z, t = points[1]

    def test_chains_are_alike_by_way_and_floats(self):
        chain = cs.draw(line(), EDGE, OPTIONS)
        self.assertEqual(chain, cs.draw(line(), EDGE, OPTIONS))
        self.assertNotEqual(chain, cs.draw(line(), edge(start=2, end=0), OPTIONS))
        self.assertNotEqual(chain, list(chain))
        self.assertNotEqual(chain, cs.Chain(chain._memory, cs.Way.CHORD))
        again = pickle.loads(pickle.dumps(chain))
        self.assertEqual((again, again.way, again.length()), (chain, chain.way, chain.length()))
        self.assertEqual(repr(chain), "<Chain AS_DRAWN, 5 points>")
        with self.assertRaises(TypeError):
            hash(chain)

    def test_a_length_is_summed_from_the_start(self):
        chain = cs.draw(line(points=[0, 0, 0, 1, 1, 1, 3, 3, 3]), edge(hi=3), OPTIONS)
        total = 0.0
        for p, q in zip(chain, chain[1:]):
            x, y, z = q.x - p.x, q.y - p.y, q.z - p.z
            total += math.sqrt(x * x + y * y + z * z)
        self.assertEqual(chain.length(), total)

    def test_a_walk_goes_both_ways_over_whole_points(self):
        numbers = [float(i) for i in range(15)]
        for given in (numbers, array("d", numbers), memoryview(array("d", numbers)), tuple(numbers)):
            self.assertEqual([point.x for point in cs.Walk(given)], [0.0, 4.0, 8.0])
            back = [(p.x, p.y, p.z, p.t) for p in cs.Walk(given, False)]
            self.assertEqual(back, [(8.0, 9.0, 10.0, 11.0), (4.0, 5.0, 6.0, 7.0), (0.0, 1.0, 2.0, 3.0)])
        walk = cs.Walk(numbers)
        self.assertEqual(len(list(walk)), 3)
        self.assertEqual((next(walk, None), next(walk, None)), (None, None))
        walk.turn()
        self.assertEqual(next(walk).position, (8.0, 9.0, 10.0))
        self.assertEqual((list(cs.Walk([])), list(cs.Walk([], False)), list(cs.Walk([1.0] * 3))), ([], [], []))
        chain = cs.draw(line(), EDGE, OPTIONS)
        self.assertEqual(list(chain.forwards()), list(chain))
        self.assertEqual(list(chain.backwards()), list(reversed(chain)))

    def test_a_chain_outlives_the_buffers_names(self):
        first, second = floats(80), floats(80)
        chain = cs.draw(line(), EDGE, OPTIONS, first, second)
        walk = chain.backwards()
        del first, second, chain
        # Memory that were free again would be taken for these.
        others = [marked(80) for _ in range(100)]
        self.assertEqual([point.x for point in walk], [10.0, 7.5, 5.0, 2.5, 0.0])
        self.assertEqual(len(others), 100)


class Angles(unittest.TestCase):
    def test_angles_have_units(self):
        for x in (0, 4, 8, 35, -90, 1e300):
            self.assertEqual(cs.Angle.degrees(x).to_radians(), x * 0.017453292519943295)
            self.assertEqual(cs.Angle.radians(x).to_radians(), x)
        self.assertTrue(cs.Angle.radians(8).is_clamped() and cs.Angle.radians(9.9e-5).is_clamped())
        for angle in (cs.Angle.degrees(8), cs.Angle.radians(math.pi), cs.Angle.radians(math.nan), cs.Angle.radians(1e-4)):
            self.assertFalse(angle.is_clamped())
        self.assertEqual((cs.Angle.ZERO, cs.Angle.FULL_TURN), (cs.Angle.degrees(0), cs.Angle.degrees(360)))

    def test_a_bare_number_is_no_angle(self):
        for bare in (8, 8.0, True, "8", None, math.pi):
            with self.assertRaisesRegex(TypeError, "Angle.degrees or Angle.radians"):
                cs.Options(angle=bare)
        for make in (cs.Angle, lambda: cs.Angle(8), lambda: cs.Angle(degrees=8)):
            with self.assertRaises(TypeError):
                make()
        for wrong in ("8", None, cs.Angle.ZERO, 1j):
            with self.assertRaises(TypeError):
                cs.Angle.degrees(wrong)
        with self.assertRaises(TypeError):
            float(cs.Angle.ZERO)
        with self.assertRaises(TypeError):
            edge(lo=cs.Angle.ZERO)

    def test_angles_are_compared_and_do_not_change(self):
        small, large = cs.Angle.degrees(8), cs.Angle.radians(8)
        self.assertTrue(small < large and small <= large and large > small and large >= small and small != large)
        self.assertEqual({small, cs.Angle.degrees(8)}, {small})
        self.assertFalse(small == small.to_radians())
        with self.assertRaises(TypeError):
            small < 1.0
        with self.assertRaises(AttributeError):
            small._radians = 1.0
        self.assertEqual(eval(repr(small), {"Angle": cs.Angle}), small)
        self.assertEqual(pickle.loads(pickle.dumps(small)), small)


class Records(unittest.TestCase):
    def test_presets(self):
        def preset(deflection, degrees, scale=0.0):
            return cs.Options(
                deflection=deflection, angle=cs.Angle.degrees(degrees), relative=1, segments=1, depth=12, scale=scale
            )

        self.assertEqual((cs.Options(), cs.Options.default()), (preset(0.0004, 8),) * 2)
        self.assertEqual((cs.Options.draft(), cs.Options.fine()), (preset(0.01, 35), preset(0.0001, 4)))
        self.assertEqual(cs.Options.draft(scale=3, angle=cs.Angle.degrees(1)), preset(0.01, 1, 3.0))
        self.assertEqual((cs.Options.default(scale=3), cs.Options(scale=3)), (preset(0.0004, 8, 3.0),) * 2)

    def test_fields_are_named_and_do_not_change(self):
        for make in (lambda: cs.Options(0.1), lambda: cs.Edge(0, 0, 2, 1, 0.0, 5.0, 0.0, 0, 2), lambda: cs.Options(sag=1)):
            with self.assertRaises(TypeError):
                make()
        with self.assertRaises(AttributeError):
            OPTIONS.angle = 8
        with self.assertRaises(AttributeError):
            EDGE.curve = 1
        self.assertEqual((type(edge(lo=3).lo), type(edge(sense=True).sense), edge(curve=cs.Kind.CIRCLE).curve), (float, int, 2))

    def test_numbers_have_their_width(self):
        wholes = [(edge, name, 32) for name in ("curve", "start", "end", "sense", "low", "high")]
        wholes += [(options, "relative", 32), (options, "depth", 32), (options, "segments", 64)]
        for make, name, size in wholes:
            self.assertEqual(getattr(make(**{name: 2**size - 1}), name), 2**size - 1)
            for wrong in (-1, 2**size, 10**30):
                with self.assertRaisesRegex(OverflowError, name):
                    make(**{name: wrong})
            for wrong in (1.0, "1", None, 1j, [1], math.nan):
                with self.assertRaisesRegex(TypeError, name):
                    make(**{name: wrong})
        reals = [(edge, name) for name in ("lo", "hi", "tolerance")] + [(options, name) for name in ("deflection", "scale")]
        for make, name in reals:
            for wrong in ("1", None, 1j, [1.0], b"1"):
                with self.assertRaisesRegex(TypeError, name):
                    make(**{name: wrong})
            with self.assertRaises(OverflowError):
                make(**{name: 10**400})

    def test_records_are_stored_and_read_back(self):
        for record in (EDGE, OPTIONS, edge(lo=math.inf)):
            self.assertEqual(pickle.loads(pickle.dumps(record)), record)
        tables, checked = line(), cs.check_tables(line())
        for again in (pickle.loads(pickle.dumps(tables)), pickle.loads(pickle.dumps(checked)).tables, tables.copy()):
            self.assertEqual((again.points, again.curves, again.reals), (tables.points, tables.curves, tables.reals))
        self.assertEqual(pickle.loads(pickle.dumps(checked)).draw(EDGE, OPTIONS), checked.draw(EDGE, OPTIONS))


if __name__ == "__main__":
    unittest.main()
