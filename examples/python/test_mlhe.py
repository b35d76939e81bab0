"""Tests of mlhe.py: the examples of the requirements, A to Q; refusals; what happens to arrays; the stored cases of the
second implementation, where arrays can say them; that mlhe.py and include/mlhe.h agree; and the lines of README.md.

    /usr/bin/python3 test_mlhe.py
"""

import ctypes
import doctest
import os
import pickle
import re
import struct
import threading
import unittest
from pathlib import Path

import numpy

import mlhe
from mlhe import Affine, Counts, Limited, Pass, Plain, Refused

REPOSITORY = Path(__file__).resolve().parents[2]
ANY = Plain(0, 25_500)


def row(*values):
    return numpy.array([values], numpy.uint8)


def grey(*values):
    return numpy.repeat(row(*values)[:, :, None], 3, axis=2)


def colour(*channels):
    return numpy.array([[channels]], numpy.uint8)


class Examples(unittest.TestCase):
    """The examples to hold it against, by their letters."""

    def after_pass(self, plane, a, b, expected, retoned, kept, area=1, rule=ANY, **names):
        before = plane.copy()
        left = mlhe.run_pass(plane, Pass(a, b, area, rule, **names))
        numpy.testing.assert_array_equal(left.plane, expected)
        self.assertEqual(left.counts, Counts(retoned, kept))
        numpy.testing.assert_array_equal(plane, before)

    def test_a_to_d(self):
        self.after_pass(row(10, 10, 20, 30), 0, 255, row(128, 128, 191, 255), 1, 0)
        self.after_pass(row(10, 10, 20, 30), 0, 255, row(10, 10, 20, 30), 0, 1, rule=Plain(0, 300))
        self.after_pass(row(0, 1), 0, 1, row(1, 1), 1, 0)
        self.after_pass(row(0, 1), 0, 1, row(0, 1), 0, 1, rule=Plain(80, 25_500))

    def test_e_and_f(self):
        self.after_pass(row(10, 20, 200, 10, 10), 0, 127, row(64, 127, 200, 10, 10), 1, 1)
        self.after_pass(row(10, 20, 200, 10, 10), 0, 127, row(10, 20, 200, 10, 10), 0, 0, area=3)

    def test_g_to_i(self):
        self.after_pass(row(10, 10, 20, 30), 0, 255, row(13, 13, 25, 38), 1, 0, rule=Limited(10))
        self.after_pass(row(10, 10, 20, 30), 0, 255, row(128, 128, 191, 255), 1, 0, rule=Limited(1_000))
        self.after_pass(row(10, 10, 20, 30), 0, 255, row(11, 11, 21, 31), 1, 0, rule=Limited(0))

    def test_affine(self):
        self.after_pass(row(10, 10, 20, 30), 0, 255, row(128, 128, 191, 255), 1, 0, rule=Affine(2, 100, 10_000))
        self.after_pass(row(10, 10, 20, 30), 0, 255, row(10, 10, 20, 30), 0, 1, rule=Affine(2, 100, 300))
        self.after_pass(row(10, 10, 20, 30), 0, 255, row(85, 85, 170, 255), 1, 0, rule=Affine(1, 0, 10_000))
        self.after_pass(row(7, 7), 7, 7, row(7, 7), 0, 1, rule=Affine(1, 0, 10_000))

    def test_j(self):
        plane = numpy.array([[10, 200], [200, 20]], numpy.uint8)
        self.after_pass(plane, 0, 127, plane, 0, 2)
        self.after_pass(plane, 0, 127, plane, 0, 2, neighbours=4)
        self.after_pass(plane, 0, 127, [[64, 200], [200, 127]], 1, 0, neighbours=8)

    def test_edges_with_eight_neighbours(self):
        """A row's end is no neighbour of the next row's beginning, and a row or a column has no corners."""
        self.after_pass(numpy.array([[200, 200, 10], [20, 200, 200]], numpy.uint8), 0, 127,
                        [[200, 200, 10], [20, 200, 200]], 0, 2, neighbours=8)
        for plane, left in (row(10, 20, 200, 30), row(64, 127, 200, 30)), (row(10, 200, 20), row(10, 200, 20)):
            retoned = int(plane[0, 1] == 20)
            self.after_pass(plane, 0, 127, left, retoned, 2 - retoned, neighbours=8)
            self.after_pass(plane.T, 0, 127, left.T, retoned, 2 - retoned, neighbours=8)

    def test_eight_neighbours_on_all_levels(self):
        """An enhancement with 8 is the list with 8, and the house setting is with 4."""
        plane = numpy.where(numpy.eye(9, dtype=bool), numpy.arange(10, 100, 10), 180).astype(numpy.uint8)
        frame = numpy.repeat(plane[:, :, None], 3, axis=2)
        left = {}
        for neighbours in 4, 8:
            enhanced = mlhe.enhance(frame, area=5, neighbours=neighbours)
            passes = [Pass(a, a + (256 >> level) - 1, 5 if level else 1, mlhe.HOUSE.rule, neighbours)
                      for level in range(8) for a in range(0, 256, 256 >> level)]
            chained = mlhe.run_passes(plane, passes)
            numpy.testing.assert_array_equal(enhanced.plane, chained.plane)
            self.assertEqual(enhanced.counts, chained.counts)
            left[neighbours] = enhanced.plane
        self.assertFalse(numpy.array_equal(left[4], left[8]))
        numpy.testing.assert_array_equal(mlhe.enhance(frame, area=5).plane, left[4])

    def test_passes_with_both(self):
        plane = numpy.array([[10, 200], [200, 20]], numpy.uint8)
        four = Pass(0, 127, 1, ANY)
        left = mlhe.run_passes(plane, [four, four._replace(neighbours=8), four])
        numpy.testing.assert_array_equal(left.plane, [[64, 200], [200, 127]])
        self.assertEqual(left.counts, Counts(1, 4))
        numpy.testing.assert_array_equal(plane, [[10, 200], [200, 20]])
        self.assertEqual(mlhe.run_passes(plane, []).counts, Counts(0, 0))
        self.assertEqual(mlhe.run_list(plane, mlhe.pass_list([four])).counts, Counts(0, 2))
        listed = mlhe.run_list(plane, mlhe.pass_list([four, four._replace(neighbours=8), four]))
        numpy.testing.assert_array_equal(listed.plane, left.plane)
        self.assertEqual(listed.counts, left.counts)

    def test_k_to_m(self):
        for last, area, new, retoned in (0, 20, (128, 255), 1), (1, 1, (192, 255), 2), (7, 1, (255, 255), 8):
            frame = grey(10, 20)
            enhanced = mlhe.enhance(frame, last=last, area=area, rule=ANY)
            numpy.testing.assert_array_equal(enhanced.plane, row(*new))
            numpy.testing.assert_array_equal(enhanced.frame, grey(*new))
            self.assertEqual(enhanced.counts, Counts(retoned, 0))
            numpy.testing.assert_array_equal(frame, grey(10, 20))

    def test_a_plane_of_one_value(self):
        """It is kept once at every level, but below the least area at level 0 alone."""
        frame = numpy.full((8, 8, 3), 100, numpy.uint8)
        self.assertEqual(mlhe.enhance(frame).counts, Counts(retoned=0, kept=8))
        self.assertEqual(mlhe.enhance(frame, area=65).counts, Counts(retoned=0, kept=1))
        self.assertEqual(mlhe.enhance(frame, rule=Limited(300)).counts, Counts(retoned=8, kept=0))
        self.assertEqual(mlhe.enhance(frame, rule=Affine(1, 0, 10_000)).counts, Counts(retoned=8, kept=0))
        self.assertEqual(mlhe.enhance(frame, rule=Affine(1, 0, 100)).counts, Counts(retoned=0, kept=8))

    def test_n_and_o(self):
        for new, expected in (120, (240, 120, 0)), (150, (255, 128, 0)):
            numpy.testing.assert_array_equal(mlhe.recolour(colour(200, 100, 0), row(new)), colour(*expected))
        self.assertEqual(mlhe.intensity(colour(0, 0, 1)), 0)
        numpy.testing.assert_array_equal(mlhe.recolour(colour(0, 0, 1), row(77)), colour(0, 0, 0))

    def test_p(self):
        data = b"P6\n2 1\n255\n" + bytes([10, 10, 10, 20, 20, 20])
        self.assertEqual(len(data), 17)
        self.assertEqual(mlhe.write(mlhe.enhance(mlhe.read(data)).frame), data)

    def test_q(self):
        data = bytes.fromhex("4D4C5001000100007F000001000000 0000 9C63")
        self.assertEqual(mlhe.pass_list([Pass(0, 127, 1, ANY)]), data)
        for given in data, bytearray(data), memoryview(data):
            retoned = mlhe.run_list(row(10, 20, 200, 10, 10), given)
            numpy.testing.assert_array_equal(retoned.plane, row(64, 127, 200, 10, 10))
            self.assertEqual(retoned.counts, Counts(1, 1))

    def test_q_in_both_versions(self):
        first = bytes.fromhex("4D4C5001000100 007F00000100000000009C63")
        second = bytes.fromhex("4D4C5002000100 007F00000100000000009C63 04000000")
        eight = bytes.fromhex("4D4C5002000100 007F00000100000000009C63 08000000")
        self.assertEqual((mlhe.convert_list(first), mlhe.convert_list(second)), (second, first))
        for given in bytearray(first), memoryview(first):
            self.assertEqual(mlhe.convert_list(given), second)
        self.assertEqual(mlhe.convert_list(mlhe.pass_list([])), b"MLP\2\0\0\0")
        retoned = mlhe.run_list(row(10, 20, 200, 10, 10), second)
        numpy.testing.assert_array_equal(retoned.plane, row(64, 127, 200, 10, 10))
        self.assertEqual(retoned.counts, Counts(1, 1))
        self.assertEqual(mlhe.pass_list([Pass(0, 127, 1, ANY, 8)]), eight)
        retoned = mlhe.run_list(numpy.array([[10, 200], [200, 20]], numpy.uint8), eight)
        numpy.testing.assert_array_equal(retoned.plane, [[64, 200], [200, 127]])
        self.assertEqual(retoned.counts, Counts(1, 0))

    def test_a_list_of_all_rules(self):
        passes = [Pass(0, 255, 1, Affine(2, 100, 10_000)), Pass(0, 200, 1, ANY), Pass(100, 200, 1, Limited(10))]
        data = bytes.fromhex("4D4C5001000300 00FF02020100000064001027 00C800000100000000009C63"
                             "64C80100010000000A000000")
        self.assertEqual(mlhe.pass_list(passes), data)
        plane = row(10, 10, 20, 30)
        for one in passes:
            plane = mlhe.run_pass(plane, one).plane
        left = mlhe.run_list(row(10, 10, 20, 30), data)
        for new in plane, left.plane:
            numpy.testing.assert_array_equal(new, row(134, 134, 200, 255))
        self.assertEqual(left.counts, Counts(3, 0))
        second = mlhe.convert_list(data)
        self.assertEqual((len(second), mlhe.convert_list(second)), (7 + 16 * 3, data))
        numpy.testing.assert_array_equal(mlhe.run_list(row(10, 10, 20, 30), second).plane, left.plane)


class Refusals(unittest.TestCase):
    def refused(self, number, call, *arguments, **names):
        with self.assertRaises(Refused) as caught:
            call(*arguments, **names)
        self.assertEqual(caught.exception.number, number)
        self.assertEqual(caught.exception.reason, mlhe.REASONS[number])
        self.assertEqual(str(caught.exception), f"refused {number}: {mlhe.REASONS[number]}")

    def test_sides_and_pixels(self):
        for w, h, number in (0, 1, 1), (1, 0, 1), (4_097, 1, 1), (1, 4_097, 1), (4_096, 257, 2):
            frame, plane = numpy.zeros((h, w, 3), numpy.uint8), numpy.zeros((h, w), numpy.uint8)
            self.refused(number, mlhe.intensity, frame)
            self.refused(number, mlhe.recolour, frame, plane)
            self.refused(number, mlhe.enhance, frame)
            self.refused(number, mlhe.write, frame)
            self.refused(number, mlhe.run_pass, plane, Pass(0, 255, 1, ANY))
            self.refused(number, mlhe.run_list, plane, mlhe.pass_list([]))
        # A frame of 3 TB, none of which is there: it is refused before it is copied.
        self.refused(1, mlhe.enhance, numpy.broadcast_to(numpy.uint8(0), (10**6, 10**6, 3)))
        self.assertEqual(mlhe.intensity(numpy.zeros((256, 4_096, 3), numpy.uint8)).shape, (256, 4_096))

    def test_a_plane_of_other_sides(self):
        frame = numpy.zeros((2, 3, 3), numpy.uint8)
        self.refused(3, mlhe.recolour, frame, numpy.zeros((3, 2), numpy.uint8))
        self.refused(3, mlhe.recolour, frame, numpy.zeros((2, 2), numpy.uint8))

    def test_numbers_of_passes(self):
        plane = row(1, 2)
        cases = [(5, Pass(9, 8, 1, ANY)), (6, Pass(0, 255, 0, ANY)), (6, Pass(0, 255, 1_048_577, ANY)),
                 (6, Pass(0, 255, 2**32 + 1, ANY)), (7, Pass(0, 255, 1, Plain(81, 80))),
                 (7, Pass(0, 255, 1, Plain(0, 25_501))), (7, Pass(0, 255, 1, Plain(0, 2**16))),
                 (7, Pass(0, 255, 1, Plain(2**16, 80))), (8, Pass(0, 255, 1, Limited(1_001))),
                 (8, Pass(0, 255, 1, Limited(2**16))), (5, Pass(9, 8, 1, Affine(0, 0, 0))),
                 (6, Pass(0, 255, 0, Affine(0, 0, 0))), (18, Pass(0, 255, 1, Affine(0, 0, 0))),
                 (18, Pass(0, 255, 1, Affine(17, 0, 0))), (18, Pass(0, 255, 1, Affine(257, 0, 0))),
                 (18, Pass(0, 255, 1, Affine(1, 101, 100))), (18, Pass(0, 255, 1, Affine(1, 2**16, 10_000))),
                 (18, Pass(0, 255, 1, Affine(1, 0, 10_001))), (18, Pass(0, 255, 1, Affine(1, 0, 2**16))),
                 (5, Pass(9, 8, 1, ANY, 9)), (18, Pass(0, 255, 1, Affine(0, 0, 0), 9))]
        cases += [(19, Pass(0, 255, 1, ANY, neighbours)) for neighbours in (0, 3, 9, 255, 260, 264, 2**16 + 4)]
        for number, one in cases:
            self.refused(number, mlhe.run_pass, plane, one)
            self.refused(number, mlhe.run_passes, plane, [Pass(0, 255, 1, ANY, 8), one, Pass(9, 8, 1, ANY)])
            self.refused(number, mlhe.pass_list, [Pass(0, 255, 1, ANY), one])

    def test_settings(self):
        for number, names in (9, {"last": 8}), (9, {"last": 256}), (6, {"area": 0}), (6, {"area": 2**32 + 1}), \
                (7, {"rule": Plain(81, 80)}), (8, {"rule": Limited(1_001)}), (9, {"last": 8, "area": 0}), \
                (18, {"rule": Affine(0, 0, 0)}), (18, {"rule": Affine(1, 0, 10_001)}), \
                (9, {"last": 8, "rule": Affine(0, 0, 0)}), (6, {"area": 0, "rule": Affine(0, 0, 0)}), \
                (19, {"neighbours": 6}), (19, {"neighbours": 260}), (18, {"rule": Affine(0, 0, 0), "neighbours": 6}):
            self.refused(number, mlhe.enhance, grey(1, 2), **names)

    def test_lists(self):
        plane, good = row(1, 2), mlhe.pass_list([Pass(0, 127, 1, ANY)])
        second = mlhe.convert_list(good)
        for number, data in (16, b""), (16, b"MLP"), (15, b"MLQ\1\0\0\0"), (15, b"MLP\3\0\0\0"), (16, good + b"\0"), \
                (16, b"MLP\1\0\x41\1" + good[7:] * 321), (17, good[:9] + b"\3" + good[10:]), \
                (17, good[:10] + b"\1" + good[11:]), (18, good[:9] + b"\2" + good[10:]), (16, good[:4] + second[4:]), \
                (16, second[:4] + good[4:]), (16, b"MLP\2\0\x41\1" + second[7:] * 321), (17, second[:-1] + b"\1"), \
                (16, b"MLP\1\0\0\4" + good[7:] * 1_024), (16, b"MLP\2\0\0\4" + second[7:] * 1_024), \
                (19, second[:-4] + b"\5\0\0\0"), (17, second[:-4] + b"\5\1\0\0"), \
                (18, second[:9] + b"\2" + second[10:-4] + b"\5\0\0\0"):
            self.refused(number, mlhe.run_list, plane, data)
            self.refused(number, mlhe.convert_list, data)
        for count in 319, 320:
            passes = [Pass(0, 127, 1, ANY)] * count
            first = mlhe.pass_list(passes)
            for data in first, mlhe.convert_list(first):
                self.assertEqual(mlhe.run_list(plane, data).counts, Counts(count, 0))
            self.assertEqual(mlhe.run_passes(plane, passes).counts, Counts(count, 0))
        for count in 321, 1_024, 2**16 - 1, 2**16:
            self.refused(16, mlhe.pass_list, [Pass(0, 127, 1, ANY)] * count)
            self.refused(16, mlhe.run_passes, plane, [Pass(0, 127, 1, ANY, 9)] * count)

    def test_version_1_has_no_place_for_eight_neighbours(self):
        four, eight = Pass(0, 127, 1, ANY), Pass(0, 127, 1, ANY, 8)
        for passes in [eight], [four, eight], [eight, four]:
            self.assertEqual(mlhe.pass_list(passes)[3:7], bytes([2, 0, len(passes), 0]))
            self.refused(20, mlhe.convert_list, mlhe.pass_list(passes))
        self.refused(5, mlhe.pass_list, [eight, Pass(9, 8, 1, ANY)])
        longest = mlhe.convert_list(mlhe.pass_list([four] * 320))
        self.assertEqual(len(longest), mlhe._GREATEST_LIST)
        self.assertEqual(mlhe.convert_list(longest), mlhe.pass_list([four] * 320))

    def test_files(self):
        for number, data in (10, b""), (10, b"P5 1 1 255"), (1, b"P6 0 1 255\n"), (2, b"P6 4096 257 255\n"), \
                (11, b"P6 1 1 15 "), (12, b"P6 1 1 255 12"), (13, b"P6 1 1 255 1234"), (10, b"P6 # 1 1 255 123"), \
                (10, b"P6 1 1 255#\n123"), (10, b"#\nP6 1 1 255 123"), (11, b"P6#\n1 1 15 "), (13, b"P6 1 1 255 #\n12"):
            self.refused(number, mlhe.read, data)

    def test_what_cannot_be_said(self):
        plane, frame, one = row(1, 2), grey(1, 2), Pass(0, 255, 1, ANY)
        others = [frame.astype(name) for name in ("int8", "float", "bool", ">u2")]
        for wrong in *others, frame.tolist(), frame.tobytes(), None:
            for call in mlhe.intensity, mlhe.enhance, mlhe.write, lambda frame: mlhe.recolour(frame, plane):
                self.assertRaises(TypeError, call, wrong)
        for wrong in plane, frame[0], frame[:, :, :2], numpy.zeros((2, 2, 4), numpy.uint8), frame[None]:
            self.assertRaises(ValueError, mlhe.enhance, wrong)
        self.assertRaises(TypeError, mlhe.run_pass, plane.astype(numpy.uint16), one)
        self.assertRaises(ValueError, mlhe.run_pass, frame, one)
        self.assertRaises(ValueError, mlhe.recolour, frame, frame)
        for wrong in one._replace(a=256), one._replace(b=-1), one._replace(area=-1), one._replace(rule=Limited(-1)), \
                one._replace(rule=Affine(-1, 0, 0)), one._replace(rule=Affine(1, 0, -1)), one._replace(neighbours=-4):
            self.assertRaises(ValueError, mlhe.run_pass, plane, wrong)
        for wrong in one._replace(a=1.0), one._replace(rule=(0, 1)), (0, 255, 1, ANY), one._replace(area="1"), \
                one._replace(neighbours=None):
            self.assertRaises(TypeError, mlhe.run_pass, plane, wrong)
        self.assertRaises(TypeError, mlhe.run_list, plane, 7)
        self.assertRaises(TypeError, mlhe.convert_list, "MLP")
        self.assertRaises(TypeError, mlhe.read, "P6 1 1 255 123")
        self.assertRaises(TypeError, mlhe.enhance, frame, 7)

    def test_a_refusal_travels(self):
        refusal = pickle.loads(pickle.dumps(Refused(12)))
        self.assertEqual((refusal.number, refusal.reason), (12, "the raster is short"))


class Files(unittest.TestCase):
    def test_comments(self):
        frame = grey(10, 20)
        for head in b"P6\n# made by hand\n2 1 255\n", b"P6#\r\n#\r2# 2\n1 #255\r255 ", b"P6 2 #\x00\xff\n#\n1 255\t":
            numpy.testing.assert_array_equal(mlhe.read(head + frame.tobytes()), frame)
        self.assertEqual(mlhe.read((REPOSITORY / "tests/corpus/gimp-raw.ppm").read_bytes()).shape, (64, 96, 3))


class Arrays(unittest.TestCase):
    """Any layout gives the same result, and no result shares memory with what was passed in."""

    def setUp(self):
        chance = numpy.random.default_rng(1)
        self.frame = chance.integers(0, 256, (23, 31, 3), numpy.uint8)
        self.plane = mlhe.intensity(self.frame)
        self.one = Pass(20, 200, 2, Plain(0, 25_500))

    def calls(self, frame, plane):
        return [mlhe.intensity(frame), mlhe.recolour(frame, plane), mlhe.run_pass(plane, self.one).plane,
                mlhe.run_list(plane, mlhe.pass_list([self.one])).plane, mlhe.enhance(frame).frame,
                mlhe.enhance(frame).plane, numpy.frombuffer(mlhe.write(frame), numpy.uint8)]

    def layouts(self, array):
        yield numpy.asfortranarray(array)
        yield array[::-1, ::-1].copy()[::-1, ::-1]
        wide = numpy.zeros((2 * array.shape[0], 2 * array.shape[1] + 1, *array.shape[2:]), numpy.uint8)
        wide[::2, 1::2] = array
        yield wide[::2, 1::2]
        fixed = array.copy()
        fixed.flags.writeable = False
        yield fixed

    def test_layouts(self):
        expected = self.calls(self.frame, self.plane)
        for frame, plane in zip(self.layouts(self.frame), self.layouts(self.plane)):
            before = frame.copy(), plane.copy()
            for result, same in zip(self.calls(frame, plane), expected):
                numpy.testing.assert_array_equal(result, same)
                self.assertFalse(numpy.shares_memory(result, frame) or numpy.shares_memory(result, plane))
            numpy.testing.assert_array_equal(frame, before[0])
            numpy.testing.assert_array_equal(plane, before[1])

    def test_results_are_their_own(self):
        for result in self.calls(self.frame, self.plane)[:-1]:
            self.assertTrue(result.flags.c_contiguous and result.flags.writeable and result.flags.owndata)
            self.assertEqual(result.dtype, numpy.uint8)
        data = bytearray(mlhe.write(self.frame))
        frame = mlhe.read(data)
        data[-1] ^= 255
        numpy.testing.assert_array_equal(frame, self.frame)
        self.assertTrue(frame.flags.writeable)

    def test_subclasses_and_numpy_numbers(self):
        class Picture(numpy.ndarray):
            pass

        retoned = mlhe.run_pass(self.plane.view(Picture), self.one._replace(a=numpy.uint8(20), area=numpy.int64(2)))
        self.assertIs(type(retoned.plane), numpy.ndarray)
        numpy.testing.assert_array_equal(retoned.plane, mlhe.run_pass(self.plane, self.one).plane)

    def test_a_wrong_array_does_not_reach_c(self):
        # The last line of defence, which no public call comes to.
        for wrong in numpy.zeros((4, 4), numpy.uint8)[:, ::2], numpy.zeros(8, numpy.int8), numpy.zeros(8, numpy.uint16):
            with self.assertRaises(ctypes.ArgumentError):
                mlhe._library.mlhe_intensity(bytes(24), 24, 8, 1, wrong, 8)
        with self.assertRaises(ctypes.ArgumentError):
            mlhe._library.mlhe_intensity(numpy.zeros(24, numpy.uint8), 24, 8, 1, numpy.zeros(8, numpy.uint8), 8)

    def test_threads(self):
        expected = mlhe.enhance(self.frame)
        results = []
        threads = [threading.Thread(target=lambda: results.append(mlhe.enhance(self.frame))) for _ in range(8)]
        for thread in threads:
            thread.start()
        for thread in threads:
            thread.join()
        self.assertEqual(len(results), 8)
        for result in results:
            numpy.testing.assert_array_equal(result.frame, expected.frame)
            numpy.testing.assert_array_equal(result.plane, expected.plane)


class Case:
    """A stored case, as the head of reference/src/cases.rs describes it."""

    KINDS = ("intensity", "pass", "recolour", "enhance", "list", "passes", "read", "write", "program", "house",
             "convert")
    HEAD = struct.Struct("<BBBBHHIBBHHHIIIHHBB")

    def __init__(self, data, start):
        (kind, self.a, self.b, rule, first, second, self.area, self.last, self.same, self.marks, self.queue,
         self.output, self.w, self.h, self.limit, bytes_length, plane_length,
         segments, self.neighbours) = self.HEAD.unpack_from(data, start)
        self.kind = self.KINDS[kind]
        self.rule = self.rule_of(rule, segments, first, second)
        start += self.HEAD.size
        self.bytes = data[start:start + bytes_length]
        self.plane = data[start + bytes_length:start + bytes_length + plane_length]
        self.end = start + bytes_length + plane_length

    @staticmethod
    def rule_of(code, segments, first, second):
        return (Plain(first, second), Limited(first), Affine(segments, first, second))[code]

    def is_array(self):
        """Whether arrays can say the case: the lengths are those of the sides, and there is room."""
        n = self.w * self.h
        if self.kind == "read":
            return self.limit == 1_048_576
        if self.kind == "convert":
            return len(self.bytes) < 7 or self.output >= self.converted_length()
        if self.kind in ("intensity", "recolour", "enhance", "house", "write") and len(self.bytes) != 3 * n:
            return False
        if self.kind != "write" and len(self.plane) != n:
            return False
        heading = len(f"P6\n{self.w} {self.h}\n255\n") if self.kind == "write" else 0
        if self.kind in ("recolour", "enhance", "house", "write") and self.output < heading + 3 * n:
            return False
        return self.kind in ("intensity", "recolour", "write") or min(self.marks, self.queue) >= n

    def converted_length(self):
        """The length of a list in the other version."""
        version, count = struct.unpack_from("<HH", self.bytes, 3)
        return 7 + (16 if version == 1 else 12) * count

    def passes(self):
        for a, b, rule, segments, area, first, second, neighbours in struct.iter_unpack("<BBBBIHHB", self.bytes):
            yield Pass(a, b, area, self.rule_of(rule, segments, first, second), neighbours)

    def frame(self):
        return numpy.frombuffer(self.bytes, numpy.uint8).reshape(self.h, self.w, 3)

    def values(self):
        return numpy.frombuffer(self.plane, numpy.uint8).reshape(self.h, self.w)

    def answer(self):
        """The first words of the line that answers the case, and the bytes that the call leaves."""
        if self.kind == "intensity":
            return "+0", mlhe.intensity(self.frame()).tobytes()
        if self.kind == "recolour":
            return "+0", self.filled(mlhe.recolour(self.frame(), self.values()).tobytes())
        if self.kind == "read":
            h, w = mlhe.read(self.bytes).shape[:2]
            return f"+{w} {h} {len(self.bytes) - 3 * w * h}",
        if self.kind in ("write", "convert"):
            data = mlhe.write(self.frame()) if self.kind == "write" else mlhe.convert_list(self.bytes)
            return f"+{len(data)}", self.filled(data)
        if self.kind in ("enhance", "house"):
            names = {"last": self.last, "area": self.area, "rule": self.rule, "neighbours": self.neighbours}
            enhanced = mlhe.enhance(self.frame(), **({} if self.kind == "house" else names))
            return self.line(enhanced.counts), enhanced.plane.tobytes(), self.filled(enhanced.frame.tobytes())
        if self.kind == "pass":
            retoned = mlhe.run_pass(self.values(), Pass(self.a, self.b, self.area, self.rule, self.neighbours))
        elif self.kind == "list":
            retoned = mlhe.run_list(self.values(), self.bytes)
        else:
            retoned = mlhe.run_passes(self.values(), self.passes())
        return self.line(retoned.counts), retoned.plane.tobytes()

    @staticmethod
    def line(counts):
        return f"+{counts.retoned} {counts.kept}"

    def filled(self, data):
        """An output that was 170 in every byte."""
        return data + bytes([170]) * (self.output - len(data))


class StoredCases(unittest.TestCase):
    """The cases and answers of the second implementation."""

    def test_calls(self):
        data = (REPOSITORY / "crates/vectors/stdin").read_bytes()
        lines = (REPOSITORY / "crates/vectors/stdout").read_text().splitlines()
        start, left, ran = 0, b"", {}
        for line in lines:
            case = Case(data, start)
            start = case.end
            words = line.split(" ")
            if case.same:
                case.plane = left
            if case.kind in ("intensity", "pass", "enhance", "list", "passes", "house"):
                two_counts = case.kind != "intensity" and line.startswith("+")
                left = bytes.fromhex(words[2 if two_counts else 1])
            if not case.is_array():
                continue
            with self.subTest(kind=case.kind, at=start, line=line):
                try:
                    answer, *memories = case.answer()
                    answer = [*answer.split(" "), *(memory.hex() for memory in memories)]
                    answered = "accepted"
                except Refused as refusal:
                    answer, answered = [f"-{refusal.number}"], "refused"
                self.assertEqual(words[:len(answer)], answer)
            ran[case.kind, answered] = ran.get((case.kind, answered), 0) + 1
        self.assertEqual(start, len(data))
        for kind in Case.KINDS:
            if kind != "program":
                self.assertGreater(ran.get((kind, "accepted"), 0), 20, kind)
        self.assertGreater(sum(ran.values()), 2_500)

    def test_program(self):
        """What the program answers to frames within its limits."""
        data = (REPOSITORY / "tests/vectors/program.in").read_bytes()
        lines = (REPOSITORY / "tests/vectors/program.out").read_text().splitlines()
        start, accepted = 0, 0
        for line in lines:
            case = Case(data, start)
            start = case.end
            output = bytes.fromhex(line)
            if output.startswith(b"P6"):
                self.assertEqual(mlhe.write(mlhe.enhance(mlhe.read(case.bytes)).frame), output)
                accepted += 1
        self.assertGreater(accepted, 20)


class Header(unittest.TestCase):
    """mlhe.py says what include/mlhe.h says."""

    def setUp(self):
        self.header = (REPOSITORY / "include/mlhe.h").read_text()

    def test_arguments(self):
        types = {"const uint8_t *": mlhe._BYTES, "uint8_t *": mlhe._OUTPUT, "uint32_t *": mlhe._QUEUE,
                 "size_t *": mlhe._NUMBERS, "const uint16_t *": mlhe._RULE, "size_t": ctypes.c_size_t,
                 "uint8_t": ctypes.c_uint8, "uint32_t": ctypes.c_uint32}
        declared = dict(re.findall(r"^int64_t (mlhe_\w+)\(([^)]*)\);", self.header, re.MULTILINE))
        for name, arguments in mlhe._ARGUMENTS.items():
            words = [re.sub(r"\w+$", "", " ".join(argument.split())).strip() for argument in declared[name].split(",")]
            self.assertEqual(arguments, tuple(types[word] for word in words), name)

    def test_numbers(self):
        numbers = {name: int(value) for name, value in re.findall(r"\b(MLHE_\w+) = (\d+)", self.header)}
        refusals = sorted(value for name, value in numbers.items() if name.startswith("MLHE_REFUSED_"))
        self.assertEqual(refusals, sorted(mlhe.REASONS))
        self.assertEqual(mlhe._GREATEST_HEADER, numbers["MLHE_GREATEST_HEADER"])
        self.assertEqual(len(Counts._fields), numbers["MLHE_COUNTS"])
        for place, name in enumerate(Counts._fields):
            self.assertEqual(numbers[f"MLHE_{name.upper()}"], place)
        rule = [0] * numbers["MLHE_RULE_NUMBERS"]
        for name, number in ("CODE", numbers["MLHE_AFFINE"]), ("FIRST", 7), ("SECOND", 8), ("SEGMENTS", 9):
            rule[numbers[f"MLHE_RULE_{name}"]] = number
        self.assertEqual(mlhe._rule(Affine(segments=9, smin=7, smax=8)), tuple(rule))
        self.assertEqual([mlhe._rule(rule)[0] for rule in (Plain(1, 2), Limited(3))],
                         [numbers["MLHE_PLAIN"], numbers["MLHE_LIMITED"]])
        lent = [*rule, numbers["MLHE_EIGHT_NEIGHBOURS"]]
        self.assertEqual((numbers["MLHE_RULE_NEIGHBOURS"], numbers["MLHE_PASS_NUMBERS"]), (len(rule), len(lent)))
        self.assertEqual(mlhe._rule_numbers(Affine(segments=9, smin=7, smax=8), 8), tuple(lent))
        self.assertEqual(Pass(0, 255, 1, ANY).neighbours, numbers["MLHE_FOUR_NEIGHBOURS"])
        self.assertEqual(mlhe._GREATEST_PASSES, numbers["MLHE_GREATEST_PASSES"])
        self.assertEqual(mlhe._GREATEST_LIST, 7 + 16 * numbers["MLHE_GREATEST_PASSES"])
        self.assertIn("MLHE_GREATEST_LIST = 7 + 16 * MLHE_GREATEST_PASSES", self.header)
        house = mlhe.Settings(numbers["MLHE_HOUSE_LAST"], numbers["MLHE_HOUSE_AREA"],
                              Plain(numbers["MLHE_HOUSE_LOW"], numbers["MLHE_HOUSE_HIGH"]),
                              numbers["MLHE_HOUSE_NEIGHBOURS"])
        self.assertEqual(mlhe.HOUSE, house)
        self.assertRegex(self.header, "MLHE_HOUSE_RULE = MLHE_PLAIN")


class Readme(unittest.TestCase):
    def test_lines(self):
        here = os.getcwd()
        os.chdir(Path(__file__).resolve().parent)
        self.addCleanup(os.chdir, here)
        failed, tried = doctest.testfile("README.md")
        self.assertEqual(failed, 0)
        self.assertGreater(tried, 10)


if __name__ == "__main__":
    unittest.main()
