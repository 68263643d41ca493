# SPDX-License-Identifier: MIT
"""Tests of godf.py: against what the C example prints, document 01's examples and known values. compare/packages runs them:

    GODF_SHARED=PREFIX/lib/libgodf.so GODF_EXAMPLE=(the program of examples/solve.c) python3 python/test_godf.py
"""

import ctypes
import math
import os
import re
import subprocess
import sys
import threading
import unittest
from array import array

import godf
import godf_words

PROJECT = os.path.join(os.path.dirname(os.path.abspath(__file__)), "..")
TRIANGLE = [(0, 0, 0), (1, 0, 0), (0, 1, 0)]
FE_UPWARD = 0x800  # C's, on x86-64


def leaf(name, x):
    function = getattr(godf._library, name)
    function.restype, function.argtypes = ctypes.c_double, [ctypes.c_double]
    return function(x)


def fan(sectors):
    """examples/solve.c's floor, bit for bit."""
    turns = [6.283185307179586 * i / sectors for i in range(sectors + 1)]
    points = [(leaf("godf_cos", turn), leaf("godf_sin", turn), 0.0) for turn in turns]
    points[0] = (0.0, 0.0, 0.0)
    return points, [(0, i + 1, (i + 1) % sectors + 1) for i in range(sectors)]


class Solve(unittest.TestCase):
    def setUp(self):
        self.points, self.triangles = fan(12)
        self.options = {"boundary": "tangent", "adaptive": 0.3}

    def solve(self, points=None, triangles=None, sizes=1.0):
        return godf.solve(points or self.points, triangles or self.triangles, sizes, **self.options)

    @unittest.skipUnless("GODF_EXAMPLE" in os.environ, "GODF_EXAMPLE does not name the program of examples/solve.c")
    def test_prints_what_the_c_example_prints(self):
        lines = subprocess.run([os.environ["GODF_EXAMPLE"]], stdout=subprocess.PIPE, universal_newlines=True, check=True).stdout.splitlines()
        field = self.solve()
        expected = ["%d triangles flagged, %d edges cut" % (field.flagged, field.cut)]
        expected += ["angle at point %d: %.4f" % (i, angle) for i, angle in enumerate(field.angles)]
        expected.append("singularities: %d of valence 3, %d of valence 5" % godf.count_singularities(field.angles, self.triangles))
        with self.assertRaises(godf.Refusal) as caught:
            self.solve(sizes=[1.0] * 5 + [-1.0] + [1.0] * 7)
        refusal = caught.exception
        expected.append("refusal %d: %s (place %d)" % (refusal.number, godf_words.REFUSALS[refusal.number], refusal.place))
        self.assertEqual(lines, expected)

    def test_counts_and_lengths(self):
        field = self.solve()
        self.assertEqual((field.flagged, field.cut), (12, 24))
        self.assertEqual((len(field.angles), len(field.first_angles), len(field.refined_angles)), (13, 13, 37))
        self.assertEqual(field.angles, field.refined_angles[:13])
        self.assertNotEqual(field.angles, field.first_angles)
        self.assertTrue(all(0 <= angle < math.pi / 2 for angle in field.refined_angles))
        self.options["adaptive"] = 0.0
        once = self.solve()
        self.assertEqual((once.flagged, once.cut, once.refined_angles), (0, 0, None))
        self.assertEqual(once.angles, field.first_angles)

    def test_input_forms_give_the_same_bits(self):
        angles = self.solve().angles
        flat = [x for point in self.points for x in point]
        corners = [corner for triangle in self.triangles for corner in triangle]
        reals, words = array("d", flat), array("I", corners)
        shaped = memoryview(reals).cast("B").cast("d", (13, 3))  # as a NumPy array of float64
        shaped_words = memoryview(words).cast("B").cast("I", (12, 3))
        signed = memoryview(array("q", corners)).cast("B").cast("q", (12, 3))  # as a NumPy array of int64
        unwritable = memoryview(bytes(reals)).cast("d", (13, 3))
        single = memoryview(array("f", [1.0] * 13))  # as a NumPy array of float32
        for points, triangles in [(flat, corners), (reals, words), (shaped, shaped_words), (shaped, signed), (unwritable, shaped_words),
                                  ([point[:2] for point in self.points], self.triangles)]:
            for sizes in (array("d", [1.0] * 13), single, [1] * 13):
                self.assertEqual(self.solve(points, triangles, sizes).angles, angles)
        self.assertEqual(list(reals), flat)

    def test_z_is_not_read(self):
        self.assertEqual(self.solve([(x, y, math.nan) for x, y, _ in self.points]).angles, self.solve().angles)

    def test_guidance(self):
        wanted = array("d", (0.01 * i for i in range(13)))
        field = godf.solve(self.points, self.triangles, 1.0, guidance=(wanted, 1e9))
        for angle, guide in zip(field.angles, wanted):
            self.assertAlmostEqual(math.sin(2 * (angle - guide)), 0, delta=1e-6)

    def test_a_workspace_gives_the_same_bits_again(self):
        workspace, small = godf.Workspace(), fan(5)
        first = workspace.solve(self.points, self.triangles, 1.0, **self.options)
        between = workspace.solve(*small, 1.0, **self.options)
        again = workspace.solve(self.points, self.triangles, 1.0, **self.options)
        self.assertEqual(first.refined_angles, again.refined_angles)
        self.assertEqual(between.angles, godf.solve(*small, 1.0, **self.options).angles)

    def test_threads(self):
        expected, found = self.solve().refined_angles, []
        threads = [threading.Thread(target=lambda: found.append(self.solve().refined_angles)) for _ in range(4)]
        for thread in threads:
            thread.start()
        for thread in threads:
            thread.join()
        self.assertEqual(found, [expected] * 4)

    def test_any_rounding_mode_gives_the_same_bits_and_stays(self):
        expected = self.solve().refined_angles
        sizes = array("d", [1.0] * 13)
        godf._library.fesetround(FE_UPWARD)
        try:
            found = self.solve(sizes=sizes)
            mode = godf._library.fegetround()
        finally:
            godf._library.fesetround(0)
        self.assertEqual(mode, FE_UPWARD)
        self.assertEqual(found.refined_angles, expected)

    def test_wrong_arguments(self):
        for wrong in [{"boundary": "loose"}, {"points": [(1,)]}, {"triangles": [(0, 1)]}, {"points": [0.0, 1.0]}]:
            with self.assertRaises(ValueError):
                godf.solve(**{**{"points": self.points, "triangles": self.triangles, "sizes": 1.0}, **wrong})
        with self.assertRaises(TypeError):
            godf.solve(self.points, self.triangles, 1.0, threshold=0.1)
        with self.assertRaises(OverflowError):
            godf.solve(self.points, [(0, 1, -1)], 1.0)


class Refusals(unittest.TestCase):
    """Document 01's examples, changed from a triangle with sizes 1."""

    def check(self, number, kind=None, place=None, pass_number=0, reason=0, **changed):
        call = {"points": TRIANGLE, "triangles": [(0, 1, 2)], "sizes": [1.0, 1.0, 1.0], "iterations": 10}
        call.update(changed)
        with self.assertRaises(godf.Refusal) as caught:
            godf.solve(**call)
        refusal = caught.exception
        self.assertEqual((refusal.number, refusal.kind, refusal.place, refusal.pass_number, refusal.reason), (number, kind, place, pass_number, reason))
        self.assertIn(godf_words.REFUSALS[number], str(refusal))
        return str(refusal)

    def test_every_refusal(self):
        many = array("d", [0.0] * (3 * 16385))
        self.check(1, points=many, sizes=array("d", [1.0] * 16385))
        self.check(2, iterations=0)
        self.check(3, points=[], sizes=[])
        self.check(4, triangles=[])
        self.check(5, sizes=[1.0, 1.0])
        self.check(6, "point", 1, points=[(0, 0, 0), (math.inf, 0, 0), (0, 1, 0)])
        self.check(7, "point", 1, sizes=[1.0, 0.0, 1.0])
        self.check(8, "triangle", 0, triangles=[(0, 1, 3)])
        self.check(9, holomorphic=1.5)
        self.check(10, anisotropy=0.0)
        self.check(11, anisotropy_angle=math.inf)
        self.check(12, adaptive=-1.0)
        self.check(13, boundary="weak", boundary_weight=-1.0)
        self.check(14, guidance=([0.0] * 3, -1.0))
        self.check(15, guidance=([0.0] * 2, 1.0))
        self.check(16, "point", 1, guidance=([0.0, math.nan, 0.0], 1.0))
        self.check(17, "anisotropy angle", None, anisotropy_angle=131073.0)
        self.check(17, "point", 2, guidance=([0.0, 0.0, -131073.0], 1.0))
        self.check(19, "triangle", 0, 1, triangles=[(0, 0, 1)])
        self.check(20, "point", 3, 1, points=TRIANGLE + [(2, 2, 2)], sizes=[1.0] * 4)
        self.check(21, "point", 0, 1, points=[(0, 0, 0), (1e-160, 0, 0), (0, 1e-160, 0)])
        text = self.check(22, "edge", (0, 1), 1, sizes=[1.7e308] * 3)
        self.assertTrue(text.endswith("(edge 0 to 1)"), text)
        self.check(23, None, None, 1, triangles=[(0, 1, 2), (0, 1, 2)], boundary="tangent")
        text = self.check(24, None, None, 1, 3, boundary="weak", boundary_weight=5e-324)
        self.assertTrue(text.endswith(godf_words.REASONS[3]), text)

    def test_on_the_refined_floor(self):
        # docs/DIFFERENCES.md, made small: reason 4 at point 2 of pass 2
        text = self.check(24, "point", 2, 2, 4, points=[(1, 0, 0), (1, 1, 0), (0, 0, 0)], sizes=[0.4, 4, 0.45], holomorphic=-1.0, adaptive=1e-9, iterations=5)
        self.assertTrue(text.startswith("on the refined floor, "), text)

    def test_numbers_have_words_and_names(self):
        self.assertEqual(sorted(godf_words.REFUSALS), list(range(1, 25)))
        self.assertEqual(sorted(godf_words.REASONS), list(range(1, 14)))
        self.assertEqual(sorted(godf_words.NAMES.values()), list(range(1, 25)))


class Refine(unittest.TestCase):
    """Document 01's listing: a square of two triangles."""

    SQUARE = [(0, 0), (2, 0), (2, 2), (0, 2)]
    TRIANGLES = [(0, 1, 2), (0, 2, 3)]

    def test_the_listing(self):
        refined = godf.refine(self.SQUARE, self.TRIANGLES, 1.0, [0, 384 / 1024, 0, 0], 256 / 1024)
        self.assertEqual(refined.cut_edges, [(0, 1), (1, 2), (0, 2)])
        self.assertEqual(refined.triangles, [(0, 4, 6), (4, 1, 5), (6, 5, 2), (4, 5, 6), (0, 6, 3), (6, 2, 3)])
        self.assertEqual(refined.points[4:], [(1, 0, 0), (2, 1, 0), (1, 1, 0)])
        self.assertEqual((len(refined.points), list(refined.sizes), refined.flagged), (7, [1.0] * 7, 1))

    def test_nothing_flagged(self):
        refined = godf.refine(self.SQUARE, self.TRIANGLES, 1.0, [0, 384 / 1024, 0, 0], 384 / 1024)
        self.assertEqual((refined.flagged, refined.cut_edges, refined.triangles), (0, [], self.TRIANGLES))

    def test_refusals(self):
        for number, place, angles, triangles in [(5, None, [0.0] * 3, self.TRIANGLES), (8, 1, [0.0] * 4, [(0, 1, 2), (0, 2, 4)])]:
            with self.assertRaises(godf.Refusal) as caught:
                godf.refine(self.SQUARE, triangles, 1.0, angles, 0.1)
            self.assertEqual((caught.exception.number, caught.exception.place), (number, place))


class Reading(unittest.TestCase):
    def test_probe(self):
        self.assertEqual(godf.probe([0.25] * 3, TRIANGLE, [(0, 1, 2)], 0.2, 0.2), 0.25)
        self.assertIsNone(godf.probe([0.25] * 3, TRIANGLE, [(0, 1, 2)], 5, 5))
        self.assertIsNone(godf.probe([0.25] * 2, TRIANGLE, [(0, 1, 2)], 0.2, 0.2))
        with self.assertRaises(ValueError):
            godf.probe([131073.0] * 3, TRIANGLE, [(0, 1, 2)], 0.2, 0.2)

    def test_singularities(self):
        angles, triangles = [0.0, 0.5, 1.0], [(0, 1, 2), (0, 2, 1), (0, 0, 1)]
        self.assertEqual(godf.count_singularities(angles, triangles), (1, 1))
        self.assertEqual(godf.singularities(angles, triangles), [(0, 3), (1, 5)])


class Files(unittest.TestCase):
    def test_the_version_is_the_headers(self):
        with open(os.path.join(PROJECT, "include", "godf.h")) as header:
            self.assertEqual(godf.VERSION, int(re.search(r"^#define GODF_VERSION (\d+)$", header.read(), re.MULTILINE).group(1)))

    def test_the_example(self):
        printed = subprocess.run([sys.executable, os.path.join(PROJECT, "python", "example.py")], stdout=subprocess.PIPE,
                                 universal_newlines=True, check=True).stdout.splitlines()
        self.assertEqual(printed[0], "145 points, 264 triangles")
        self.assertEqual([line.split(" at ")[0] for line in printed[1:5]], ["3 quads meet"] * 4)
        self.assertEqual(printed[5:], ["angle at (5, 0): 1.5708", "refusal 7: a size is not finite and positive (point 0)"])


if __name__ == "__main__":
    unittest.main()
