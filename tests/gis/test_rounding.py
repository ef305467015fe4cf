"""Heights are rounded to the nearest unit, halves to even, by their exact values, and the greatest rounding is told."""
import re
import unittest
from concurrent.futures import ThreadPoolExecutor
from decimal import ROUND_HALF_EVEN, Decimal
from fractions import Fraction

import numpy as np

from fixtures import TYPES, Case, make_raster, read
from relief_gis.heights import heights_of, scaled_integers

TYPES_OF_FLOATS = (np.float16, np.float32, np.float64, np.longdouble)


def exact_of(value):
    """The exact number that a float is."""
    head = float(value)
    return Fraction(head) + Fraction(float(value - type(value)(head)))


def units_of(number):
    """The whole number nearest to a fraction, of two the even one."""
    return round(number)


class Floats(unittest.TestCase):
    def check(self, values, decimals):
        """Rounds floats, and compares units and the greatest rounding with exact fractions."""
        found = heights_of(values, np.ones(values.shape, bool), decimals)
        exact = [exact_of(value) * 10**decimals for value in values.ravel()]
        self.assertEqual(found.units.ravel().tolist(), [units_of(number) for number in exact])
        most = max(abs(number - units_of(number)) for number in exact)
        if found.rounding:
            self.assertAlmostEqual(float(found.rounding * 10**decimals), float(most), 9)

    def test_near_halves_of_all_types(self):
        random = np.random.default_rng(2)
        for dtype in TYPES_OF_FLOATS:
            for decimals in range(7):
                halves = (random.integers(-2000, 2000, 300) * 2 + 1) / 10**decimals / 2
                middle = halves.astype(dtype)
                near = [middle, np.nextafter(middle, dtype(np.inf)), np.nextafter(middle, dtype(-np.inf))]
                self.check(np.stack(near), decimals)

    def test_any_numbers_up_to_the_most(self):
        random = np.random.default_rng(3)
        for decimals in range(7):
            most = 10**15 / 10**decimals
            values = random.uniform(-most, most, (4, 200)) * 10 ** random.uniform(-15, 0, (4, 200))
            self.check(values, decimals)

    def test_a_hundred_thousandths(self):
        values = np.array([[1535 + number / 200 for number in range(1, 200, 2)]])
        right = [int(Decimal(float(value)).scaleb(2).quantize(Decimal(1), ROUND_HALF_EVEN)) for value in values[0]]
        self.assertEqual(heights_of(values, np.ones(values.shape, bool), 2).units[0].tolist(), right)
        # Multiplying by 100 before rounding is a unit off for many.
        self.assertGreater(np.count_nonzero(np.rint(values[0] * 100) != right), 20)

    def test_blocks_and_cells_without_data(self):
        random = np.random.default_rng(4)
        values = random.integers(0, 4000, (90, 3000)) / 200
        valid = random.random(values.shape) < 0.9
        values[~valid] = random.choice([np.nan, np.inf, 1e300], np.count_nonzero(~valid))
        found = heights_of(values, valid, 2)
        right = {number / 200: units_of(Fraction(number / 200) * 100) for number in range(4000)}
        np.testing.assert_array_equal(found.units[valid], [right[float(value)] for value in values[valid]])


class Rows(unittest.TestCase):
    """Rows are rounded when they are asked for, in any order and by several threads, to the same units."""

    def test_any_order(self):
        random = np.random.default_rng(6)
        for dtype in (np.float32, np.float64, np.int16):
            values = (random.integers(-4000, 4000, (200, 1000)) / (1 if dtype == np.int16 else 300)).astype(dtype)
            valid = random.random(values.shape) < 0.9
            whole = heights_of(values, valid, 2)
            units, rounding = whole.units, whole.rounding
            self.assertEqual(whole.ends, (units[valid].min(), units[valid].max()))
            lazy = heights_of(values, valid, 2)
            starts = random.integers(0, 199, 60).tolist()
            with ThreadPoolExecutor(4) as pool:
                parts = list(pool.map(lambda first: lazy.rows(slice(first, first + 7)).copy(), starts))
            for first, part in zip(starts, parts):
                np.testing.assert_array_equal(part, units[first:first + 7])
            part = heights_of(values, valid, 2).part((slice(20, 90), slice(3, 500)))
            np.testing.assert_array_equal(part.units, units[20:90, 3:500])
            self.assertEqual(lazy.rounding, rounding)
            np.testing.assert_array_equal(lazy.units, units)
            self.assertEqual(lazy.shape, (200, 1000))


class Integers(unittest.TestCase):
    def check(self, values, scale, offset, decimals):
        """Rounds scaled integers, and compares with exact decimals."""
        found = scaled_integers(values, np.ones(values.shape, bool), scale, offset, decimals)
        factor, shift = Fraction(repr(scale)), Fraction(repr(offset))
        exact = [(int(value) * factor + shift) * 10**decimals for value in values.ravel()]
        self.assertEqual(found.units.ravel().tolist(), [units_of(number) for number in exact])
        most = max(abs(number - units_of(number)) for number in exact)
        self.assertAlmostEqual(float(found.rounding * 10**decimals), float(most), 12)

    def test_factors_and_offsets(self):
        random = np.random.default_rng(5)
        for dtype in (np.uint8, np.int16, np.uint16, np.int32, np.uint32, np.int64):
            limits = np.iinfo(dtype)
            values = random.integers(max(limits.min, -10**9), min(limits.max, 10**9), (3, 200)).astype(dtype)
            for scale, offset, decimals in ((0.01, 100.0, 2), (0.01, 100.0, 1), (0.001, -0.0005, 2), (0.5, 0.25, 0),
                                            (0.0001220703125, -3.3, 2), (0.10000000149011612, 0.3, 3), (-2.5, 1e5, 0)):
                self.check(values, scale, offset, decimals)

    def test_cells_without_data_do_not_count(self):
        values = np.array([[10, 2**31 - 1]], np.int32)
        found = scaled_integers(values, np.array([[True, False]]), 1e9, 0.0, 0)
        self.assertEqual((int(found.units[0, 0]), found.rounding), (10**10, 0))


class Rasters(Case):
    def filled(self, array, *words, **more):
        """Filled heights of one row, which are the heights, and the lines."""
        make_raster(self.folder / "dem.tif", array, **more)
        lines = self.make("fill", "dem.tif", "out.tif", *words)
        return read(self.folder / "out.tif"), lines

    def test_doubles(self):
        values = np.array([[1535 + number / 200 for number in range(1, 200, 2)]])
        found, lines = self.filled(values)
        right = [Decimal(float(value)).quantize(Decimal("0.01"), ROUND_HALF_EVEN) for value in values[0]]
        self.assertEqual([f"{value:.2f}" for value in found[0]], [str(value) for value in right])
        self.assertIn("heights rounded to 0.01, by at most 0.0050\n", lines)

    def test_scaled_integers_are_rounded_where_asked_for(self):
        values = np.array([[5, 15, 25, 26, -5, -15]], np.int16)
        found, lines = self.filled(values, "--decimals", "1", scale=0.01)
        self.assertEqual([f"{value:.1f}" for value in found[0]], ["0.0", "0.2", "0.2", "0.3", "0.0", "-0.2"])
        self.assertEqual(lines, "relief-gis: heights rounded to 0.1, by at most 0.050\n")
        found, lines = self.filled(values, scale=0.01)
        self.assertEqual(lines, "")
        self.assertEqual([f"{value:.2f}" for value in found[0]], ["0.05", "0.15", "0.25", "0.26", "-0.05", "-0.15"])

    def test_integers_are_never_rounded(self):
        for name in ("uint8", "int16", "int32"):
            _, lines = self.filled(np.array([[3, 1, 2]], name), "--decimals", "0")
            self.assertEqual(lines, "")
        self.assertIn("int32", TYPES)

    def test_scaled_integers_with_many_decimals(self):
        values = np.array([[1000, 1001, 1002]], np.int16)
        found, lines = self.filled(values, "--decimals", "3", scale=0.0001220703125, offset=0.5)
        right = [Decimal("0.0001220703125") * int(value) + Decimal("0.5") for value in values[0]]
        self.assertEqual([f"{value:.3f}" for value in found[0]], [f"{value:.3f}" for value in right])
        told = Decimal(re.search(r"rounded to 0\.001, by at most ([\d.]+)", lines)[1])
        most = max(abs(value - round(value, 3)) for value in right)
        self.assertTrue(most <= told <= most * Decimal("1.2"))


if __name__ == "__main__":
    unittest.main()
