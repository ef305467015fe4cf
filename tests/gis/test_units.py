"""Exact units, the grid text, and holes: no program is run."""
import io
import unittest
from decimal import Decimal
from fractions import Fraction

import numpy as np

import fixtures  # noqa: F401 (puts the package on the path)
from relief_gis.errors import InputError, UsageError
from relief_gis.grid_text import read_grid, write_grid
from relief_gis.heights import Heights, heights_of, scaled_integers
from relief_gis.units import decimal_of, fraction_of, radius_in_cells, rounded_up, whole_units
from relief_gis.voids import find_holes


class Units(unittest.TestCase):
    def test_eyes_are_exact(self):
        self.assertEqual(whole_units(Decimal("1.55"), 2, "eye"), 155)
        self.assertEqual(whole_units(Decimal("0.1"), 1, "eye"), 1)
        # 1.1 * 10 is 11.000000000000002 in binary.
        self.assertEqual(whole_units(decimal_of(1.1), 1, "eye"), 11)

    def test_an_eye_between_units_names_the_decimals_that_do(self):
        with self.assertRaisesRegex(UsageError, "--decimals 3 would do"):
            whole_units(Decimal("1.555"), 2, "eye")

    def test_eyes_end_at_a_million_units(self):
        self.assertEqual(whole_units(Decimal("10000"), 2, "eye"), 1_000_000)
        for wrong in ("10000.01", "-1"):
            with self.assertRaises(UsageError):
                whole_units(Decimal(wrong), 2, "eye")

    def test_a_radius_is_whole_cells_rounded_down(self):
        self.assertEqual(radius_in_cells(Decimal(5000), Fraction(30)), 166)
        # 0.3 / 0.1 is 2.9999999999999996 in binary.
        self.assertEqual(radius_in_cells(Decimal("0.3"), fraction_of(0.1)), 3)
        self.assertEqual(radius_in_cells(Decimal("1e9"), Fraction(30)), 8192)
        with self.assertRaises(UsageError):
            radius_in_cells(Decimal("29.9"), Fraction(30))

    def test_words_that_are_no_numbers(self):
        for word in ("nan", "inf", "1,5", "", "x"):
            with self.assertRaises(UsageError):
                decimal_of(word)

    def test_what_is_rounded_is_never_told_too_small(self):
        self.assertEqual(rounded_up(Decimal("0.00441")), "0.0045")
        self.assertEqual(rounded_up(Decimal("0.5")), "0.50")


class Text(unittest.TestCase):
    def text(self, units, valid=None):
        file = io.BytesIO()
        cells = np.ones((len(units), len(units[0])), bool) if valid is None else np.array(valid)
        write_grid(Heights.of_units(np.array(units, np.int64), cells, 0), file)
        return file.getvalue().decode()

    def test_rows_and_nodata(self):
        words = self.text([[-5, 120], [7, 0]], [[True, True], [False, True]]).split()
        self.assertEqual(words[:12:2], ["ncols", "nrows", "xllcorner", "yllcorner", "cellsize", "NODATA_value"])
        # All are raised by 105, so that each word has three digits; NODATA is one above the highest.
        self.assertEqual([int(word) for word in words[1:12:2]], [2, 2, 0, 0, 1, 226])
        self.assertEqual([int(word) for word in words[12:]], [100, 225, 226, 105])

    def test_numbers_of_all_lengths(self):
        numbers = [[sign * 10**digits + more for digits in range(16) for more in (-1, 0)] for sign in (1, -1)]
        body = self.text(numbers).split("\n", 6)[6]
        self.assertEqual([[int(word) for word in line.split()] for line in body.splitlines()], numbers)

    def test_no_word_is_longer_than_the_program_takes(self):
        self.assertLessEqual(max(map(len, self.text([[10**15, -10**15]]).split())), 64)

    def test_what_was_written_is_read_again(self):
        numbers = np.random.default_rng(3).integers(-10**15, 10**15, (70, 1000))
        file = io.BytesIO()
        write_grid(Heights.of_units(numbers, np.ones(numbers.shape, bool), 0), file)
        file.seek(0)
        np.testing.assert_array_equal(read_grid(file), numbers)

    def test_a_text_that_is_cut_off(self):
        with self.assertRaises(InputError):
            read_grid(io.BytesIO(b"ncols 2\nnrows 2\nxllcorner 0\nyllcorner 0\ncellsize 1\nNODATA_value 0\n1 2 3\n"))


class ArraysToUnits(unittest.TestCase):
    def test_a_float_that_is_nearest_to_its_decimals_is_not_rounded(self):
        values = np.array([[619.94, 0.01]], np.float32)
        found = heights_of(values, np.ones((1, 2), bool), 2)
        self.assertEqual((found.units.tolist(), found.rounding), ([[61994, 1]], 0.0))

    def test_rounding_is_told(self):
        found = heights_of(np.array([[1.004, 2.0]]), np.ones((1, 2), bool), 2)
        self.assertEqual(found.units.tolist(), [[100, 200]])
        self.assertAlmostEqual(float(found.rounding), 0.004)

    def test_bands_with_a_factor_are_exact(self):
        found = scaled_integers(np.array([[123, -7]], np.int32), np.ones((1, 2), bool), 0.01, 100.0, 2)
        self.assertEqual((found.units.tolist(), found.rounding), ([[10123, 9993]], 0))

    def test_what_has_no_map(self):
        valid = np.ones((1, 1), bool)
        for values in (np.array([[np.inf]]), np.array([[1e16]]), np.array([["a"]])):
            with self.assertRaises(InputError):
                heights_of(values, valid, 0)
        with self.assertRaises(InputError):
            heights_of(np.zeros((1, 4097)), np.ones((1, 4097), bool), 0)


class Holes(unittest.TestCase):
    def holes(self, picture):
        grid = np.array([list(line) for line in picture])
        return find_holes(grid != "#", grid == "m")

    def test_a_hole_inside_and_a_bay(self):
        found = self.holes(["#####", "#.##.", "##.#.", "#####"])
        self.assertEqual((found.count, found.cell_count, found.longest_side), (1, 2, 2))
        self.assertTrue(found.cells[1, 1] and found.cells[2, 2] and not found.cells[1, 4])

    def test_a_hole_that_touches_the_border_by_a_corner_is_none(self):
        self.assertEqual(self.holes([".###", "#.##", "####"]).count, 0)

    def test_a_hole_that_touches_a_mask_is_none(self):
        found = self.holes(["######", "#.m##.", "###.##", "######", "#.####", "######"])
        self.assertEqual((found.count, found.cell_count), (1, 1))

    def test_random_pictures_against_a_plain_flood(self):
        random = np.random.default_rng(5)
        for _ in range(60):
            empty = random.random(random.integers(1, 14, 2)) < random.choice([0.2, 0.4, 0.6])
            masked = empty & (random.random(empty.shape) < 0.03)
            found = find_holes(empty, masked)
            np.testing.assert_array_equal(found.cells, plain_holes(empty, masked))


def plain_holes(empty, masked):
    """Empty cells from which no walk over empty cells meets the border or a mask."""
    rows, cols = empty.shape
    open_cells = empty & masked
    open_cells[[0, -1]] |= empty[[0, -1]]
    open_cells[:, [0, -1]] |= empty[:, [0, -1]]
    queue = list(zip(*np.nonzero(open_cells)))
    while queue:
        row, col = queue.pop()
        for near in ((row + down, col + right) for down in (-1, 0, 1) for right in (-1, 0, 1)):
            if 0 <= near[0] < rows and 0 <= near[1] < cols and empty[near] and not open_cells[near]:
                open_cells[near] = True
                queue.append(near)
    return empty & ~open_cells


if __name__ == "__main__":
    unittest.main()
