"""Sides and origins of cells stand for the simplest fractions near their floats, and radii and bounds are exact."""
import math
import unittest
from fractions import Fraction

import numpy as np

from fixtures import Case, by_hand, hills, info, make_raster, read
from relief_gis.frame import Frame
from relief_gis.units import origin_of, plain, side_of, simplest_fraction


def least_by_trial(number, most):
    """The nearest fraction of the least denominator within a distance of a number, by trying each in turn."""
    denominator = 1
    while math.ceil((number - most) * denominator) > (number + most) * denominator:
        denominator += 1
    return Fraction(round(number * denominator), denominator)


class Fractions(unittest.TestCase):
    def test_sides(self):
        for value, exact in ((30.000000000000004, "30"), (29.999999999999996, "30"), (0.1, "1/10"),
                             (0.30000000000000004, "3/10"), (1 / 3, "1/3"), (-1 / 3, "-1/3"), (27.77777778, "250/9"),
                             (0.3048006096012192, "1200/3937"), (1e-5, "1/100000"), (1e7, "10000000")):
            self.assertEqual(side_of(value), Fraction(exact))
        for value in np.random.default_rng(9).uniform(0.1, 99, 100):
            self.assertLessEqual(abs(side_of(value) / Fraction(value) - 1), Fraction(1, 10**9))

    def test_no_simpler_fraction_is_near(self):
        random = np.random.default_rng(8)
        for number in random.uniform(-50, 50, 400):
            most = Fraction(int(random.integers(1, 999)), 10 ** int(random.integers(4, 7)))
            self.assertEqual(simplest_fraction(Fraction(number), most), least_by_trial(Fraction(number), most))

    def test_origins(self):
        self.assertEqual(origin_of(500000.00000000006, Fraction(30)), 500000)
        self.assertEqual(origin_of(500000.3333333333, Fraction(1, 3)), 500000 + Fraction(1, 3))
        self.assertEqual(origin_of(0.1 + 0.2, Fraction(-1, 10)), Fraction(3, 10))
        # A hundred-millionth of a cell beside a round number is another origin.
        self.assertNotEqual(origin_of(500000.0000003, Fraction(30)), 500000)

    def test_how_they_are_written(self):
        self.assertEqual([plain(side_of(it)) for it in (30.000000000000004, 0.1 + 0.2, 1e-5)], ["30", "0.3", "0.00001"])

    def test_a_part_keeps_the_exact_origin(self):
        whole = Frame((0.30000000000000004, 0.1, 0.0, 0.7, 0.0, -0.1), "", 100, 100)
        part = whole.part((7, 3, 10, 10))
        self.assertEqual(part.corner, (1, Fraction(4, 10)))
        self.assertEqual(part.cell_at(Fraction(1), Fraction(4, 10)), (0, 0))
        self.assertEqual(whole.cell_at(Fraction(1), Fraction(4, 10)), (3, 7))


class Rasters(Case):
    def raster(self, side, west=500000.0, north=5200000.0, shape=(40, 60)):
        placed = west, side, 0.0, north, 0.0, -side
        make_raster(self.folder / "dem.tif", hills(*shape).astype(np.float32), placed=placed)

    def test_radii(self):
        for side, radius, cells, told in ((30.000000000000004, "360", 12, "30"), (0.1 * 3, "3.6", 12, "0.3"),
                                          (0.7000000000000001, "7", 10, "0.7"), (1 / 3, "4", 12, "0.3333333333")):
            self.raster(side)
            x, y = 500000 + 20.5 * side, 5200000 - 10.5 * side
            lines = self.make("view", "dem.tif", "out.tif", "--at", f"{x},{y}", "--eye", "12", "--radius", radius)
            self.assertEqual(lines, f"relief-gis: radius {radius}: {cells} whole cells of {told}\n")
            expected = by_hand(["view", "--radius", str(cells), "10,20,1200"], self.folder / "dem.tif", 2)
            np.testing.assert_array_equal(read(self.folder / "out.tif").astype(str), expected)

    def test_widths_of_tenths_that_tools_add_up(self):
        # A side as (east - west) / columns, which is a hair off for most widths.
        for cols in range(3, 400, 13):
            for tenths in (1, 3, 7):
                side = (500000.0 + cols * tenths / 10 - 500000.0) / cols
                frame = Frame((500000.0, side, 0.0, 5200000.0, 0.0, -side), "", cols, 9)
                self.assertEqual(frame.cell, Fraction(tenths, 10))
                for col in (1, cols // 2, cols - 1):
                    self.assertEqual(frame.cell_at(500000 + Fraction(col * tenths, 10), Fraction(5200000))[1], col)

    def test_bounds_on_borders_of_cells(self):
        for side, bounds, window in ((30.000000000000004, "500210,5199400,501110,5199670", (7, 11, 30, 9)),
                                     (0.1 * 3, "500002.1,5199994,500011.1,5199996.7", (7, 11, 30, 9)),
                                     (0.1, "500000.7,5199998,500003.7,5199998.9", (7, 11, 30, 9))):
            self.raster(side)
            self.make("accumulate", "dem.tif", "bounds.tif", "--bounds", bounds)
            self.make("accumulate", "dem.tif", "window.tif", "--window", ",".join(map(str, window)))
            self.assertEqual(info(self.folder / "bounds.tif")["size"], [window[2], window[3]])
            np.testing.assert_array_equal(read(self.folder / "bounds.tif"), read(self.folder / "window.tif"))
            x, _, _, y, _, _ = info(self.folder / "bounds.tif")["geoTransform"]
            west, _, _, north = (float(word) for word in bounds.split(","))
            self.assertEqual((x, y), (west, north))

    def test_points_on_borders_of_cells(self):
        for side in (30.000000000000004, 0.1 * 3):
            self.raster(side)
            exact = Fraction(round(side * 10), 10)
            x, y = float(500000 + 21 * exact), float(5200000 - 11 * exact)
            radius = str(float(5 * exact))
            self.make("view", "dem.tif", "out.tif", "--at", f"{x},{y}", "--eye", "12", "--radius", radius)
            expected = by_hand(["view", "--radius", "5", "11,21,1200"], self.folder / "dem.tif", 2)
            np.testing.assert_array_equal(read(self.folder / "out.tif").astype(str), expected)

    def test_areas(self):
        self.raster(30.000000000000004)
        self.make("area", "dem.tif", "area.tif")
        self.assertEqual(read(self.folder / "area.tif").min(), 900.0)
        for side, exact in ((0.1, Fraction(1, 10)), (1 / 3, Fraction(1, 3))):
            self.raster(side)
            self.make("area", "dem.tif", "area.tif")
            counts = by_hand(["accumulate"], self.folder / "dem.tif", 2).astype(int)
            right = [float((int(count) + 1) * exact ** 2) for count in counts.ravel()]
            self.assertEqual(read(self.folder / "area.tif").ravel().tolist(), right)


if __name__ == "__main__":
    unittest.main()
