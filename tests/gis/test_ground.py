"""Cells on the ground: which are square within 1 %, by formulas of map projections and of the ellipsoid."""
import math
import unittest

import numpy as np
from osgeo import osr

from fixtures import Case, at, hills, make_raster
from relief_gis.frame import reference_of
from relief_gis.ground import conformal_code, ground_cell

# WGS 84.
MAJOR, FLATTENING = 6378137.0, 1 / 298.257223563
ECCENTRICITY = FLATTENING * (2 - FLATTENING)


def radii(latitude):
    """The radii of curvature across and along the meridian, and of the parallel."""
    root = 1 - ECCENTRICITY * math.sin(math.radians(latitude)) ** 2
    across = MAJOR / math.sqrt(root)
    return across, MAJOR * (1 - ECCENTRICITY) / root**1.5, across * math.cos(math.radians(latitude))


def place(projection, longitude, latitude):
    """Coordinates of a place on earth."""
    change = osr.CoordinateTransformation(reference_of("EPSG:4326"), reference_of(projection))
    return change.TransformPoint(longitude, latitude)[:2]


class Lengths(unittest.TestCase):
    def sides(self, projection, longitude, latitude, side):
        cell = ground_cell(reference_of(projection), place(projection, longitude, latitude), side, -side)
        return cell.wide, cell.high, cell.falling, cell.rising

    def test_equidistant_cylindrical(self):
        for latitude in (0.0, 30.0, 47.8, 80.0):
            for side in (0.1, 30.0, 5000.0):
                _, along, parallel = radii(latitude)
                wide, high = side * parallel / MAJOR, side * along / MAJOR
                expected = wide, high, math.hypot(wide, high), math.hypot(wide, high)
                np.testing.assert_allclose(self.sides("EPSG:4087", 9.0, latitude, side), expected, rtol=2e-4)

    def test_equal_area_keeps_areas(self):
        for latitude in (0.0, 47.8, 70.0):
            wide, high, _, _ = self.sides("EPSG:6933", 9.0, latitude, 100.0)
            self.assertAlmostEqual(wide * high / 1e4, 1, 4)

    def test_conformal_projections(self):
        for code, longitude, latitude in ((32632, 9, 47.8), (2056, 8, 46.5), (2263, -74, 41), (3413, -45, 89.99),
                                          (27572, 3, 46), (5041, 0, 88), (31467, 9, 50), (7415, 5, 52), (3395, 9, 60)):
            wide, high, falling, rising = self.sides(f"EPSG:{code}", longitude, latitude, 25.0)
            np.testing.assert_allclose((high, falling, rising), (wide, wide * 2**0.5, wide * 2**0.5), rtol=1e-4)

    def test_web_mercator_is_square_within_one_percent(self):
        for latitude in (0, 20, 47.8, 80):
            across, along, _ = radii(latitude)
            wide, high, _, _ = self.sides("EPSG:3857", 9.0, latitude, 30.0)
            self.assertAlmostEqual(wide / high, across / along, 4)
            self.assertLess(wide / high, 1.01)

    def test_a_sheared_cell_has_unequal_diagonals(self):
        # On the sinusoidal projection x is the length along the parallel: a step north leads aside.
        longitude, latitude = 60.0, 45.0
        shear = math.radians(longitude) * math.sin(math.radians(latitude))
        _, _, falling, rising = self.sides("+proj=sinu +R=6371007", longitude, latitude, 50.0)
        self.assertAlmostEqual(max(falling, rising) / min(falling, rising),
                               math.hypot(1 + shear, 1) / math.hypot(1 - shear, 1), 2)

    def test_zones(self):
        for longitude, latitude, code in ((9, 47.8, 32632), (-180, 10, 32601), (179.9, -10, 32760), (8, 86, 5041),
                                          (8, -81, 5042)):
            self.assertEqual(conformal_code(longitude, latitude)[0], code)


class Rasters(Case):
    def raster(self, projection, longitude, latitude, side=30.0, shape=(30, 40)):
        """A raster whose first corner lies at a place."""
        x, y = place(projection, longitude, latitude)
        make_raster(self.folder / "dem.tif", hills(*shape).astype(np.float32), placed=(x, side, 0.0, y, 0.0, -side),
                    projection=projection)

    def test_refused(self):
        for projection in ("EPSG:4087", "EPSG:6933", "ESRI:54009", "EPSG:32662"):
            self.raster(projection, 9.0, 47.8)
            lines = self.refuse(2, "cells that are not square on the ground: ", "fill", "dem.tif", "out.tif")
            self.assertRegex(lines, r"Project it to UTM zone 32N, EPSG:32632, first: gdalwarp -ot Float32 -r bilinear "
                                    r"-t_srs EPSG:32632 -tr \d+ \d+ -dstnodata -9999 dem.tif metres.tif\n$")

    def test_the_lengths_are_told(self):
        self.raster("EPSG:4087", 9.0, 47.8)
        across, along, parallel = radii(47.8)
        self.refuse(2, f"{30 * parallel / MAJOR:.2f} by {30 * along / MAJOR:.2f} m", "fill", "dem.tif", "out.tif")

    def test_taken(self):
        for projection in ("EPSG:32632", "EPSG:3857", "EPSG:3395", "EPSG:2056", "EPSG:3035", "EPSG:31467"):
            self.raster(projection, 9.0, 47.8)
            self.make("fill", "dem.tif", "out.tif")

    def test_the_limit_is_one_percent(self):
        # A parallel shrinks with the cosine: find where a cell is a hundredth higher than wide.
        low, high = 0.0, 45.0
        for _ in range(60):
            middle = (low + high) / 2
            _, along, parallel = radii(middle)
            low, high = (middle, high) if along / parallel < 1.01 else (low, middle)
        for latitude, status in ((low + 0.05, 2), (low - 0.05, 0)):
            self.raster("EPSG:4087", 9.0, latitude, 10.0)
            self.assertEqual(self.run_command("fill", "dem.tif", "out.tif")[0], status, latitude)

    def test_each_corner_of_what_is_read_counts(self):
        # From 12 to 4 degrees north by cells of 30 km: the north is past one percent.
        self.raster("EPSG:4087", 9.0, 12.0, 30000.0, (30, 40))
        self.refuse(2, "not square on the ground", "fill", "dem.tif", "out.tif")
        self.make("fill", "dem.tif", "out.tif", "--window", "0,20,40,10")

    def test_off_the_earth(self):
        make_raster(self.folder / "dem.tif", hills().astype(np.float32), placed=(1.8e7, 1000.0, 0, 8.9e6, 0, -1000.0),
                    projection="ESRI:54009")
        self.refuse(2, "lies off the earth", "fill", "dem.tif", "out.tif")

    def test_local_and_no_projections_are_not_judged(self):
        make_raster(self.folder / "dem.tif", hills().astype(np.float32), projection='LOCAL_CS["site",UNIT["metre",1]]')
        self.make("view", "dem.tif", "out.tif", *at(3, 3), "--eye", "2")
        make_raster(self.folder / "dem.tif", hills().astype(np.float32), projection=None)
        self.make("fill", "dem.tif", "out.tif", "--no-projection")


if __name__ == "__main__":
    unittest.main()
