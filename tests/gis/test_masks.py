"""Alpha bands, masks, NODATA and NaN: one rule says where there is data, and what a hole is."""
import math
import subprocess
import sys
import unittest

import numpy as np
from osgeo import gdal

from fixtures import PLACED, TOP, TYPES, UTM, Case, by_hand, hills, make_raster, read

HOLES = TOP / "tools" / "holes"


def add_alpha(path, array, alphas, nodata=None):
    """Writes a raster with bands of heights and of alphas, each of the type of the heights."""
    rows, cols = array.shape
    dataset = gdal.GetDriverByName("GTiff").Create(str(path), cols, rows, 1 + len(alphas), TYPES[array.dtype.name])
    dataset.SetGeoTransform(PLACED)
    dataset.SetProjection(gdal.osr.SpatialReference(gdal.osr.GetUserInputAsWKT(UTM)).ExportToWkt())
    dataset.GetRasterBand(1).WriteArray(array)
    if nodata is not None:
        dataset.GetRasterBand(1).SetNoDataValue(nodata)
    # GDAL warns of a second alpha band.
    gdal.PushErrorHandler("CPLQuietErrorHandler")
    for number, alpha in enumerate(alphas, 2):
        dataset.GetRasterBand(number).SetColorInterpretation(gdal.GCI_AlphaBand)
        dataset.GetRasterBand(number).WriteArray(alpha.astype(array.dtype))
    del dataset
    gdal.PopErrorHandler()


def relief_holes(folder, *words):
    """What relief-holes prints."""
    done = subprocess.run([sys.executable, str(HOLES), *map(str, words)], cwd=folder, capture_output=True, text=True)
    return done.stdout + done.stderr


class Data(Case):
    """Where there is data, against `relief` run by hand on a raster with NODATA there."""

    def setUp(self):
        super().setUp()
        self.heights = np.rint(hills() / 4)
        self.valid = np.ones(self.heights.shape, bool)
        self.valid[:9, :12] = False
        self.valid[-4:, 20:] = False
        make_raster(self.folder / "plain.tif", np.where(self.valid, self.heights, -9999).astype(np.float32), -9999.0)
        self.expected = by_hand(["fill"], self.folder / "plain.tif")

    def check(self, told=""):
        """Maps dem.tif, of which the filled heights have to be those of the plain raster."""
        self.assertEqual(self.make("fill", "dem.tif", "out.tif", "--decimals", "0"), told)
        self.make("basins", "dem.tif", "basins.tif")
        np.testing.assert_array_equal(read(self.folder / "basins.tif") == -9999, ~self.valid)
        found = read(self.folder / "out.tif")
        np.testing.assert_array_equal(found[self.valid], self.expected[self.valid].astype(float))

    def test_alpha_of_each_type(self):
        for name in TYPES:
            kind = np.dtype(name)
            junk = np.where(self.valid, self.heights, 7).astype(kind)
            add_alpha(self.folder / "dem.tif", junk, [np.where(self.valid, 100, 0)])
            self.check()

    def test_an_alpha_of_one_is_data(self):
        add_alpha(self.folder / "dem.tif", self.heights.astype(np.float32), [self.valid])
        self.check()

    def test_each_of_two_alpha_bands_counts(self):
        one, other = np.ones(self.valid.shape), np.ones(self.valid.shape)
        one[:9], other[9:] = self.valid[:9], self.valid[9:]
        add_alpha(self.folder / "dem.tif", self.heights.astype(np.float32), [one, other])
        self.check()

    def test_alpha_nodata_and_nan_together(self):
        array = self.heights.astype(np.float32)
        alpha = np.ones(array.shape)
        array[:3, :12], array[3:5, :12] = -5, np.nan
        alpha[5:9, :12] = alpha[-4:, 20:] = 0
        add_alpha(self.folder / "dem.tif", array, [alpha], -5)
        self.check()

    def test_a_mask_beside_nodata(self):
        array = np.where(self.valid, self.heights, -5).astype(np.float32)
        mask = np.ones(array.shape, bool)
        mask[:9, :12] = False
        array[:9, :12] = 8
        make_raster(self.folder / "dem.tif", array, -5, mask=mask)
        self.check()

    def test_a_warp_with_alpha(self):
        make_raster(self.folder / "f.tif", hills(60, 60).astype(np.float32))
        for words, name in ((["-dstalpha"], "dem.tif"), (["-dstnodata", "-9999"], "plain.tif")):
            command = ["gdalwarp", "-q", "-overwrite", "-t_srs", "EPSG:25835", "-tr", "30", "30", *words, "f.tif", name]
            subprocess.run(command, cwd=self.folder, check=True)
        self.valid = read(self.folder / "plain.tif") != -9999
        self.assertGreater(np.count_nonzero(~self.valid), 1000)
        expected = by_hand(["fill"], self.folder / "plain.tif", 2)
        subprocess.run(["gdal_translate", "-q", "-of", "VRT", "dem.tif", "dem.vrt"], cwd=self.folder, check=True)
        for name in ("dem.tif", "dem.vrt"):
            self.make("fill", name, "out.tif")
            self.make("basins", name, "basins.tif")
            np.testing.assert_array_equal(read(self.folder / "basins.tif") != -9999, self.valid)
            found = np.vectorize("{:.2f}".format)(read(self.folder / "out.tif"))
            np.testing.assert_array_equal(found[self.valid], expected[self.valid])

    def test_the_alpha_band_has_no_heights(self):
        add_alpha(self.folder / "dem.tif", self.heights.astype(np.float32), [self.valid])
        self.refuse(2, "band 2 of dem.tif is an alpha band", "fill", "dem.tif", "out.tif", "--band", "2")
        self.assertIn("its first band is an alpha band", relief_holes(self.folder, self.alpha_first()))

    def alpha_first(self):
        gdal.Translate(str(self.folder / "first.vrt"), str(self.folder / "dem.tif"), bandList=[2], format="VRT")
        return "first.vrt"

    def test_numbers_near_nodata_of_integers_are_heights(self):
        array = self.heights.astype(np.uint8)
        array[4, 20] = 255
        self.valid[:] = True
        make_raster(self.folder / "dem.tif", array, 255.5)
        self.make("basins", "dem.tif", "basins.tif")
        self.assertNotIn(-9999, read(self.folder / "basins.tif"))

    def test_floats_near_nodata_are_heights(self):
        for kind, nodata, height in ((np.float64, 1000000.0, 1000000.3), (np.float32, 372.3, 372.30012)):
            with self.subTest(kind=kind):
                heights = np.full((3, 4), height, kind)
                heights[0, 0] = nodata
                make_raster(self.folder / "dem.tif", heights, nodata)
                self.make("basins", "dem.tif", "basins.tif")
                np.testing.assert_array_equal(read(self.folder / "basins.tif") == -9999, heights == kind(nodata))

    def test_nodata_with_few_digits(self):
        most = float(np.finfo(np.float32).max)
        for kind, nodata, cell in ((np.float64, float(f"{-most:.15g}"), -most), (np.float32, -3.402823e38, -most),
                                   (np.float64, 0.1, 0.1 + 2 ** -56), (np.float64, -most, -most * (1 + 1e-9)),
                                   (np.float64, math.inf, math.inf), (np.float32, -math.inf, -math.inf)):
            with self.subTest(kind=kind, nodata=nodata):
                heights = np.full((3, 4), 7, kind)
                heights[0, 0] = cell
                make_raster(self.folder / "dem.tif", heights, nodata)
                self.make("basins", "dem.tif", "basins.tif")
                np.testing.assert_array_equal(read(self.folder / "basins.tif") == -9999, heights != 7)


class Holes(Case):
    """A hole is a hole for whatever reason it has no data."""

    def setUp(self):
        super().setUp()
        self.heights = hills().astype(np.float32)
        self.sea = np.zeros(self.heights.shape, bool)
        self.sea[22:, 30:] = True
        # Two holes, of which one has cells that touch at a corner, and a bay of the border.
        self.hole = np.zeros(self.heights.shape, bool)
        self.hole[10:12, 15:17] = self.hole[12, 17] = self.hole[5, 5] = True
        self.bay = np.zeros(self.heights.shape, bool)
        self.bay[0, 8] = self.bay[1, 9] = True
        self.valid = ~(self.sea | self.hole | self.bay)

    def rasters(self):
        """Rasters that lack data in the same cells, by one reason each and by several."""
        masked = np.where(self.hole, np.float32(3), self.heights)
        make_raster(self.folder / "nodata.tif", np.where(self.valid, self.heights, np.float32(-9999)), -9999.0)
        make_raster(self.folder / "nan.tif", np.where(self.valid, self.heights, np.float32(np.nan)))
        make_raster(self.folder / "mask.tif", masked, -9999.0, mask=self.valid)
        add_alpha(self.folder / "alpha.tif", masked, [self.valid], -9999.0)
        mixed = np.where(self.sea | self.bay, np.float32(-9999), masked)
        mixed[5, 5] = np.nan
        mixed[12, 17] = -9999
        make_raster(self.folder / "mixed.tif", mixed, -9999.0, mask=~self.hole | (mixed == -9999))
        return "nodata.tif", "nan.tif", "mask.tif", "alpha.tif", "mixed.tif"

    def test_counted_and_refused(self):
        for name in self.rasters():
            self.refuse(2, "voids: 6 cells in 2 holes inside the land", "fill", name, "out.tif")
            self.assertEqual(relief_holes(self.folder, name),
                             "2 holes inside, 6 cells\nthe largest has 5 cells, with row 10, column 15\n")

    def test_left_and_filled(self):
        for name in self.rasters():
            for how, valid in (("drain", self.valid), ("fill", self.valid | self.hole)):
                self.make("basins", name, "out.tif", "--voids", how)
                np.testing.assert_array_equal(read(self.folder / "out.tif") != -9999, valid)
            lines = self.make("fill", name, "out.tif", "--voids", "fill")
            left = np.count_nonzero(self.sea | self.bay)
            self.assertIn(f"; {left} cells that reach the border stay without data", lines)
            self.make("fill", "nodata.tif", "same.tif", "--voids", "fill")
            land = self.valid | self.hole
            np.testing.assert_array_equal(read(self.folder / "out.tif")[land], read(self.folder / "same.tif")[land])

    def test_the_border_of_a_window_counts(self):
        self.rasters()
        for name in ("nodata.tif", "alpha.tif"):
            self.refuse(2, "voids: 1 cell in 1 hole", "fill", name, "out.tif", "--window", "2,2,14,14")

    def test_relief_holes_fills_them_alone(self):
        for name in self.rasters()[2:]:
            relief_holes(self.folder, name, "whole.tif")
            found = read(self.folder / "whole.tif")
            np.testing.assert_array_equal(found[self.valid], self.heights[self.valid])
            np.testing.assert_array_equal(found == -9999, self.sea | self.bay)
            near = self.heights[3:15, 3:20][self.valid[3:15, 3:20]]
            self.assertTrue(np.all((found[self.hole] >= near.min()) & (found[self.hole] <= near.max())), name)

    def test_relief_holes_names_a_command_for_nodata(self):
        self.rasters()
        line = relief_holes(self.folder, "nan.tif", "whole.tif")
        command = line.split("no NODATA value: ")[1].split(" gives it one")[0]
        subprocess.run(command, cwd=self.folder, check=True, stdout=subprocess.DEVNULL, shell=True)
        self.assertIn("2 holes inside, 6 cells", relief_holes(self.folder, "named.tif", "whole.tif"))
        np.testing.assert_array_equal(read(self.folder / "whole.tif")[self.valid], self.heights[self.valid])

    def test_relief_holes_keeps_a_factor(self):
        units = np.where(self.valid, np.rint(self.heights * 100), -1).astype(np.int32)
        make_raster(self.folder / "dem.tif", units, -1, scale=0.01, offset=5.0)
        relief_holes(self.folder, "dem.tif", "whole.tif")
        whole = gdal.Open(str(self.folder / "whole.tif"))
        band = whole.GetRasterBand(1)
        self.assertEqual((band.GetScale(), band.GetOffset()), (0.01, 5.0))


if __name__ == "__main__":
    unittest.main()
