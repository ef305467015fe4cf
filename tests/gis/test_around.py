"""Windows round a place that grow until they have its catchment, against the map of the whole raster."""
import unittest
import unittest.mock

import numpy as np
from osgeo import gdal

from fixtures import Case, centre, hills, make_raster, read

NODATA = -9999


class Around(Case):
    def setUp(self):
        super().setUp()
        # Of the program's own first window the raster would be a part.
        for name, side in (("around.FIRST_SIDE", 8), ("around.MOST_SIDE", 128), ("raster.MOST_SIDE", 128)):
            patch = unittest.mock.patch(f"relief_gis.{name}", side)
            patch.start()
            self.addCleanup(patch.stop)

    def valley(self, rows=150, cols=200):
        """Ground that falls to a valley in each 40th column, and down the valleys."""
        row, col = np.mgrid[0:rows, 0:cols]
        return np.abs(col % 40 - 20) * 3.0 + (rows - row) * 0.5 + hills(rows, cols) * 0.01

    def whole(self, array, place):
        """The cells that drain to a place by the map of the whole raster, which the program could make."""
        make_raster(self.folder / "all.tif", array.astype(np.float32))
        with unittest.mock.patch("relief_gis.raster.MOST_SIDE", 4096):
            self.make("catchments", "all.tif", "whole.tif", "--at", place)
        return read(self.folder / "whole.tif") == 1

    def test_as_of_the_whole_raster(self):
        array = self.valley()
        make_raster(self.folder / "dem.tif", array.astype(np.float32))
        for cell in ((30, 100), (24, 60), (3, 20), (20, 75)):
            place = "{},{}".format(*centre(*cell))
            lines = self.make("catchments", "dem.tif", "out.tif", "--at", place, "--around", place)
            wanted = self.whole(array, place)
            dataset = gdal.Open(str(self.folder / "out.tif"))
            left = round((dataset.GetGeoTransform()[0] - 500000) / 30)
            top = round((5200000 - dataset.GetGeoTransform()[3]) / 30)
            self.assertLessEqual(max(dataset.RasterXSize, dataset.RasterYSize), 128)
            found = np.zeros(array.shape, bool)
            found[top:top + dataset.RasterYSize, left:left + dataset.RasterXSize] = read(self.folder / "out.tif") == 1
            np.testing.assert_array_equal(found, wanted, str(cell))
            self.assertIn(f"to which {wanted.sum():,} cells drain", lines)
            self.assertNotIn("are the most", lines)

    def test_a_catchment_that_is_too_large(self):
        make_raster(self.folder / "dem.tif", self.valley().astype(np.float32))
        place = "{},{}".format(*centre(140, 100))
        lines = self.make("accumulate", "dem.tif", "out.tif", "--around", place)
        self.assertRegex(lines, "128 columns and 128 rows are read round .*, to which .* cells drain")
        self.assertIn("128 columns and rows are the most, and the catchment reaches the border of what is read: make "
                      "the cells larger: gdalwarp", lines)
        self.assertIn("cells lie where the data ends or downstream of it", lines)
        self.assertEqual(read(self.folder / "out.tif").shape, (128, 128))

    def test_a_small_raster_is_read_as_a_whole(self):
        make_raster(self.folder / "dem.tif", hills(5, 7).astype(np.float32))
        self.make("fill", "dem.tif", "out.tif", "--around", "{},{}".format(*centre(2, 3)))
        self.assertEqual(read(self.folder / "out.tif").shape, (5, 7))

    def test_a_gauge_that_moves(self):
        make_raster(self.folder / "dem.tif", self.valley().astype(np.float32))
        place = "{},{}".format(*centre(30, 103))
        lines = self.make("catchments", "dem.tif", "out.tif", "--at", place, "--around", place, "--snap", "4")
        told = lines.partition("to which ")[2].partition(" cells")[0]
        self.assertIn(f": {told} cells drain to it first", lines)

    def test_refused(self):
        array = self.valley().astype(np.float32)
        array[:9, :9] = NODATA
        make_raster(self.folder / "dem.tif", array, NODATA)
        fill = ["fill", "dem.tif", "out.tif", "--around"]
        self.refuse(2, "the place of --around (400000, 5200000) lies outside the raster", *fill, "400000,5200000")
        self.refuse(2, "lies where there is no data, at row 3 and column 3", *fill, "{},{}".format(*centre(3, 3)))
        self.refuse(1, "1 is not X,Y", *fill, "1")


if __name__ == "__main__":
    unittest.main()
