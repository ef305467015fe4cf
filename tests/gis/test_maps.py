"""Each map of GeoTIFFs of many kinds, cell by cell against `relief` run by hand, with its georeferencing."""
import subprocess
import unittest
from decimal import Decimal

import numpy as np
from osgeo import gdal, osr

from fixtures import (FLOAT_NODATA, PLACED, UTM, Case, at, by_hand, hills, info, make_raster, nodata_of,
                      read)

DRAINAGE = ("fill", "flow", "accumulate", "basins")
TYPE_OF = {"flow": "Byte", "accumulate": "Int32", "basins": "Int32", "catchments": "Int32", "view": "Int32",
           "streams": "Byte", "area": "Float64"}
NODATA_OF = {"flow": 255, "accumulate": -9999, "basins": -9999, "catchments": -9999, "view": -9999, "depth": -9999,
             "streams": 255, "area": -9999}
# Two gauges, as the command and as the program take them.
GAUGES = [*at(9, 20), *at(18, 33)]
GAUGE_WORDS = ["9,20", "18,33"]


def reference_of(information):
    """The projection that `gdalinfo -json` tells."""
    return osr.SpatialReference(information["coordinateSystem"]["wkt"])


class MapCase(Case):
    """A raster, and how its maps are compared."""

    def compare(self, name, words, hand_words, valid, decimals, raster="dem.tif", options=()):
        """Makes a map and compares its data with the words that `relief` wrote."""
        target = self.folder / f"{name}.tif"
        lines = self.make(name, raster, target.name, *words, *options)
        expected = by_hand([name, *hand_words], self.folder / raster, decimals)
        found = read(target)
        self.assertEqual(found.shape, expected.shape)
        digits = decimals if name == "fill" else 0
        for place in zip(*np.nonzero(valid)):
            self.assertEqual(f"{Decimal(float(found[place])):.{digits}f}", expected[place], f"{name} at {place}")
        self.check_file(name, target, raster, found, valid)
        return lines

    def check_file(self, name, target, raster, found, valid):
        """Compares size, place, projection, type and NODATA with what they are due to be."""
        source, made = info(self.folder / raster), info(target)
        for key in ("size", "geoTransform", "cornerCoordinates"):
            self.assertEqual(made.get(key), source.get(key), key)
        # A GeoTIFF names the axes of a projection in its own way.
        if raster.endswith(".tif"):
            self.assertEqual(made["coordinateSystem"], source["coordinateSystem"])
        else:
            self.assertTrue(reference_of(made).IsSame(reference_of(source)))
        self.assertEqual(made["metadata"][""].get("AREA_OR_POINT"), source["metadata"][""].get("AREA_OR_POINT"))
        band = made["bands"][0]
        if name in TYPE_OF:
            self.assertEqual(band["type"], TYPE_OF[name])
        if name in NODATA_OF:
            self.assertEqual(band["noDataValue"], NODATA_OF[name])
        if not valid.all():
            nodata = nodata_of(target)
            self.assertTrue(np.all(found[~valid] == found.dtype.type(nodata)))
            self.assertFalse(np.any(found[valid] == found.dtype.type(nodata)))

    def same_in_info(self, one, other, key):
        """Compares what `gdalinfo -json` says of two files."""
        self.assertEqual(info(self.folder / one)[key], info(self.folder / other)[key])


class FloatMetres(MapCase):
    """UTM metres in float32, NODATA -3.4e38 along the border, as a warp leaves it."""

    def setUp(self):
        super().setUp()
        self.heights = hills().astype(np.float32)
        self.valid = np.ones(self.heights.shape, bool)
        self.valid[:6, :9] = False
        self.valid[-1, 5:] = False
        self.heights[~self.valid] = FLOAT_NODATA
        make_raster(self.folder / "dem.tif", self.heights, FLOAT_NODATA)

    def test_drainage(self):
        for name in DRAINAGE:
            self.assertEqual(self.compare(name, [], [], self.valid, 2), "")
        self.compare("catchments", GAUGES, GAUGE_WORDS, self.valid, 2)
        self.assertEqual(info(self.folder / "fill.tif")["bands"][0]["type"], "Float32")

    def test_what_was_not_raised_keeps_its_bytes(self):
        self.make("fill", "dem.tif", "fill.tif")
        found = read(self.folder / "fill.tif")
        self.assertTrue(np.all(found >= self.heights))
        self.assertGreater(np.count_nonzero(found == self.heights), self.heights.size // 2)

    def test_sinks_by_coordinates(self):
        pit = self.pit()
        for name in DRAINAGE:
            self.compare(name, at(*pit), ["{},{}".format(*pit)], self.valid, 2)

    def pit(self):
        """The lowest cell of a pit."""
        self.make("depth", "dem.tif", "depth.tif")
        depth = read(self.folder / "depth.tif")
        return np.unravel_index(np.argmax(depth), depth.shape)

    def test_view_in_metres(self):
        words = [*at(10, 20), *at(25, 33), "--eye", "12.5", "--target", "1.5", "--radius", "400"]
        hand = ["--radius", "13", "--target", "150", "10,20,1250", "25,33,1250"]
        lines = self.compare("view", words, hand, self.valid, 2)
        self.assertEqual(lines, "relief-gis: radius 400: 13 whole cells of 30\n")

    def test_view_over_all(self):
        self.compare("view", [*at(10, 20), "--eye", "2"], ["10,20,200"], self.valid, 2)

    def test_one_step_more(self):
        self.make("fill", "dem.tif", "fill.tif")
        self.make("accumulate", "dem.tif", "accumulate.tif")
        for name, options in (("depth", []), ("area", []), ("streams", ["--threshold", "20"])):
            self.make(name, "dem.tif", f"{name}.tif", *options)
            self.check_file(name, self.folder / f"{name}.tif", "dem.tif", read(self.folder / f"{name}.tif"), self.valid)
        filled, counts = read(self.folder / "fill.tif"), read(self.folder / "accumulate.tif")
        for name, expected in (("depth", np.round(filled.astype(float) - self.heights, 2)),
                               ("area", (counts + 1) * 900.0), ("streams", counts > 20)):
            np.testing.assert_allclose(read(self.folder / f"{name}.tif")[self.valid], expected[self.valid], atol=1e-6)

    def test_decimals_are_rounded_and_told(self):
        lines = self.compare("fill", ["--decimals", "1"], [], self.valid, 1)
        self.assertRegex(lines, r"^relief-gis: heights rounded to 0\.1, by at most 0\.05\d*\n$")

    def test_metadata_and_colours(self):
        self.make("flow", "dem.tif", "flow.tif")
        made = info(self.folder / "flow.tif")
        self.assertEqual(made["metadata"][""]["RELIEF_COMMAND"], "relief-gis flow dem.tif flow.tif")
        self.assertRegex(made["metadata"][""]["RELIEF_VERSION"], r"^\d+\.\d+\.\d+$")
        self.assertEqual(made["metadata"]["IMAGE_STRUCTURE"]["COMPRESSION"], "DEFLATE")
        self.assertEqual(made["bands"][0]["block"], [256, 256])
        self.assertIn("colorTable", made["bands"][0])
        self.assertIn('label="NE"', (self.folder / "flow.qml").read_text())

    def test_tiles_and_workers_change_no_cell(self):
        self.make("basins", "dem.tif", "one.tif", "--workers", "1")
        self.make("basins", "dem.tif", "many.tif", "--workers", "3", "--tile", "7")
        np.testing.assert_array_equal(read(self.folder / "one.tif"), read(self.folder / "many.tif"))


class OtherRasters(MapCase):
    """Integers, centimetres, no NODATA, NaN, points for areas, bands, windows, masks."""

    def all_maps(self, valid, decimals, **more):
        for name in DRAINAGE:
            self.compare(name, [], [], valid, decimals, **more)
        self.compare("catchments", GAUGES, GAUGE_WORDS, valid, decimals, **more)

    def test_integers(self):
        heights = np.rint(hills()).astype(np.int16)
        valid = np.ones(heights.shape, bool)
        valid[20:, :7] = False
        make_raster(self.folder / "dem.tif", np.where(valid, heights, -32768).astype(np.int16), -32768)
        self.all_maps(valid, 0)
        band = info(self.folder / "fill.tif")["bands"][0]
        self.assertEqual((band["type"], band["noDataValue"]), ("Int16", -32768))

    @unittest.skipUnless(hasattr(gdal, "GDT_Int64"), "this GDAL has no integers of 64 bits")
    def test_wide_integers(self):
        for factor, kind in ((1, "Int32"), (10**12, "Float64")):
            heights = np.rint(hills()).astype(np.int64) * factor
            make_raster(self.folder / "dem.tif", heights, -5)
            self.all_maps(np.ones(heights.shape, bool), 0)
            self.assertEqual(info(self.folder / "fill.tif")["bands"][0]["type"], kind)

    def test_no_nodata(self):
        make_raster(self.folder / "dem.tif", np.rint(hills()).astype(np.uint16))
        self.all_maps(np.ones((30, 40), bool), 0)
        band = info(self.folder / "fill.tif")["bands"][0]
        self.assertEqual(band["type"], "UInt16")

    def test_heights_past_the_type_of_their_numbers(self):
        for kind, number in ((np.uint8, 250), (np.int16, 32767), (np.int32, 2147483647)):
            with self.subTest(kind=kind):
                make_raster(self.folder / "dem.tif", np.full((3, 4), number, kind), scale=2)
                self.make("fill", "dem.tif", "out.tif")
                np.testing.assert_array_equal(read(self.folder / "out.tif"), np.full((3, 4), 2.0 * number))

    def test_nodata_is_free_where_the_ends_of_a_type_are_heights(self):
        heights = np.array([[0, 255, 254], [252, 1, 255]], np.uint8)
        make_raster(self.folder / "dem.tif", heights, mask=np.array([[255, 255, 255], [255, 255, 0]], np.uint8))
        self.make("fill", "dem.tif", "out.tif")
        self.assertEqual(nodata_of(self.folder / "out.tif"), 253)
        np.testing.assert_array_equal(read(self.folder / "out.tif"), [[0, 255, 254], [252, 1, 253]])

    def test_a_height_of_the_usual_nodata(self):
        heights = np.rint(hills()).astype(np.int32)
        heights[0, 0] = -9999
        make_raster(self.folder / "dem.tif", heights, -1)
        self.all_maps(np.ones((30, 40), bool), 0)
        self.assertEqual(read(self.folder / "fill.tif")[0, 0], -9999)

    def test_a_height_that_looks_like_no_data_is_told(self):
        for number, dtype in ((-9999, np.float32), (-32768, np.int16), (65535, np.uint16)):
            heights = np.rint(hills()).astype(dtype)
            heights[:2, :3] = number
            make_raster(self.folder / "dem.tif", heights)
            lines = self.make("fill", "dem.tif", "out.tif")
            self.assertIn(f"6 cells have the height {number}, which often means no data, and are taken for terrain",
                          lines)
            command = lines.split("if it does, ")[1].split()
            subprocess.run(command, cwd=self.folder, check=True, stdout=subprocess.DEVNULL)
            self.assertEqual(self.make("fill", "dem.tif", "out.tif"), "")
            self.assertEqual(nodata_of(self.folder / "out.tif"), number)

    def test_a_second_nodata_value_keeps_the_first(self):
        heights = np.rint(hills()).astype(np.int32)
        heights[:2, :3] = -9999
        heights[5, 5] = -1
        make_raster(self.folder / "dem.tif", heights, -1)
        command = self.make("fill", "dem.tif", "out.tif", "--voids", "drain").split("if it does, ")[1].split("\n")[0]
        subprocess.run(command.split(), cwd=self.folder, check=True, stdout=subprocess.DEVNULL)
        self.make("fill", "named.tif", "out.tif", "--voids", "drain")
        self.assertEqual(nodata_of(self.folder / "out.tif"), -9999)
        self.assertEqual(np.count_nonzero(read(self.folder / "out.tif") == -9999), 7)

    def test_doubles_below_zero(self):
        heights = hills() - 330
        make_raster(self.folder / "dem.tif", heights, -9999.0)
        self.all_maps(np.ones(heights.shape, bool), 2)
        self.assertEqual(info(self.folder / "fill.tif")["bands"][0]["type"], "Float64")

    def test_areas_told_by_points(self):
        make_raster(self.folder / "dem.tif", hills().astype(np.float32), metadata={"AREA_OR_POINT": "Point"})
        self.all_maps(np.ones((30, 40), bool), 2)

    def test_band(self):
        make_raster(self.folder / "two.tif", hills(seed=4).astype(np.float32), bands=2)
        gdal.Translate(str(self.folder / "dem.tif"), str(self.folder / "two.tif"), bandList=[2])
        self.make("fill", "two.tif", "out.tif", "--band", "2")
        self.make("fill", "dem.tif", "fill.tif")
        np.testing.assert_array_equal(read(self.folder / "out.tif"), read(self.folder / "fill.tif"))

    def test_other_formats(self):
        make_raster(self.folder / "geo.tif", hills().astype(np.float32))
        gdal.Translate(str(self.folder / "dem.vrt"), str(self.folder / "geo.tif"), format="VRT")
        self.all_maps(np.ones((30, 40), bool), 2, raster="dem.vrt")

    def test_centimetres_by_a_factor_of_the_band(self):
        units = np.rint(hills() * 100).astype(np.int32)
        make_raster(self.folder / "dem.tif", units, scale=0.01)
        gdal.Translate(str(self.folder / "metres.tif"), str(self.folder / "dem.tif"), unscale=True,
                       outputType=gdal.GDT_Float64)
        self.make("fill", "dem.tif", "fill.tif")
        expected = by_hand(["fill"], self.folder / "metres.tif", 2)
        np.testing.assert_array_equal(np.vectorize("{:.2f}".format)(read(self.folder / "fill.tif")), expected)
        self.assertEqual(self.make("view", "dem.tif", "view.tif", *at(3, 3), "--eye", "1.75"), "")

    def test_heights_in_another_unit_are_told(self):
        make_raster(self.folder / "dem.tif", np.rint(hills() * 100).astype(np.int32), unit="cm")
        lines = self.make("view", "dem.tif", "view.tif", *at(3, 3), "--eye", "200")
        self.assertIn("heights are in cm", lines)

    def test_feet_of_the_projection_are_told(self):
        make_raster(self.folder / "dem.tif", hills().astype(np.float32), projection="EPSG:2263")
        self.assertIn("US survey foot", self.make("area", "dem.tif", "area.tif"))

    def test_a_stretched_projection_is_told(self):
        for code, told in (("EPSG:3857", True), ("EPSG:3395", True), ("EPSG:32632", False), ("EPSG:31467", False)):
            make_raster(self.folder / "dem.tif", hills().astype(np.float32), projection=code)
            self.assertEqual("stretches lengths" in self.make("area", "dem.tif", "area.tif"), told, code)

    def test_a_mask_and_nan(self):
        heights = hills().astype(np.float32)
        valid = np.ones(heights.shape, bool)
        valid[10:14, 10:20] = False
        make_raster(self.folder / "dem.tif", heights, mask=valid)
        lines = self.make("basins", "dem.tif", "basins.tif", "--voids", "drain")
        self.assertIn("40 cells in 1 hole inside the land, left as they are", lines)
        heights[~valid] = np.nan
        make_raster(self.folder / "nan.tif", np.where(np.isnan(heights), -9999, heights).astype(np.float32), -9999.0)
        expected = by_hand(["basins"], self.folder / "nan.tif", 2)
        np.testing.assert_array_equal(read(self.folder / "basins.tif").astype(str), expected)
        make_raster(self.folder / "dem.tif", heights, float("nan"))
        self.make("basins", "dem.tif", "basins.tif", "--voids", "drain")
        np.testing.assert_array_equal(read(self.folder / "basins.tif").astype(str), expected)

    def test_a_warp_with_empty_corners(self):
        make_raster(self.folder / "geo.tif", hills(60, 60).astype(np.float32))
        gdal.Warp(str(self.folder / "degrees.tif"), str(self.folder / "geo.tif"), dstSRS="EPSG:4326",
                  resampleAlg="bilinear", dstNodata=FLOAT_NODATA)
        gdal.Warp(str(self.folder / "raw.tif"), str(self.folder / "degrees.tif"), dstSRS="EPSG:32633", xRes=30, yRes=30,
                  resampleAlg="bilinear")
        array = read(self.folder / "raw.tif")
        valid = array != np.float32(FLOAT_NODATA)
        self.assertFalse(valid.all())
        self.make("fill", "raw.tif", "fill.tif")
        expected = by_hand(["fill"], self.folder / "raw.tif", 2)
        found = read(self.folder / "fill.tif")
        for place in zip(*np.nonzero(valid)):
            self.assertEqual(f"{found[place]:.2f}", expected[place])
        self.check_file("fill", self.folder / "fill.tif", "raw.tif", found, valid)

    def test_windows_and_bounds(self):
        make_raster(self.folder / "dem.tif", hills(50, 60).astype(np.float32))
        gdal.Translate(str(self.folder / "part.tif"), str(self.folder / "dem.tif"), srcWin=[7, 11, 30, 20])
        expected = by_hand(["accumulate"], self.folder / "part.tif", 2)
        west, north = PLACED[0] + 7 * 30, PLACED[3] - 11 * 30
        bounds = f"{west + 1},{north - 20 * 30 + 1},{west + 30 * 30},{north}"
        for words in (["--window", "7,11,30,20"], ["--bounds", bounds]):
            self.make("accumulate", "dem.tif", "out.tif", *words)
            np.testing.assert_array_equal(read(self.folder / "out.tif").astype(str), expected)
            self.same_in_info("out.tif", "part.tif", "geoTransform")

    def test_a_raster_without_projection_is_told_one(self):
        make_raster(self.folder / "bare.tif", hills().astype(np.float32), projection=None)
        make_raster(self.folder / "dem.tif", hills().astype(np.float32))
        self.make("flow", "bare.tif", "flow.tif", "--projection", UTM)
        self.same_in_info("flow.tif", "dem.tif", "coordinateSystem")
        self.make("flow", "bare.tif", "flow.tif", "--no-projection")
        self.assertNotIn("coordinateSystem", info(self.folder / "flow.tif"))


class Voids(MapCase):
    """Holes inside the land: refused, left, or filled while sea and mask stay."""

    def setUp(self):
        super().setUp()
        self.heights = hills().astype(np.float32)
        self.sea = np.zeros(self.heights.shape, bool)
        self.sea[22:, 30:] = True
        self.hole = np.zeros(self.heights.shape, bool)
        self.hole[10:12, 15:17] = True
        self.hole[12, 17] = True
        self.hole[5, 5] = True
        array = np.where(self.sea | self.hole, np.float32(-9999), self.heights)
        make_raster(self.folder / "dem.tif", array, -9999.0)

    def test_refused(self):
        self.refuse(2, "voids: 6 cells in 2 holes inside the land", "fill", "dem.tif", "out.tif")

    def test_left(self):
        lines = self.compare("basins", ["--voids", "drain"], [], ~(self.sea | self.hole), 2)
        self.assertIn("6 cells in 2 holes inside the land, left as they are", lines)

    def test_filled(self):
        lines = self.make("fill", "dem.tif", "out.tif", "--voids", "fill")
        left = np.count_nonzero(self.sea)
        self.assertIn(f"interpolated; {left} cells that reach the border stay without data", lines)
        found = read(self.folder / "out.tif")
        np.testing.assert_array_equal(found == np.float32(-9999), self.sea)
        gdal.Translate(str(self.folder / "whole.tif"), str(self.folder / "dem.tif"))
        whole = gdal.Open(str(self.folder / "whole.tif"), gdal.GA_Update)
        whole.GetRasterBand(1).WriteArray(np.where(self.hole, found, read(self.folder / "dem.tif")))
        del whole
        # What was filled in is at least the interpolated height, so filling once more changes nothing.
        expected = by_hand(["fill"], self.folder / "whole.tif", 2)
        for place in zip(*np.nonzero(~self.sea)):
            self.assertEqual(f"{found[place]:.2f}", expected[place])
        near = self.heights[9:14, 14:19][~self.hole[9:14, 14:19]]
        self.assertTrue(near.min() <= found[10, 15] and found[11, 16] >= near.min())


class Points(MapCase):
    """Places by coordinates and layers."""

    def setUp(self):
        super().setUp()
        make_raster(self.folder / "dem.tif", hills().astype(np.float32))

    def test_the_corner_of_a_cell_is_its_north_west(self):
        x, y = PLACED[0] + 20 * 30, PLACED[3] - 10 * 30
        self.make("view", "dem.tif", "view.tif", "--at", f"{x},{y}", "--eye", "3")
        expected = by_hand(["view", "10,20,300"], self.folder / "dem.tif", 2)
        np.testing.assert_array_equal(read(self.folder / "view.tif").astype(str), expected)

    def test_west_of_the_grid_is_outside(self):
        self.refuse(2, "point 1 (499999.99, 5199985) lies outside the raster", "view", "dem.tif", "out.tif", "--at",
                    "499999.99,5199985", "--eye", "3")


if __name__ == "__main__":
    unittest.main()
