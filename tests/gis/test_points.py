"""Places by coordinates and layers, gauges that move to the stream, and catchments."""
import unittest

import numpy as np
from osgeo import gdal, osr

from fixtures import UTM, Case, at, by_hand, centre, hills, info, make_points, make_raster, read
from relief_gis.making import Place
from relief_gis.points import snap


class Layers(Case):
    """Observers from layers of all kinds, which have to be those of rows and columns."""

    def setUp(self):
        super().setUp()
        make_raster(self.folder / "dem.tif", hills().astype(np.float32))
        self.places = [(10, 20, 12.5), (25, 33, 3.0), (10, 20, 1.75)]
        self.points = [(*centre(row, col), eye) for row, col, eye in self.places]
        self.expected = by_hand(["view", "10,20,1250", "25,33,300", "10,20,175"], self.folder / "dem.tif", 2)

    def check(self, *words):
        lines = self.make("view", "dem.tif", "view.tif", *words)
        np.testing.assert_array_equal(read(self.folder / "view.tif").astype(str), self.expected)
        return lines

    def test_geopackage(self):
        make_points(self.folder / "masts.gpkg", self.points, fields=["height"])
        self.assertEqual(self.check("--points", "masts.gpkg", "--eye-field", "height"), "")

    def test_geopackage_in_degrees(self):
        change = osr.CoordinateTransformation(self.reference(UTM), self.reference("EPSG:4326"))
        degrees = [(*change.TransformPoint(x, y)[:2], eye) for x, y, eye in self.points]
        make_points(self.folder / "masts.gpkg", degrees, projection="EPSG:4326", fields=["height"])
        self.assertEqual(self.check("--points", "masts.gpkg|layername=places", "--eye-field", "height"), "")

    def reference(self, words):
        reference = osr.SpatialReference()
        reference.SetFromUserInput(words)
        reference.SetAxisMappingStrategy(osr.OAMS_TRADITIONAL_GIS_ORDER)
        return reference

    def test_table_of_coordinates(self):
        lines = "".join(f"{number};{x};{y};{eye}\n" for number, (x, y, eye) in enumerate(self.points))
        (self.folder / "masts.csv").write_text("id;x;y;height\n" + lines)
        told = self.check("--points", "masts.csv", "--eye-field", "height")
        self.assertIn("masts.csv names no projection: its coordinates are taken as those of the raster", told)

    def test_words_go_before_layers(self):
        make_points(self.folder / "masts.gpkg", self.points[1:], fields=["height"])
        self.check(*at(10, 20), "--eye", "12.5", "--points", "masts.gpkg", "--eye-field", "height")

    def test_points_anywhere_within_their_cells(self):
        near = [(x + 14.9, y - 14.9, eye) for x, y, eye in self.points]
        make_points(self.folder / "masts.gpkg", near, fields=["height"])
        self.check("--points", "masts.gpkg", "--eye-field", "height")

    def test_coordinates_below_zero(self):
        placed = (-2000000.0, 30.0, 0.0, -100.0, 0.0, -30.0)
        make_raster(self.folder / "west.tif", hills().astype(np.float32), placed=placed)
        x, y = centre(10, 20, placed)
        bounds = f"{placed[0]},{placed[3] - 900},{placed[0] + 1200},{placed[3]}"
        self.make("view", "west.tif", "view.tif", "--at", f"{x},{y}", "--eye", "12.5", "--bounds", bounds)
        expected = by_hand(["view", "10,20,1250"], self.folder / "west.tif", 2)
        np.testing.assert_array_equal(read(self.folder / "view.tif").astype(str), expected)

    def test_sinks_of_a_layer(self):
        make_points(self.folder / "sinks.gpkg", [centre(7, 8), centre(12, 30)])
        self.make("basins", "dem.tif", "basins.tif", "--points", "sinks.gpkg")
        expected = by_hand(["basins", "7,8", "12,30"], self.folder / "dem.tif", 2)
        np.testing.assert_array_equal(read(self.folder / "basins.tif").astype(str), expected)

    def test_a_sink_that_is_not_the_lowest_cell_is_told(self):
        array = np.full((5, 5), 9, np.int16)
        array[2, 2], array[2, 3] = 5, 4
        make_raster(self.folder / "pit.tif", array)
        x, y = centre(2, 3)
        lines = self.make("fill", "pit.tif", "out.tif", *at(2, 2))
        self.assertIn(f"has a lower cell beside it, at {x:g},{y:.0f}, and may pass its water on", lines)
        self.assertEqual(self.make("fill", "pit.tif", "out.tif", *at(2, 3)), "")


class Snap(unittest.TestCase):
    """Gauges move to the greatest accumulation; of equals to the nearest, then to the first."""

    COUNTS = np.array([[9, 0, 9], [0, 0, 0], [9, 5, 0], [0, 7, 99]])

    def moved(self, row, col, cells):
        place, = snap([Place("gauge", row, col)], self.COUNTS, cells)
        return place.row, place.col

    def test_ways(self):
        self.assertEqual(self.moved(1, 1, 0), (1, 1))
        self.assertEqual(self.moved(1, 1, 1), (0, 0))
        self.assertEqual(self.moved(1, 0, 2), (3, 2))
        self.assertEqual(self.moved(2, 0, 0), (2, 0))
        self.assertEqual(self.moved(0, 1, 1), (0, 0))
        self.assertEqual(self.moved(1, 2, 1), (0, 2))


class Gauges(Case):
    """Catchments of gauges, against the definition and against `relief` run by hand."""

    def setUp(self):
        super().setUp()
        self.heights = hills()
        make_raster(self.folder / "dem.tif", self.heights.astype(np.float32))
        self.counts = by_hand(["accumulate"], self.folder / "dem.tif", 2).astype(int)
        self.codes = by_hand(["flow"], self.folder / "dem.tif", 2).astype(int)

    def catchments(self, *words):
        return self.make("catchments", "dem.tif", "out.tif", *words)

    def places(self):
        """Cells of streams, which lie above each other."""
        return list(zip(*np.nonzero(self.counts > 30)))[::5]

    def words(self, places):
        return [word for place in places for word in at(*place)]

    def test_the_definition(self):
        self.assertGreater(len(self.places()), 5)
        self.catchments(*self.words(self.places()))
        np.testing.assert_array_equal(read(self.folder / "out.tif"), catchments_of(self.codes, self.places()))

    def test_the_program_by_hand(self):
        self.catchments(*self.words(self.places()), "--workers", "3", "--tile", "8")
        words = [f"{row},{col}" for row, col in self.places()]
        expected = by_hand(["catchments", *words], self.folder / "dem.tif", 2)
        np.testing.assert_array_equal(read(self.folder / "out.tif").astype(str), expected)

    def test_a_gauge_has_one_cell_more_than_drain_to_it(self):
        for place in list(zip(*np.nonzero(self.counts > 60)))[:3]:
            self.catchments(*at(*place))
            found = read(self.folder / "out.tif")
            self.assertEqual(np.count_nonzero(found == 1), self.counts[place] + 1)
            self.assertEqual(found[place], 1)

    def test_the_file(self):
        array = np.where(np.arange(40) < 4, np.float32(-9999), self.heights.astype(np.float32))
        make_raster(self.folder / "dem.tif", array, -9999.0)
        self.catchments(*at(20, 30))
        band = info(self.folder / "out.tif")["bands"][0]
        self.assertEqual((band["type"], band["noDataValue"]), ("Int32", -9999))
        np.testing.assert_array_equal(read(self.folder / "out.tif") == -9999, array == -9999)
        self.assertIn('value="1"', (self.folder / "out.qml").read_text())

    def test_snapped(self):
        row, col = np.unravel_index(np.argmax(self.counts), self.counts.shape)
        make_points(self.folder / "gauges.gpkg", [centre(row, max(col - 2, 0)), centre(row, col)])
        lines = self.catchments("--points", "gauges.gpkg", "--snap", "3", "--snapped", "moved.gpkg")
        self.assertIn(f"{self.counts[row, col]:,} other cells drain through it", lines)
        self.assertRegex(lines, r"feature 2 of gauges\.gpkg \([\d., ]+\) stays: ")
        self.assertRegex(lines, r": 2, feature 2 of gauges\.gpkg \([\d., ]+\): lies in the cell of 1, and no cell has")
        self.assertEqual(np.count_nonzero(read(self.folder / "out.tif") == 1), self.counts[row, col] + 1)
        moved = gdal.OpenEx(str(self.folder / "moved.gpkg"))
        self.assertEqual(moved.GetLayer(0).GetFeatureCount(), 2)
        feature = moved.GetLayer(0).GetNextFeature()
        self.assertEqual((feature["row"], feature["col"], feature["accumulation"]), (row, col, self.counts[row, col]))
        geometry = feature.GetGeometryRef()
        self.assertEqual((geometry.GetX(), geometry.GetY()), centre(row, col))
        self.assertEqual(moved.GetLayer(0).GetSpatialRef().GetAuthorityCode(None), "32632")
        del geometry, feature, moved

    def test_sinks_beside_gauges(self):
        filled = by_hand(["fill"], self.folder / "dem.tif", 2).astype(float)
        sink = np.unravel_index(np.argmax(filled - self.heights), self.heights.shape)
        places = self.words(self.places())
        self.catchments(*places)
        without = read(self.folder / "out.tif")
        make_points(self.folder / "sinks.gpkg", [centre(*sink)])
        words = [f"{row},{col}" for row, col in self.places()]
        expected = by_hand(["catchments", "--sink", "{},{}".format(*sink), *words], self.folder / "dem.tif", 2)
        for option in (["--sink-at", "{},{}".format(*centre(*sink))], ["--sinks", "sinks.gpkg"]):
            self.catchments(*places, *option)
            np.testing.assert_array_equal(read(self.folder / "out.tif").astype(str), expected)
        self.assertFalse(np.array_equal(read(self.folder / "out.tif"), without))

    def test_a_catchment_that_the_edge_cuts_is_told(self):
        # A valley that falls to the east: nine cells of the border in the west, three in the north and in the south.
        row, col = np.mgrid[0:9, 0:9]
        valley = 20 - col + abs(row - 4)
        self.check_cut(valley, (4, 7), 15)
        # A dam with a gap in the east, and lower land around it: the data ends at the gauge alone.
        from_middle = np.maximum(abs(row - 4), abs(col - 4))
        dam = np.where(from_middle == 4, 0, np.where(from_middle == 3, 99, valley))
        dam[4, 7] = 5
        self.check_cut(dam, (4, 8), 0)

    def check_cut(self, array, gauge, count):
        """Maps the catchment of a gauge, of which so many cells lie at the border."""
        make_raster(self.folder / "dem.tif", array.astype(np.int16))
        lines = self.catchments(*at(*gauge))
        border = np.ones(array.shape, bool)
        border[1:-1, 1:-1] = False
        border[gauge] = False
        self.assertEqual(np.count_nonzero((read(self.folder / "out.tif") == 1) & border), count)
        self.assertEqual(f", {count} of them where the data ends\n" in lines, count > 0)
        self.assertEqual("where the data ends, land beyond it may drain in" in lines, count > 0)
        self.assertGreater(np.count_nonzero(read(self.folder / "out.tif") == 1), 20)

    def test_words(self):
        self.refuse(1, "needs gauges", "catchments", "dem.tif", "out.tif")
        self.refuse(1, "needs gauges", "catchments", "missing.tif", "out.tif")
        make_points(self.folder / "none.gpkg", [])
        self.refuse(1, "needs gauges", "catchments", "dem.tif", "out.tif", "--points", "none.gpkg")
        self.refuse(1, "give --snap CELLS", "catchments", "dem.tif", "out.tif", *at(3, 3), "--snapped", "x.gpkg")
        self.refuse(1, "--snap -1 is below 0", "catchments", "dem.tif", "out.tif", *at(3, 3), "--snap", "-1")
        self.refuse(1, "x.shp would be a GeoPackage: give it a name that ends with .gpkg", "catchments", "dem.tif",
                    "out.tif", *at(3, 3), "--snap", "1", "--snapped", "x.shp")
        self.refuse(2, "point 1 (400000, 5199800) lies outside the raster", "catchments", "dem.tif", "out.tif", "--at",
                    "400000,5199800")
        self.refuse(2, "sink 1 (400000, 5199800) lies outside the raster", "catchments", "dem.tif", "out.tif",
                    *at(3, 3), "--sink-at", "400000,5199800")

    def test_more_gauges_than_the_program_takes(self):
        self.refuse(2, "63 TooManyGauges: more than 1,024 gauges: name fewer", "catchments", "dem.tif", "out.tif",
                    *self.words([(3, 3)] * 1025))

    def test_an_older_program(self):
        program = self.folder / "relief"
        program.write_text("#!/bin/sh\ncase $1 in --version) echo relief 0.1.0;; *) echo '  fill  heights';; esac\n")
        program.chmod(0o755)
        line = self.refuse(5, "relief 0.1.0 has no catchments: install a newer relief", "catchments", "dem.tif",
                           "out.tif", *at(3, 3), program=str(program))
        self.assertEqual(line.count("\n"), 1)


def catchments_of(codes, gauges):
    """The definition: for each cell the place in the list of the first gauge that its flow path meets, from 1; else 0.

    Args:
        codes: (rows, cols) of `relief flow`, without cells that have no data.
        gauges: (row, col).
    """
    ways = {1: (0, 1), 2: (1, 1), 4: (1, 0), 8: (1, -1), 16: (0, -1), 32: (-1, -1), 64: (-1, 0), 128: (-1, 1)}
    found = np.zeros(codes.shape, int)
    for start in np.ndindex(codes.shape):
        cell = start
        while cell not in gauges and codes[cell]:
            down, right = ways[int(codes[cell])]
            cell = cell[0] + down, cell[1] + right
        found[start] = gauges.index(cell) + 1 if cell in gauges else 0
    return found


if __name__ == "__main__":
    unittest.main()
