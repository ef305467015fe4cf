"""Points of tables by the names of their columns, in degrees too; points without a place, and what --skip does."""
import os
import shlex
import subprocess
import sys
import unittest

import numpy as np
from osgeo import gdal, osr

from fixtures import RELIEF, UTM, Case, at, by_hand, centre, environment, hills, make_points, make_raster, read

PLACES = [(10, 20), (25, 33)]
PAIRS = """x,y X,Y X_COORD,Y_COORD x-coord,y-coord Xcoord,Ycoord coord_x,coord_y POINT_X,POINT_Y easting,northing
Easting,Northing EASTINGS,NORTHINGS east,north E,N e,n Rechtswert,Hochwert RW,HW Ostwert,Nordwert ost,nord
UTM_E,UTM_N""".split()
DEGREES = "lon,lat Lon,Lat LONGITUDE,LATITUDE lng,lat long,lat".split()


def reference(words):
    found = osr.SpatialReference()
    found.SetFromUserInput(words)
    found.SetAxisMappingStrategy(osr.OAMS_TRADITIONAL_GIS_ORDER)
    return found


class Table(Case):
    def setUp(self):
        super().setUp()
        make_raster(self.folder / "dem.tif", hills().astype(np.float32))

    def write(self, head, *lines, name="masts.csv", **more):
        (self.folder / name).write_text("\n".join([head, *lines, ""]), **more)

    def view(self, *words, points="masts.csv"):
        return self.make("view", "dem.tif", "out.tif", "--points", points, *words)

    def refuse_view(self, status, text, *words, **more):
        return self.refuse(status, text, "view", "dem.tif", "out.tif", "--points", "masts.csv", "--eye", "3", *words,
                           **more)

    def check(self, *places):
        """Compares the map with that of these words, by hand."""
        expected = by_hand(["view", *places], self.folder / "dem.tif", 2)
        np.testing.assert_array_equal(read(self.folder / "out.tif").astype(str), expected)


class Columns(Table):
    """Which columns are coordinates."""

    def test_names(self):
        expected = by_hand(["view", "--radius", "9", "10,20,300", "25,33,300"], self.folder / "dem.tif", 2)
        for pair in PAIRS:
            with self.subTest(pair):
                self.write(f"no,{pair}", *("{},{},{}".format(at, *centre(*it)) for at, it in enumerate(PLACES)))
                lines = self.view("--eye", "3", "--radius", "270")
                self.assertIn("masts.csv names no projection: its coordinates are taken as those of the raster", lines)
                np.testing.assert_array_equal(read(self.folder / "out.tif").astype(str), expected)

    def test_the_order_of_columns(self):
        self.write("Hochwert;note;Rechtswert", *("{};a;{}".format(*reversed(centre(*it))) for it in PLACES))
        self.view("--eye", "3")
        self.check("10,20,300", "25,33,300")

    def test_degrees(self):
        change = osr.CoordinateTransformation(reference(UTM), reference("EPSG:4326"))
        places = [change.TransformPoint(*centre(*it))[:2] for it in PLACES]
        for pair in DEGREES:
            with self.subTest(pair):
                self.write(pair, *(f"{x!r},{y!r}" for x, y in places))
                lines = self.view("--eye", "3")
                self.assertEqual(lines, f"relief-gis: masts.csv has {pair}: they are taken as degrees of WGS 84\n")
                self.check("10,20,300", "25,33,300")

    def test_degrees_and_a_raster_without_projection(self):
        make_raster(self.folder / "dem.tif", hills().astype(np.float32), projection=None)
        self.write("lon,lat", "9,47")
        self.refuse_view(1, "masts.csv has degrees, lon and lat, and the raster has no projection", "--no-projection")

    def test_a_projection_beside_the_table(self):
        change = osr.CoordinateTransformation(reference(UTM), reference("EPSG:32633"))
        self.write("x,y", *("{!r},{!r}".format(*change.TransformPoint(*centre(*it))[:2]) for it in PLACES))
        (self.folder / "masts.prj").write_text(reference("EPSG:32633").ExportToWkt())
        self.assertEqual(self.view("--eye", "3"), "")
        self.check("10,20,300", "25,33,300")

    def test_no_pair_and_two_pairs(self):
        self.write("name,height,northing", "a,3,4")
        self.refuse_view(1, "masts.csv has no columns of coordinates among name, height, northing: name them x,y or")
        self.write("x,y,lon,lat", "1,2,3,4")
        self.refuse_view(1, "has more than one pair of coordinates, x,y and lon,lat: keep one, and rename the others")
        self.write("x,y,X", "1,2,3")
        self.refuse_view(1, "has more than one pair of coordinates, x,y: keep one")

    def test_numbers_as_they_are_written(self):
        # The border of two cells, to the digit; and decimal commas.
        self.write("x;y;height", "500600,0;5199685;12,5", "500599.9999999999999999;5199685;0,25")
        self.view("--eye-field", "height")
        self.check("10,20,1250", "10,19,25")

    def test_a_comma_that_may_part_thousands(self):
        self.write("x;y", "500,600;5199685")
        self.refuse_view(2, "feature 1 of masts.csv has 500,600 in its field x: write the decimal mark as a point")


class Faults(Table):
    """Points without a place: all are named, and --skip leaves them out."""

    def setUp(self):
        super().setUp()
        array = hills().astype(np.float32)
        array[:3, :3] = -9999
        make_raster(self.folder / "dem.tif", array, -9999.0)

    def test_all_are_named(self):
        self.write("x,y", "100,200", "{},{}".format(*centre(10, 20)), "{},{}".format(*centre(1, 1)), "a,3", ",4")
        line = self.refuse_view(2, "4 points have no place: ")
        for text in ("feature 1 of masts.csv (100, 200) lies outside the raster", "feature 3 of masts.csv (500045, 51",
                     "feature 4 of masts.csv has a in its field x, which is no number",
                     "feature 5 of masts.csv has no value in its field x", ": --skip leaves them out"):
            self.assertIn(text, line)
        lines = self.view("--eye", "3", "--skip")
        self.check("10,20,300")
        self.assertEqual(lines.count("left out: feature "), 4)
        self.assertIn("left out: feature 3 of masts.csv (500045, 5199955) lies where there is no data, at row 1", lines)

    def test_ten_are_named_and_the_rest_counted(self):
        self.write("x,y", *(f"{number},7" for number in range(1, 1036)))
        line = self.refuse_view(2, "1,035 points have no place: feature 1 of")
        self.assertEqual(line.count("lies outside"), 10)
        self.assertIn("feature 10 of masts.csv (10, 7) lies outside the raster; and 1,025 more: --skip leaves", line)

    def test_none_is_left(self):
        self.write("x,y", "1,2")
        self.refuse_view(2, "feature 1 of masts.csv (1, 2) lies outside the raster: --skip leaves it out")
        self.refuse_view(1, "view needs observers", "--skip")

    def test_words_and_gauges_and_sinks(self):
        outside = "--at", "100,200"
        self.refuse(2, "point 1 (100, 200) lies outside the raster: --skip", "fill", "dem.tif", "out.tif", *outside)
        self.assertIn("left out: point 1 (100, 200)", self.make("fill", "dem.tif", "out.tif", *outside, "--skip"))
        lines = self.make("catchments", "dem.tif", "out.tif", *outside, *at(10, 20), "--sink-at", "7,8", "--skip")
        self.assertIn("left out: sink 1 (7, 8) lies outside the raster", lines)
        # Numbers count the gauges that are left.
        self.assertIn("1, point 2 (500615, 5199685): ", lines)

    def test_pairs_stay_pairs(self):
        self.make("view", "dem.tif", "out.tif", "--at", "100,200", *at(10, 20), "--eye", "3", "--eye", "40", "--skip")
        self.check("10,20,4000")

    def test_eyes_without_value(self):
        self.write("x,y,height", "{},{},".format(*centre(10, 20)), "{},{},7".format(*centre(25, 33)))
        self.refuse(2, "feature 1 of masts.csv has no value in its field height", "view", "dem.tif", "out.tif",
                    "--points", "masts.csv", "--eye-field", "height")
        self.view("--eye-field", "height", "--skip")
        self.check("25,33,700")

    def test_a_layer_of_the_user_with_an_empty_geometry(self):
        make_points(self.folder / "masts.gpkg", [centre(10, 20), (np.nan, np.nan)])
        self.view("--eye", "3", "--skip", points="masts.gpkg")
        self.check("10,20,300")


class Several(Table):
    def test_layers_of_a_file(self):
        make_points(self.folder / "a b.gpkg", [centre(10, 20)])
        dataset = gdal.OpenEx(str(self.folder / "a b.gpkg"), gdal.OF_UPDATE)
        dataset.CreateLayer("more")
        del dataset
        line = self.refuse(1, "a b.gpkg has 2 layers: choose one by 'a b.gpkg|layername=NAME' of places, more", "view",
                           "dem.tif", "out.tif", "--points", "a b.gpkg", "--eye", "3")
        word, = shlex.split(line.split("choose one by ")[1].split(" of ")[0])
        self.view("--eye", "3", points=word.replace("NAME", "places"))
        self.check("10,20,300")


class Datums(Table):
    """Points on another datum."""

    def test_a_shift_that_nobody_knows(self):
        make_points(self.folder / "masts.gpkg", [centre(10, 20)], projection="+proj=utm +zone=32 +ellps=bessel")
        text = "masts.gpkg cannot be projected to the raster: no shift from its datum to that of the raster is known"
        self.refuse(2, text, "view", "dem.tif", "out.tif", "--points", "masts.gpkg", "--eye", "3")

    def test_a_grid_that_is_missing(self):
        # By PROJ's database alone NAD27 is known to some 20 m: less than a cell of 30 m, and more than one of 10 m.
        paths = [os.path.join(path, "proj.db") for path in osr.GetPROJSearchPaths()]
        (self.folder / "proj.db").symlink_to(next(filter(os.path.exists, paths)))
        make_points(self.folder / "masts.shp", [(-93.0, 45.0)], driver="ESRI Shapefile", projection="EPSG:4267")
        for side, is_told in ((30.0, False), (10.0, True)):
            placed = (500000.0 - 20 * side, side, 0.0, 4982950.0 + 15 * side, 0.0, -side)
            make_raster(self.folder / "dem.tif", hills().astype(np.float32), placed=placed, projection="EPSG:26915")
            words = ["view", "dem.tif", "out.tif", "--points", "masts.shp", "--eye", "3"]
            done = subprocess.run([sys.executable, "-m", "relief_gis", *words], cwd=self.folder, text=True,
                                  capture_output=True, env=environment(RELIEF, PROJ_LIB=str(self.folder),
                                                                       PROJ_DATA=str(self.folder), PROJ_NETWORK="OFF"))
            self.assertEqual(done.returncode, 0, done.stderr)
            self.assertEqual("masts.shp is on another datum than the raster, and the shift" in done.stderr, is_told)

    def test_a_shift_that_is_known(self):
        change = osr.CoordinateTransformation(reference(UTM), reference("EPSG:2056"))
        make_points(self.folder / "masts.gpkg", [change.TransformPoint(*centre(10, 20))[:2]], projection="EPSG:2056")
        self.assertEqual(self.view("--eye", "3", points="masts.gpkg"), "")
        self.check("10,20,300")

    def test_heights_of_the_projection_do_not_count(self):
        make_points(self.folder / "masts.gpkg", [centre(10, 20)], projection="EPSG:32632+5773")
        self.assertEqual(self.view("--eye", "3", points="masts.gpkg"), "")
        self.check("10,20,300")


if __name__ == "__main__":
    unittest.main()
