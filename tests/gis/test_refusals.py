"""What `relief` cannot see, and bad words: one line that says what to do, a status, and no file."""
import os
import resource
import signal
import subprocess
import sys
import time
import unittest

import numpy as np
from osgeo import gdal

from fixtures import GIS, PLACED, Case, at, environment, hills, make_points, make_raster
from relief_gis.errors import Cancelled
from relief_gis.program import Program


class Rasters(Case):
    """Rasters of which no map is made."""

    def raster(self, array=None, **more):
        make_raster(self.folder / "dem.tif", hills().astype(np.float32) if array is None else array, **more)

    def refuse_fill(self, text, *words):
        return self.refuse(2, text, "fill", "dem.tif", "out.tif", *words)

    def test_degrees_name_a_command_that_does(self):
        make_raster(self.folder / "geo.tif", hills(40, 40).astype(np.float32))
        gdal.Warp(str(self.folder / "dem.tif"), str(self.folder / "geo.tif"), dstSRS="EPSG:4326", dstNodata=-9999)
        line = self.refuse_fill("dem.tif is in degrees")
        command = line.split("project it first: ")[1].split()
        self.assertEqual(command[:6], ["gdalwarp", "-ot", "Float32", "-r", "bilinear", "-t_srs"])
        self.assertEqual(command[6], "EPSG:32632")
        subprocess.run([command[0], "-q", *command[1:]], cwd=self.folder, check=True)
        self.make("fill", "metres.tif", "out.tif", "--voids", "fill")

    def test_oblong_cells_name_a_command_that_does(self):
        self.raster(placed=(500000.0, 30.0, 0.0, 5200000.0, 0.0, -20.0))
        line = self.refuse_fill("cells of 30 by 20, which are not square")
        command = line.split("make them so first: ")[1].split()
        subprocess.run([command[0], "-q", *command[1:]], cwd=self.folder, check=True)
        self.make("fill", "square.tif", "out.tif")

    def test_cells_oblong_by_rounding_are_taken(self):
        self.raster(placed=(500000.0, 30.0, 0.0, 5200000.0, 0.0, -30.0000001))
        self.make("fill", "dem.tif", "out.tif")

    def test_turned(self):
        self.raster(placed=(500000.0, 30.0, 3.0, 5200000.0, 3.0, -30.0))
        self.refuse_fill("is turned")

    def test_from_south_to_north(self):
        self.raster(placed=(500000.0, 30.0, 0.0, 5200000.0, 0.0, 30.0))
        self.refuse_fill("runs from south to north")

    def test_no_projection(self):
        self.raster(projection=None)
        self.refuse_fill("names no projection: give it by --projection")
        self.refuse(1, "no projection EPSG:0", "fill", "dem.tif", "out.tif", "--projection", "EPSG:0")

    def test_a_projection_twice(self):
        self.raster()
        self.refuse(1, "has a projection already", "fill", "dem.tif", "out.tif", "--projection", "EPSG:32633")

    def test_not_placed(self):
        self.raster(placed=None)
        self.refuse_fill("is not placed")

    def test_too_large_and_a_window_of_it(self):
        array = np.zeros((3, 4097), np.uint8)
        array[1, 2000] = 7
        self.raster(array)
        self.refuse_fill("4,097 columns and 3 rows, and 4,096 of each is the most: cut a part out by --window")
        self.refuse_fill(", have that of one place read by --around X,Y, or make the cells larger: gdalwarp ")
        self.make("fill", "dem.tif", "out.tif", "--window", "1990,0,20,3")

    def test_no_data_at_all(self):
        self.raster(np.full((3, 3), -9999, np.float32), nodata=-9999.0)
        self.refuse_fill("has no data")

    def test_infinite_and_huge_heights(self):
        for value, text in ((np.inf, "infinite"), (-3.4e38, "past 10^15 units")):
            array = hills().astype(np.float32)
            array[3, 3] = value
            self.raster(array)
            self.refuse_fill(text)

    def test_complex_heights(self):
        dataset = gdal.GetDriverByName("GTiff").Create(str(self.folder / "dem.tif"), 3, 3, 1, gdal.GDT_CFloat32)
        dataset.SetGeoTransform(PLACED)
        del dataset
        self.refuse_fill("neither integers nor floats", "--no-projection")

    def test_no_raster(self):
        self.refuse(4, "missing.tif could not be read", "fill", "missing.tif", "out.tif")
        (self.folder / "dem.tif").write_text("no raster")
        self.refuse(4, "dem.tif could not be read", "fill", "dem.tif", "out.tif")

    def test_a_raster_that_is_cut_off(self):
        self.raster(hills(200, 200).astype(np.float32))
        whole = (self.folder / "dem.tif").read_bytes()
        (self.folder / "dem.tif").write_bytes(whole[:len(whole) // 2])
        self.refuse(4, "dem.tif could not be read", "fill", "dem.tif", "out.tif")


class Words(Case):
    """Words of the command line."""

    def setUp(self):
        super().setUp()
        make_raster(self.folder / "dem.tif", hills().astype(np.float32))

    def test_words_without_meaning(self):
        for words in (["--decimals", "7"], ["--decimals", "x"], ["--voids", "keep"], ["--band", "2"],
                      ["--window", "1,2,3"], ["--window", "0,0,41,3"], ["--window", "0.5,0,4,3"],
                      ["--bounds", "1,2,3"], ["--bounds", "1,2,3,4"], ["--at", "500000"],
                      ["--at", "a,b"], ["--eye", "3"], ["--wrong"]):
            self.refuse(1, "relief-gis", "fill", "dem.tif", "out.tif", *words)
        self.refuse(1, "MAP", "wrong", "dem.tif", "out.tif")
        self.refuse(1, "--threshold", "streams", "dem.tif", "out.tif")

    def test_words_of_view(self):
        place = at(10, 20)
        self.refuse(1, "view needs observers", "view", "missing.tif", "out.tif", "--eye", "3")
        for text, words in (("needs observers", ["--eye", "3"]),
                            ("has no eye: give --eye", place),
                            ("no whole number of units of 0.01: --decimals 3 would do", [*place, "--eye", "1.555"]),
                            ("is below 0", [*place, "--eye", "-1"]),
                            ("above 10000, the most with 2 decimals", [*place, "--eye", "10001"]),
                            ("the target 0.001 is no whole number", [*place, "--eye", "1", "--target", "0.001"]),
                            ("the radius 29 is less than a cell of 30", [*place, "--eye", "1", "--radius", "29"]),
                            ("the radius x is no number", [*place, "--eye", "1", "--radius", "x"])):
            self.refuse(1, text, "view", "dem.tif", "out.tif", *words)

    def test_words_that_relief_refuses(self):
        self.refuse(1, "relief", "fill", "dem.tif", "out.tif", "--workers", "65")

    def test_the_raster_itself_as_target(self):
        self.refuse(1, "is the raster that is read", "fill", "dem.tif", "dem.tif")

    def test_targets_that_cannot_be(self):
        self.refuse(4, "no folder", "fill", "dem.tif", "none/out.tif")
        for name in ("out.asc", "out", "out.tif.gz"):
            self.refuse(1, f"{name} would be a GeoTIFF: give it a name that ends with .tif", "fill", "dem.tif", name)
        self.make("fill", "dem.tif", "OUT.TIFF")
        (self.folder / "folder").mkdir()
        self.refuse(4, "it is a folder", "fill", "dem.tif", "folder")


class Points(Case):
    """Layers and their points."""

    def setUp(self):
        super().setUp()
        array = hills().astype(np.float32)
        array[:3, :3] = -9999
        make_raster(self.folder / "dem.tif", array, -9999.0)

    def view(self, status, text, *words):
        return self.refuse(status, text, "view", "dem.tif", "out.tif", *words)

    def test_outside_and_on_nodata_by_their_names(self):
        make_points(self.folder / "masts.gpkg", [(500400.0, 5199800.0), (400000.0, 5199800.0)])
        self.view(2, "feature 2 of masts.gpkg (400000, 5199800) lies outside the raster", "--points", "masts.gpkg",
                  "--eye", "3")
        self.view(2, "point 1 (500045, 5199955) lies where there is no data, at row 1 and column 1", *at(1, 1), "--eye",
                  "3")
        self.refuse(2, "lies where there is no data", "fill", "dem.tif", "out.tif", *at(1, 1))

    def test_eyes_of_a_field(self):
        make_points(self.folder / "masts.gpkg", [(500400.0, 5199800.0, 1.005)], fields=["height"])
        self.view(1, "has no field eye", "--points", "masts.gpkg", "--eye-field", "eye")
        self.view(1, "feature 1 of masts.gpkg, 1.005 is no whole number", "--points", "masts.gpkg", "--eye-field",
                  "height")
        make_points(self.folder / "masts.gpkg", [(500400.0, 5199800.0)], fields=["height"])
        self.view(2, "has no value in its field height", "--points", "masts.gpkg", "--eye-field", "height")

    def test_no_layer(self):
        self.view(4, "none.gpkg could not be read", "--points", "none.gpkg", "--eye", "3")
        make_points(self.folder / "masts.gpkg", [(500400.0, 5199800.0)])
        self.view(1, "has no layer other", "--points", "masts.gpkg|layername=other", "--eye", "3")

    def test_no_points(self):
        (self.folder / "lines.csv").write_text("name;WKT\na;\"LINESTRING (500400 5199800,500500 5199800)\"\n")
        self.view(2, "is no point", "--points", "lines.csv", "--eye", "3")


class Ends(Case):
    """What is left behind, and missing parts."""

    def setUp(self):
        super().setUp()
        make_raster(self.folder / "dem.tif", hills().astype(np.float32))

    def program(self, text):
        """A stand-in for `relief` that does what a shell text says of a map."""
        path = self.folder / "relief"
        path.write_text(f"#!/bin/sh\ncase $1 in --version) echo relief 9.9.9;; --help) echo help;; *) {text};; esac\n")
        path.chmod(0o755)
        return str(path)

    def test_the_programs_refusal_status_and_meaning_come_through(self):
        for text, status, number in (("echo 'relief: 12 Memory' >&2; exit 3", 3, "relief: 12 Memory: out of memory"),
                                     ("echo 'relief: 52 Write' >&2; exit 4", 4, "relief: 52 Write: the map could not"),
                                     ("echo 'relief: 7 BadHeight 3' >&2; exit 2", 2, "7 BadHeight 3: relief-gis wrote"),
                                     ("echo 'error: odd' >&2; exit 1", 1, "relief: error: odd"),
                                     ("kill -9 $$", 3, "ended by signal 9")):
            self.refuse(status, number, "fill", "dem.tif", "out.tif", program=self.program(text))

    def test_a_place_is_told_by_its_name(self):
        program = self.program("echo 'relief: 46 SinkOutside 1' >&2; exit 2")
        self.refuse(2, "46 SinkOutside 1: point 2 (500105, 5199895): the sink lies outside", "fill", "dem.tif",
                    "out.tif", *at(2, 2), *at(3, 3), program=program)

    def test_an_older_map_stays_where_the_new_one_is_refused(self):
        make_raster(self.folder / "out.tif", np.zeros((3, 3), np.uint8))
        older = (self.folder / "out.tif").read_bytes()
        program = self.program("echo 'relief: 12 Memory' >&2; exit 3")
        self.refuse(3, "Memory", "fill", "dem.tif", "out.tif", program=program)
        self.assertEqual((self.folder / "out.tif").read_bytes(), older)

    def test_what_tools_left_of_an_older_map_goes(self):
        for name in ("out.tif.aux.xml", "out.tif.ovr"):
            (self.folder / name).write_text("older")
        self.make("fill", "dem.tif", "out.tif")
        self.assertEqual(sorted(os.listdir(self.folder)), ["dem.tif", "out.tif"])

    def test_a_signal_leaves_no_file(self):
        def heed():
            # A job in the background of a shell ignores interrupts.
            signal.signal(signal.SIGINT, signal.SIG_DFL)

        for number, status in ((signal.SIGTERM, 143), (signal.SIGINT, 130)):
            program = self.program("exec sleep 60")
            before = sorted(os.listdir(self.folder))
            words = [sys.executable, str(GIS / "relief-gis"), "fill", "dem.tif", "out.tif"]
            with subprocess.Popen(words, cwd=self.folder, env=environment(program), stderr=subprocess.PIPE,
                                  text=True, preexec_fn=heed) as process:
                time.sleep(2)
                process.send_signal(number)
                self.assertEqual(process.wait(30), status)
            self.assertEqual(sorted(os.listdir(self.folder)), before)

    def test_a_full_disk(self):
        def limit():
            signal.signal(signal.SIGXFSZ, signal.SIG_IGN)
            resource.setrlimit(resource.RLIMIT_FSIZE, (3000, 3000))

        done = subprocess.run([sys.executable, str(GIS / "relief-gis"), "fill", "dem.tif", "out.tif"], cwd=self.folder,
                              env=environment(), stderr=subprocess.PIPE, text=True, preexec_fn=limit)
        self.assertEqual((done.returncode, done.stderr.count("\n")), (4, 1), done.stderr)
        self.assertIn("out.tif could not be written", done.stderr)
        self.assertEqual(os.listdir(self.folder), ["dem.tif"])

    def test_no_program(self):
        words = "fill", "dem.tif", "out.tif"
        self.refuse(5, "there is no program /none: install the package relief", *words, program="/none")
        self.refuse(5, "is not the relief that makes maps", *words, program="/bin/true")

    def test_a_run_that_is_cancelled_ends_the_program(self):
        program = Program.find(self.program("exec sleep 60"))
        began = time.monotonic()
        with self.assertRaises(Cancelled):
            program.run(["fill"], np.zeros((2, 2), np.int64), None, is_cancelled=lambda: True)
        self.assertLess(time.monotonic() - began, 20)

    def test_a_python_without_the_modules(self):
        (self.folder / "numpy").mkdir()
        (self.folder / "numpy" / "__init__.py").write_text("raise ImportError")
        done = subprocess.run([sys.executable, str(GIS / "relief-gis"), "--version"], capture_output=True, text=True,
                              env={**environment(), "PYTHONPATH": f"{self.folder}:{GIS}"})
        self.assertEqual((done.returncode, done.stderr.count("\n")), (5, 1))
        self.assertIn("has no module numpy: install the package python3-numpy", done.stderr)


if __name__ == "__main__":
    unittest.main()
