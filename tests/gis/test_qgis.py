"""The QGIS provider, headless: every algorithm by `qgis_process`, and errors in plain words."""
import contextlib
import csv
import io
import json
import os
import shlex
import time
import unittest
from concurrent.futures import ThreadPoolExecutor

import numpy as np
from osgeo import gdal, ogr

from fixtures import HERE, RELIEF, UTM, Case, centre, hills, info, make_points, make_raster, read
from qgis_profile import Profile
from relief_gis.program import Program

PARALLEL = 3


def setUpModule():
    """Makes a profile of QGIS in which the plugin is enabled."""
    global PROFILE
    PROFILE = Profile.of_module()
    done = PROFILE.run("plugins", "enable", "relief")
    if "Enabled relief" not in done.stdout:
        raise RuntimeError(done.stdout + done.stderr)


def features_of(path):
    """The fields and the outline of each feature of a file."""
    source = ogr.Open(str(path))
    return [{**feature.items(), "outline": feature.GetGeometryRef().ExportToWkt()} for feature in source.GetLayer(0)]


class Algorithms(Case):
    """Maps by QGIS have to be those of the command."""

    def setUp(self):
        super().setUp()
        make_raster(self.folder / "dem.tif", hills().astype(np.float32))
        make_points(self.folder / "places.gpkg", [(*centre(10, 20), 12.5), (*centre(25, 33), 3.0)], fields=["height"])
        self.points = [f"--POINTS={self.folder / 'places.gpkg'}"]

    def run_algorithm(self, name, *words):
        return PROFILE.run("run", f"relief:{name}", f"--INPUT={self.folder / 'dem.tif'}",
                           f"--OUTPUT={self.folder / f'qgis_{name}.tif'}", *words)

    def check(self, case):
        """Runs one algorithm, and compares what it wrote with what the command wrote."""
        name, words, _ = case
        done = self.run_algorithm(name, *words)
        if done.returncode != 0:
            return f"{name}: {done.stdout}{done.stderr}"
        ours, theirs = self.folder / f"qgis_{name}.tif", self.folder / f"{name}.tif"
        for band in range(1, gdal.Open(str(theirs)).RasterCount + 1):
            if not np.array_equal(read(ours, band), read(theirs, band)):
                return f"{name}: not the map of the command"
        for key in ("geoTransform", "coordinateSystem", "size"):
            if info(ours).get(key) != info(theirs).get(key):
                return f"{name}: {key}"
        return None

    def test_every_algorithm(self):
        click = "{},{}".format(*centre(10, 20))
        layer = ["--points", "places.gpkg"]
        sinks = make_points(self.folder / "sinks.gpkg", [centre(7, 9)])
        cases = [(name, self.points, layer) for name in ("fill", "flow", "accumulate", "basins", "depth", "area")]
        cases += [
            ("streams", ["--THRESHOLD=20"], ["--threshold", "20"]),
            ("view", [*self.points, "--EYE_FIELD=height", f"--AT={click} [{UTM}]", "--EYE=1.5", "--TARGET=1",
                      "--RADIUS=400", "--VOIDS=1", "--DECIMALS=2"],
             ["--at", click, *layer, "--eye-field", "height", "--eye", "1.5", "--target", "1", "--radius", "400"]),
            *[("rise", [*self.points, "--EYE_FIELD=height", f"--AT={click} [{UTM}]", "--EYE=1.5", "--RADIUS=400",
                        "--EACH=true", "--CURVATURE=true"],
               ["--at", click, *layer, "--eye-field", "height", "--eye", "1.5", "--radius", "400", "--each",
                "--curvature"])] * Program.find(RELIEF).has_map("rise"),
            ("catchments", [*self.points, f"--AT={click} [{UTM}]", "--SNAP=3", f"--SINKS={sinks}",
                            f"--SNAPPED={self.folder / 'moved.gpkg'}"],
             ["--at", click, *layer, "--snap", "3", "--sinks", "sinks.gpkg"]),
        ]
        for name, _, command in cases:
            self.make(name, "dem.tif", f"{name}.tif", *command)
        with ThreadPoolExecutor(PARALLEL) as pool:
            wrong = [fault for fault in pool.map(self.check, cases) if fault is not None]
        self.assertEqual(wrong, [])
        self.assertTrue((self.folder / "moved.gpkg").exists())

    def test_what_lies_beside_maps(self):
        """Bands, tables and layers, and a profile, are those of the command."""
        folder = self.folder
        make_points(folder / "places.gpkg", [(*centre(10, 20), 12.5, 1, 300), (*centre(25, 33), 3.0, 0, 450)],
                    fields=["height", "top", "reach"])
        ends = ["500165,5199865", "501005,5199235"]
        cases = [
            ("view", [*self.points, "--EYE_FIELD=height", "--TARGET_FIELD=top", "--RADIUS_FIELD=reach",
                      "--NAME_FIELD=top", "--EACH=true", "--CURVATURE=true", "--REFRACTION=0.2",
                      f"--VISIBILITY={folder}/qgis_who.csv"],
             ["--points", "places.gpkg", "--eye-field", "height", "--target-field", "top", "--radius-field", "reach",
              "--name-field", "top", "--each", "--curvature", "--refraction", "0.2", "--visibility", "who.csv"]),
            ("catchments", [*self.points, f"--POLYGONS={folder}/qgis_areas.gpkg"],
             ["--points", "places.gpkg", "--polygons", "areas.gpkg"]),
            ("streams", ["--THRESHOLD_AREA=1.8", f"--LINES={folder}/qgis_lines.gpkg"],
             ["--threshold", "20", "--lines", "lines.gpkg"]),
            ("basins", ["--LEAST=20", f"--AROUND={ends[0]} [{UTM}]"], ["--least", "20", "--around", ends[0]]),
        ]
        for name, _, command in cases:
            self.make(name, "dem.tif", f"{name}.tif", *command)
        with ThreadPoolExecutor(PARALLEL) as pool:
            wrong = [fault for fault in pool.map(self.check, cases) if fault is not None]
        self.assertEqual(wrong, [])
        for name in ("areas.gpkg", "lines.gpkg"):
            fields, features = features_of(folder / f"qgis_{name}"), features_of(folder / name)
            # A feature's name in messages is not its name in QGIS.
            self.assertEqual([{**one, "name": ""} for one in fields], [{**one, "name": ""} for one in features])
            self.assertGreater(len(features), 0)
        rows = [csv.DictReader((folder / name).read_text().splitlines()) for name in ("qgis_who.csv", "who.csv")]
        self.assertEqual(*([{**row, "name": "", "other_name": ""} for row in table] for table in rows))
        done = PROFILE.run("run", "relief:profile", f"--INPUT={folder}/dem.tif", f"--FROM={ends[0]} [{UTM}]",
                           f"--TO={ends[1]} [{UTM}]", "--EYE=2", "--TARGET=1", f"--OUTPUT={folder}/qgis_profile.csv")
        self.assertEqual(done.returncode, 0, done.stdout + done.stderr)
        with contextlib.redirect_stdout(io.StringIO()) as told:
            self.make("profile", "dem.tif", "--from", ends[0], "--to", ends[1], "--eye", "2", "--target", "1", "--out",
                      "profile.csv")
        self.assertEqual((folder / "qgis_profile.csv").read_text(), (folder / "profile.csv").read_text())
        for line in told.getvalue().splitlines():
            self.assertIn(line, done.stdout + done.stderr)

    def test_maps(self):
        """Several maps by one run, with their styles, are those of the command."""
        folder = self.folder
        sinks = make_points(folder / "sinks.gpkg", [centre(7, 9)])
        names = ("fill", "flow", "accumulate", "streams", "catchments")
        done = PROFILE.run("run", "relief:maps", f"--INPUT={folder}/dem.tif", *self.points, f"--SINKS={sinks}",
                           "--THRESHOLD=20", "--SNAP=2",
                           *(f"--{name.upper()}={folder}/qgis_{name}.tif" for name in names))
        self.assertEqual(done.returncode, 0, done.stdout + done.stderr)
        layer = ["--points", "places.gpkg", "--snap", "2", "--sinks", "sinks.gpkg"]
        for name in names:
            own = {"streams": ["--threshold", "20"], "catchments": layer}.get(name, [])
            self.make(name, "dem.tif", f"{name}.tif", *own, *([] if own is layer else ["--points", "sinks.gpkg"]))
            np.testing.assert_array_equal(read(folder / f"qgis_{name}.tif"), read(folder / f"{name}.tif"))
            self.assertEqual((folder / f"qgis_{name}.qml").exists(), (folder / f"{name}.qml").exists())
        self.assertFalse((folder / "qgis_basins.tif").exists())
        for words, told in (([], "choose a file for one of the maps"),
                            ([f"--FLOW={folder}/no.tif", *self.points], "gauges need the map of catchments")):
            done = PROFILE.run("run", "relief:maps", f"--INPUT={folder}/dem.tif", *words)
            self.assertNotEqual(done.returncode, 0)
            self.assertIn(told, done.stdout + done.stderr)

    def test_compare(self):
        """The answer and the differences are those of the command."""
        folder = self.folder
        self.make("flow", "dem.tif", "flow.tif")
        codes = read(folder / "flow.tif")
        # Numbers from the north on, as one program has them.
        numbers = np.where(codes == 0, -1, (np.log2(np.maximum(codes, 1)) + 2) % 8)
        make_raster(folder / "other.tif", numbers.astype(np.int16))
        done = PROFILE.run("run", "relief:compare", f"--INPUT={folder}/dem.tif", f"--OTHER={folder}/other.tif",
                           "--MAP=1", "--CODES=2", f"--OUTPUT={folder}/kinds.tif", *self.points)
        self.assertEqual(done.returncode, 0, done.stdout + done.stderr)
        words = ["compare", "dem.tif", "other.tif", "--map", "flow", "--codes", "saga", "--points", "places.gpkg"]
        with contextlib.redirect_stdout(io.StringIO()) as told:
            self.make(*words, "--out", "expected.tif")
        self.assertIn("the direction of the definition", told.getvalue())
        for line in told.getvalue().splitlines():
            self.assertIn(line, done.stdout)
        np.testing.assert_array_equal(read(folder / "kinds.tif"), read(folder / "expected.tif"))
        # The command among the metadata tells the same.
        command = shlex.split(info(folder / "kinds.tif")["metadata"][""]["RELIEF_COMMAND"])
        with contextlib.redirect_stdout(io.StringIO()) as again:
            self.make(*command[1:])
        self.assertEqual(again.getvalue(), told.getvalue())
        done = PROFILE.run("run", "relief:compare", f"--INPUT={folder}/dem.tif", f"--OTHER={folder}/dem.tif", "--MAP=1")
        self.assertNotEqual(done.returncode, 0)
        self.assertIn("are no codes of arcgis: choose others for 'Codes of its directions'", done.stdout + done.stderr)

    def test_errors_in_plain_words(self):
        array = hills().astype(np.float32)
        array[10, 10] = -9999
        make_raster(self.folder / "dem.tif", array, -9999.0)
        done = self.run_algorithm("fill")
        self.assertNotEqual(done.returncode, 0)
        said = done.stdout + done.stderr
        self.assertIn("1 cell in 1 hole inside the land", said)
        self.assertIn("Holes inside the land", said)
        self.assertNotIn("--voids", said)
        self.assertNotIn("Traceback", said)
        self.assertFalse((self.folder / "qgis_fill.tif").exists())

    def feedback(self, name, *words, **parameters):
        """The lines of a run within QGIS: its progress, and how it ended."""
        parameters = {"INPUT": str(self.folder / "dem.tif"), "OUTPUT": str(self.folder / "out.tif"), **parameters}
        done = PROFILE.run(str(PROFILE.plugins), name, json.dumps(parameters), *words,
                           command=["/usr/bin/python3", str(HERE / "feedback_in_qgis.py")])
        self.assertEqual(done.returncode, 0, done.stderr)
        return done.stdout.splitlines()

    def test_the_bar_runs_once_for_each_stage(self):
        make_raster(self.folder / "dem.tif", hills(700, 700).astype(np.float32))
        masts = make_points(self.folder / "masts.gpkg", [centre(30 * at, 33 * at) for at in range(20)] * 4)
        begin, *stages, end = self.feedback("view", POINTS=str(masts), EYE=30, WORKERS=1)
        self.assertEqual((begin, end), ("begin:", "done"))
        found = []
        for line in stages:
            label, _, shares = line.partition(": ")
            found.append(int(label.removeprefix("relief view, stage ")))
            shares = list(map(int, shares.split()))
            self.assertEqual(shares, sorted(shares))
        self.assertEqual(found, sorted(set(found)))
        # The last stage takes nearly all time, and the bar moves all the while.
        self.assertGreater(len(shares), 12)
        self.assertEqual(shares[-1], 100)

    def test_cancel_ends_the_program_and_leaves_no_map(self):
        # Minutes of work: each of many observers looks over the whole raster.
        make_raster(self.folder / "dem.tif", hills(1500, 1500).astype(np.float32))
        masts = make_points(self.folder / "masts.gpkg", [centre(40 * at, 45 * at) for at in range(33)] * 30)
        began = time.monotonic()
        lines = self.feedback("view", "cancel", POINTS=str(masts), EYE=30, WORKERS=1)
        self.assertEqual(lines[-1], "cancelled")
        self.assertLess(time.monotonic() - began, 100)
        self.assertEqual([name for name in os.listdir(self.folder) if "out" in name], [])

    def test_an_extent(self):
        west, north = centre(0, 0)[0] - 15, centre(0, 0)[1] + 15
        extent = f"{west + 30},{west + 630},{north - 600},{north - 30} [{UTM}]"
        done = self.run_algorithm("accumulate", f"--EXTENT={extent}")
        self.assertEqual(done.returncode, 0, done.stdout + done.stderr)
        self.make("accumulate", "dem.tif", "part.tif", "--window", "1,1,20,19")
        np.testing.assert_array_equal(read(self.folder / "qgis_accumulate.tif"), read(self.folder / "part.tif"))


if __name__ == "__main__":
    unittest.main()
