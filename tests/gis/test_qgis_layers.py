"""Layers of QGIS as their users set them: CRS, values without data, eyes; and the command that a map names."""
import json
import subprocess
import unittest

import numpy as np
from osgeo import gdal, osr

from fixtures import GIS, HERE, UTM, Case, centre, environment, hills, make_points, make_raster, nodata_of, read
from qgis_profile import Profile


def setUpModule():
    """Makes a profile of QGIS."""
    global PROFILE
    PROFILE = Profile.of_module()


def projection_of(path):
    """The EPSG code of a raster's projection."""
    return osr.SpatialReference(wkt=gdal.Open(str(path)).GetProjection()).GetAuthorityCode(None)


def reference(words):
    """A projection with x before y."""
    found = osr.SpatialReference()
    found.SetFromUserInput(words)
    found.SetAxisMappingStrategy(osr.OAMS_TRADITIONAL_GIS_ORDER)
    return found


class Layers(Case):
    def setUp(self):
        super().setUp()
        self.heights = np.rint(hills()).astype(np.float32)
        self.heights[:3, :4] = -9999
        self.heights[-2:, -3:] = 0

    def raster(self, name, nodata=None, array=None, **more):
        return make_raster(self.folder / name, self.heights if array is None else array, nodata, **more)

    def case(self, source, target, algorithm="fill", parameters=None, **settings):
        """A run of an algorithm from one file of the folder to another."""
        words = {"OUTPUT": str(self.folder / target), "WORKERS": 1, **(parameters or {})}
        return {"algorithm": algorithm, "source": str(self.folder / source), "parameters": words, **settings}

    def outcomes(self, *cases):
        """Of each case whether it worked, and what was said."""
        done = PROFILE.run(str(PROFILE.plugins), json.dumps(cases),
                           command=["/usr/bin/python3", str(HERE / "layers_in_qgis.py")])
        self.assertEqual(done.returncode, 0, done.stderr)
        return [json.loads(line) for line in done.stdout.splitlines()]

    def command_of(self, name):
        return gdal.Open(str(self.folder / name)).GetMetadataItem("RELIEF_COMMAND")

    def repeat(self, name):
        """Types the command of a map, which has to make the same map again."""
        path = self.folder / name
        before, command = read(path), self.command_of(name)
        path.unlink()
        tools = self.folder / "bin"
        if not tools.exists():
            tools.mkdir()
            (tools / "relief-gis").write_text(f'#!/bin/sh\nexec /usr/bin/python3 "{GIS}/relief-gis" "$@"\n')
            (tools / "relief-gis").chmod(0o755)
        words = environment(PATH=f"{tools}:/usr/bin:/bin")
        done = subprocess.run(["bash", "-e", "-c", command], cwd=self.folder, env=words, capture_output=True, text=True)
        self.assertEqual(done.returncode, 0, f"{command}: {done.stderr}")
        np.testing.assert_array_equal(read(path), before, command)
        return command

    def test_the_crs_of_the_project(self):
        self.raster("dem.tif", -9999.0)
        self.raster("bare.tif", -9999.0, projection=None)
        self.make("fill", "dem.tif", "expected.tif")
        outcomes = self.outcomes(
            self.case("dem.tif", "same.tif"), self.case("dem.tif", "other.tif", crs="EPSG:25832"),
            self.case("bare.tif", "given.tif", crs=UTM), self.case("dem.tif", "degrees.tif", crs="EPSG:4326"),
            self.case("dem.tif", "none.tif", crs=""))
        self.assertEqual([worked for worked, _ in outcomes], [True, True, True, False, False])
        self.assertIn("degrees", outcomes[3][1])
        self.assertIn("no CRS in this project, and its file has EPSG:32632: set it", outcomes[4][1])
        for name, code in (("same", "32632"), ("other", "25832"), ("given", "32632")):
            self.assertEqual(projection_of(self.folder / f"{name}.tif"), code)
            np.testing.assert_array_equal(read(self.folder / f"{name}.tif"), read(self.folder / "expected.tif"))
        self.assertTrue(self.repeat("same.tif").startswith("relief-gis fill /"))
        self.assertTrue(self.repeat("other.tif").startswith("gdal_translate -q -of VRT -a_srs EPSG:25832 /"))
        self.assertEqual(projection_of(self.folder / "other.tif"), "25832")
        self.repeat("given.tif")

    def test_the_values_without_data_of_the_project(self):
        """Each map is that of a file that names the value itself."""
        self.raster("bare.tif")
        self.raster("named.tif", -9999.0)
        self.raster("zero.tif", 0.0)
        outcomes = self.outcomes(
            self.case("bare.tif", "a.tif", nodata=[-9999]), self.case("named.tif", "b.tif", source_nodata=False),
            self.case("named.tif", "c.tif", source_nodata=False, nodata=[0]),
            self.case("named.tif", "d.tif", nodata=[-9999]))
        self.assertEqual([worked for worked, _ in outcomes], [True] * 4, outcomes)
        self.assertIn("12 cells have the height -9999", outcomes[1][1])
        self.assertIn("name -9999 as 'Additional no data value'", outcomes[1][1])
        for source in ("named", "bare", "zero"):
            self.make("fill", f"{source}.tif", f"of_{source}.tif")
        for name, source in (("a", "named"), ("b", "bare"), ("c", "zero"), ("d", "named")):
            path, expected = self.folder / f"{name}.tif", self.folder / f"of_{source}.tif"
            np.testing.assert_array_equal(read(path), read(expected), name)
            self.assertEqual(nodata_of(path), nodata_of(expected))
            self.repeat(f"{name}.tif")
        self.assertTrue(self.command_of("d.tif").startswith("relief-gis"))

    def test_values_without_data_that_no_raster_has(self):
        self.raster("named.tif", -9999.0)
        self.raster("bytes.tif", array=np.rint(hills() - 200).astype(np.uint8))
        self.raster("scaled.tif", array=np.rint(hills()).astype(np.int16), scale=0.1)
        outcomes = self.outcomes(
            self.case("named.tif", "out.tif", nodata=[0]), self.case("named.tif", "out.tif", nodata=[[-10000, -9000]]),
            self.case("named.tif", "out.tif", source_nodata=False, nodata=[0, 1]),
            self.case("bytes.tif", "out.tif", nodata=[300]), self.case("bytes.tif", "out.tif", nodata=[0.5]),
            self.case("scaled.tif", "out.tif", nodata=[30]))
        self.assertEqual([worked for worked, _ in outcomes], [False] * 6)
        expected = ["Export, Save As"] * 3 + ["no cell of the band can have"] * 2 + ["-unscale"]
        for (_, said), told in zip(outcomes, expected):
            self.assertIn(told, said)
        self.assertFalse((self.folder / "out.tif").exists())

    def test_mask_and_scale_and_band_are_kept(self):
        whole = np.rint(hills()).astype(np.int16)
        mask = np.ones(whole.shape, bool)
        mask[:, :2] = False
        whole[:, :2] = 1
        self.raster("masked.tif", array=whole, mask=mask, scale=0.5, offset=2.0, bands=2)
        outcome, = self.outcomes(self.case("masked.tif", "out.tif", crs="EPSG:25832", parameters={"BAND": 2}))
        self.assertTrue(outcome[0], outcome)
        self.make("fill", "masked.tif", "expected.tif", "--band", "2")
        np.testing.assert_array_equal(read(self.folder / "out.tif"), read(self.folder / "expected.tif"))
        self.assertEqual(len(np.unique(read(self.folder / "out.tif")[:, :2])), 1)
        self.assertIn("--band 2", self.repeat("out.tif"))

    def test_an_eye_is_asked_for(self):
        self.raster("dem.tif", -9999.0)
        masts = str(make_points(self.folder / "masts.gpkg", [(*centre(10, 20), 3.0)], fields=["height"]))
        click = "{},{} [EPSG:32632]".format(*centre(12, 22))
        words = [{"POINTS": masts}, {"AT": click}, {"POINTS": masts, "AT": click, "EYE_FIELD": "height"},
                 {"POINTS": masts, "EYE_FIELD": "height", "EYE": 2}, {"POINTS": masts, "EYE": None},
                 {"POINTS": masts, "EYE_FIELD": "height"}, {"POINTS": masts, "EYE": 0},
                 {"POINTS": masts, "AT": click, "EYE_FIELD": "height", "EYE": 2}]
        outcomes = self.outcomes(*(self.case("dem.tif", f"{at}.tif", "view", it) for at, it in enumerate(words)))
        self.assertEqual([worked for worked, _ in outcomes], [False] * 5 + [True] * 3, outcomes)
        for worked, said in outcomes[:5]:
            self.assertIn("'Height of the eyes above the ground'", said)
        for name in ("5.tif", "6.tif"):
            self.repeat(name)

    def test_points_on_another_datum(self):
        """Where no shift is known QGIS takes degrees as they are: such points are refused."""
        self.raster("dem.tif", -9999.0)
        change = osr.CoordinateTransformation(*map(reference, (UTM, "EPSG:31468")))
        x, y = change.TransformPoint(*centre(10, 20))[:2]
        known = str(make_points(self.folder / "known.gpkg", [(x, y)], projection="EPSG:31468"))
        doubtful = str(make_points(self.folder / "doubtful.gpkg", [(9.0, 46.9)], projection="EPSG:4001"))
        outcomes = self.outcomes(
            self.case("dem.tif", "a.tif", "catchments", {"POINTS": known}),
            self.case("dem.tif", "b.tif", "catchments", {"POINTS": doubtful}),
            self.case("dem.tif", "c.tif", "catchments", {"AT": "9.0,46.9 [EPSG:4001]"}),
            self.case("dem.tif", "d.tif", parameters={"EXTENT": "9.0,9.01,46.9,46.91 [EPSG:4001]"}))
        self.assertEqual([worked for worked, _ in outcomes], [True, False, False, False], outcomes)
        for (_, said), name in zip(outcomes[1:], ("doubtful", "the click", "the extent")):
            self.assertIn(f"{name} cannot be projected to the raster: no shift", said)
        self.make("catchments", "dem.tif", "expected.tif", "--at", "{},{}".format(*centre(10, 20)))
        np.testing.assert_array_equal(read(self.folder / "a.tif"), read(self.folder / "expected.tif"))

    def test_points_without_projection(self):
        self.raster("dem.tif", -9999.0)
        (self.folder / "bare.csv").write_text("x,y\n{},{}\n".format(*centre(10, 20)))
        layer = f"file://{self.folder / 'bare.csv'}?delimiter=,&xField=x&yField=y"
        outcome, = self.outcomes(self.case("dem.tif", "a.tif", "catchments", points=[layer, "delimitedtext"]))
        self.assertTrue(outcome[0], outcome)
        self.make("catchments", "dem.tif", "expected.tif", "--at", "{},{}".format(*centre(10, 20)))
        np.testing.assert_array_equal(read(self.folder / "a.tif"), read(self.folder / "expected.tif"))

    def test_the_command_has_all_parameters(self):
        self.raster("dem.tif", -9999.0)
        places = [centre(10, 20), centre(12.25, 30), centre(20, 5)]
        gauges = str(make_points(self.folder / "gauges.gpkg", places))
        masts = [(*place, eye) for place, eye in zip(places, (3.5, 4, 0.25))]
        masts = str(make_points(self.folder / "masts.gpkg", masts, fields=["height"]))
        west, north = centre(0, 0)
        extent = f"{west + 40},{west + 1000.5},{north - 800},{north - 30} [{UTM}]"
        uncertain = self.folder / "uncertain.tif"
        cases = {
            "accumulate": {"UNCERTAIN": str(uncertain)}, "fill": {"POINTS": gauges, "DECIMALS": 1, "VOIDS": 2},
            "streams": {"THRESHOLD": 7, "EXTENT": extent},
            "catchments": {"POINTS": gauges, "SINKS": gauges, "SNAP": 2, "SNAPPED": str(self.folder / "moved.gpkg")},
            "view": {"POINTS": masts, "EYE_FIELD": "height", "TARGET": 1.25, "DECIMALS": 2, "RADIUS": 400.5}}
        outcomes = self.outcomes(*(self.case("dem.tif", f"{name}.tif", name, it) for name, it in cases.items()))
        self.assertEqual([worked for worked, _ in outcomes], [True] * len(cases), outcomes)
        before = read(uncertain)
        typed = {name: self.repeat(f"{name}.tif") for name in cases}
        for name, words in (("fill", "--decimals 1 --voids fill"), ("streams", "--threshold 7"),
                            ("catchments", "--snap 2 --snapped /"),
                            ("view", "--eye 3.5 --eye 4 --eye 0.25 --target 1.25 --radius 400.5")):
            self.assertIn(words, typed[name])
        np.testing.assert_array_equal(read(uncertain), before)
        self.assertIn(f"--uncertain {uncertain}", typed["accumulate"])
        self.assertIn("--bounds 500055,5199185,501015.5,5199955", typed["streams"])
        self.assertEqual(typed["view"].count("--at"), 3)

    def test_points_without_data_and_files_that_are_read(self):
        self.raster("dem.tif", -9999.0)
        gauges = make_points(self.folder / "gauges.gpkg", [centre(10, 20), centre(0, 0), (0, 0)])
        before = gauges.read_bytes()
        words = {"POINTS": str(gauges)}
        outcomes = self.outcomes(
            self.case("dem.tif", "a.tif", "catchments", words),
            self.case("dem.tif", "b.tif", "catchments", {**words, "SKIP": True}),
            self.case("dem.tif", "c.tif", "catchments", {**words, "SKIP": True, "SNAP": 1, "SNAPPED": str(gauges)}))
        self.assertEqual([worked for worked, _ in outcomes], [False, True, False], outcomes)
        self.assertIn("2 points have no place", outcomes[0][1])
        self.assertIn("'Leave out points that lie where there is no data' leaves them out", outcomes[0][1])
        self.assertEqual(outcomes[1][1].count("left out: "), 2)
        self.assertIn("--skip", self.repeat("b.tif"))
        self.assertIn("give the output a name of its own", outcomes[2][1])
        self.assertEqual(gauges.read_bytes(), before)

    def test_errors_in_the_words_of_the_dialogue(self):
        self.raster("dem.tif", -9999.0)
        outside = f"0,10,0,10 [{UTM}]"
        wide = np.ones((1, 5000), np.float32)
        self.raster("wide.tif", array=wide)
        self.raster("bare.tif", -9999.0, projection=None)
        masts = str(make_points(self.folder / "masts.gpkg", [centre(10, 20)]))
        cases = [self.case("dem.tif", "out.tif", parameters={"EXTENT": outside}), self.case("wide.tif", "out.tif"),
                 self.case("bare.tif", "out.tif"), self.case("dem.tif", "out.tif", "catchments"),
                 self.case("dem.tif", "out.tif", "view", {"POINTS": masts, "EYE": 2.125})]
        outcomes = self.outcomes(*cases)
        for (worked, said), told in zip(outcomes, ("'Extent to read' lies outside the raster",
                                                   "name one place by 'Read only what has the catchment of this place'",
                                                   "set it in the layer's properties",
                                                   "give a layer of points or a click",
                                                   "'Decimals of heights that are kept' 3 would do")):
            self.assertFalse(worked)
            self.assertIn(told, said)
            self.assertNotIn(" --", said)


if __name__ == "__main__":
    unittest.main()
