"""Several maps by one run: the very files and lines of the single commands, refusals, and nothing written by half."""
import os
import unittest
import unittest.mock

import numpy as np

from fixtures import RELIEF, Case, centre, hills, make_points, make_raster, read
import relief_gis
from relief_gis import geotiff


def at(row, col, word="--at"):
    """The words of a place, as a map's metadata tell it."""
    return word, "{:.0f},{:.0f}".format(*centre(row, col))



MAPS = ("fill", "flow", "accumulate", "basins", "catchments", "depth", "area", "streams")
# A pit, and two gauges.
SINK, GAUGES = (15, 17), [*at(9, 20), *at(18, 33)]
SINKS = at(*SINK, word="--sink-at")
# What a map has beside its sinks, in the order in which a map's metadata tell it.
OWN = {"streams": ["--threshold", "20"], "basins": ["--least", "7"]}
# Notes its runs, and makes them.
COUNTING = """#!/bin/sh
case $1 in --*) ;; *) echo "$@" >> {log};; esac
exec {program} "$@"
"""
# Notes nothing of `maps`, as a version without it.
OLD = """#!/bin/sh
case $1 in --help) {program} "$@" | grep -v '^  maps ';; *) exec {program} "$@";; esac
"""


class Together(Case):
    def setUp(self):
        super().setUp()
        heights = hills().astype(np.float32)
        heights[:6, :9] = -9999
        make_raster(self.folder / "dem.tif", heights, -9999.0)
        (self.folder / "alone").mkdir()

    def single(self, name, *words):
        """Makes one map by its own command and moves it; the lines."""
        places = [*GAUGES, *SINKS] if name == "catchments" else at(*SINK)
        lines = self.make(name, "dem.tif", f"{name}.tif", *words, *OWN.get(name, []), *places)
        for ending in (".tif", ".qml"):
            if (self.folder / f"{name}{ending}").exists():
                os.rename(self.folder / f"{name}{ending}", self.folder / "alone" / f"{name}{ending}")
        return lines

    def together(self, *names):
        """The words of some maps."""
        words = ["maps", "dem.tif"]
        for name in names:
            words += [f"--{name}", f"{name}.tif", *OWN.get(name, [])]
        return [*words, *SINKS, *(GAUGES if "catchments" in names else [])]

    def files(self, folder):
        """The bytes of the maps and styles of a folder."""
        return {path.name: path.read_bytes() for path in sorted(folder.iterdir())
                if path.suffix in (".tif", ".qml") and path.name != "dem.tif"}

    def script(self, text, **names):
        """A program of a text."""
        path = self.folder / "program"
        path.write_text(text.format(program=RELIEF, **names))
        path.chmod(0o755)
        return str(path)

    def test_every_map_is_that_of_its_own_command(self):
        for common in ([], ["--decimals", "1"], ["--window", "3,2,34,25"]):
            lines = [self.single(name, *common).splitlines() for name in MAPS]
            found = self.make(*self.together(*MAPS), *common).splitlines()
            self.assertEqual(self.files(self.folder), self.files(self.folder / "alone"), common)
            # What is told of all maps is told once.
            self.assertEqual(set(found), {line for told in lines for line in told})
            self.assertEqual(len(found), len(set(found)))
            for name in MAPS:
                (self.folder / f"{name}.tif").unlink()

    def test_one_run(self):
        log = self.folder / "log"
        program = self.script(COUNTING, log=log)
        self.make(*self.together(*MAPS), "--uncertain", "uncertain.tif", "--workers", "2", program=program)
        run, = log.read_text().splitlines()
        self.assertRegex(run, "^maps --workers 2 --sink 15,17 --gauge 9,20 --gauge 18,33 fill flow accumulate basins "
                              "catchments$")
        # Of maps that come from one map of the program it makes that one.
        for names, told in ((("fill", "depth"), "fill"), (("area", "streams"), "accumulate")):
            log.unlink()
            self.make(*self.together(*names), program=program)
            self.assertTrue(log.read_text().startswith(f"{told} "))

    def test_directions_are_made_where_they_are_taken(self):
        log = self.folder / "log"
        for name, more in (("accumulate", []), ("catchments", ["--polygons", "areas.gpkg"])):
            self.make(*self.together(name, "fill"), "--uncertain", "uncertain.tif", *more,
                      program=self.script(COUNTING, log=log))
            run, = log.read_text().splitlines()
            self.assertTrue(run.endswith(" flow"), run)
            log.unlink()
            self.assertFalse((self.folder / "flow.tif").exists())
            found = read(self.folder / "uncertain.tif")
            heights = read(self.folder / "dem.tif")
            expected = relief_gis.uncertain(heights, -9999, sinks=[SINK],
                                            program=relief_gis.Program.find(RELIEF))
            np.testing.assert_array_equal(found, expected)

    def test_moved_gauges_and_a_part_round_a_place(self):
        place = "{},{}".format(*centre(9, 20))
        words = ["--snap", "2", "--around", place]
        self.make("catchments", "dem.tif", "alone/catchments.tif", *GAUGES, *words, "--snapped", "one.gpkg")
        self.make("maps", "dem.tif", "--fill", "fill.tif", "--catchments", "catchments.tif", *GAUGES, *words,
                  "--snapped", "other.gpkg")
        np.testing.assert_array_equal(read(self.folder / "catchments.tif"), read(self.folder / "alone/catchments.tif"))
        self.assertTrue((self.folder / "other.gpkg").exists())

    def test_layers(self):
        make_points(self.folder / "gauges.gpkg", [centre(9, 20), centre(18, 33)])
        make_points(self.folder / "sinks.gpkg", [centre(*SINK)])
        self.make(*self.together(*MAPS))
        expected = {name: read(self.folder / f"{name}.tif") for name in MAPS}
        words = self.together(*(name for name in MAPS if name != "catchments"))[:-2]
        self.make(*words, "--catchments", "catchments.tif", "--points", "gauges.gpkg", "--sinks", "sinks.gpkg")
        for name in MAPS:
            np.testing.assert_array_equal(read(self.folder / f"{name}.tif"), expected[name])
        self.refuse(1, "sinks.gpkg is a layer of points that is read", "maps", "dem.tif", "--catchments", "c.tif",
                    *GAUGES, "--sinks", "sinks.gpkg", "--snap", "1", "--snapped", "sinks.gpkg")

    def test_refusals(self):
        make_raster(self.folder / "dem2.tif", np.ones((3, 3), np.float32))
        flow = ["--flow", "flow.tif"]
        for status, text, words in (
                (1, "maps needs a map: give one or several of --fill OUT", []),
                (1, "--flow is given twice", flow + flow),
                (1, "flow.tif would be written twice", [*flow, "--fill", "flow.tif"]),
                (1, "dem.tif is the raster that is read", [*flow, "--fill", "dem.tif"]),
                (1, "f.png would be a GeoTIFF", [*flow, "--fill", "f.png"]),
                (1, "streams needs a threshold", [*flow, "--streams", "s.tif"]),
                (1, "--threshold is an option of streams: give --streams OUT too", [*flow, "--threshold", "3"]),
                (1, "--least is an option of basins", [*flow, "--least", "3"]),
                (1, "--snap is an option of catchments", [*flow, "--snap", "3"]),
                (1, "--at and --points are gauges of catchments", [*flow, *at(3, 3)]),
                (1, "catchments needs gauges", [*flow, "--catchments", "c.tif"]),
                (1, "fill has no uncertain cells", ["--fill", "f.tif", "--uncertain", "u.tif"]),
                (2, "point 1 (1, 1) lies outside the raster", [*flow, "--catchments", "c.tif", "--at", "1,1"]),
                (2, "point 1 (1, 1) lies outside the raster", [*flow, "--fill", "f.tif", "--sink-at", "1,1"]),
                (3, "workers", [*flow, "--fill", "f.tif", "--workers", "65"])):
            with self.subTest(words=words):
                if status == 3:
                    status, text = 1, "65"
                self.refuse(status, text, "maps", "dem.tif", *words)

    def test_a_version_without_maps(self):
        program = self.script(OLD)
        self.refuse(5, "has no maps: install a newer relief", *self.together("fill", "flow"), program=program)
        self.make(*self.together("fill", "depth"), program=program)

    def test_all_are_written_or_none(self):
        before = geotiff.GeoTiff.save

        def save(file, path):
            if path.endswith("accumulate.tif"):
                raise OSError(28, "No space left on device")
            before(file, path)

        with unittest.mock.patch.object(geotiff.GeoTiff, "save", save):
            self.refuse(4, "accumulate.tif could not be written: No space left on device",
                        *self.together("fill", "accumulate", "basins"))

    def test_what_is_cut_off_or_too_much(self):
        # The last map is cut off, one is missing, or one is too many.
        for filter_, text in (("head -c -9", "cut off"), ("sed '37,$ d'", "no map"),
                              ("sed '$ { p; s/.*/ncols 3/ }'", "relief wrote more than 2 maps"),
                              ("sed '37 s/.*/x 1/'", "no")):
            program = self.script("#!/bin/sh\ncase $1 in --*) exec {program} \"$@\";; esac\n"
                                  "{program} \"$@\" | {filter_}\n", filter_=filter_)
            with self.subTest(filter=filter_):
                self.refuse(2, text, *self.together("fill", "flow"), program=program)


class Arrays(Case):
    """The named tuple has what the functions of single maps return."""

    def setUp(self):
        super().setUp()
        self.program = relief_gis.Program.find(RELIEF)
        self.heights = hills()
        self.heights[:6, :9] = np.nan

    def expected(self, name, heights, **more):
        """One map by its own function."""
        own = {"area": {"cell": 30}, "streams": {"threshold": 20}, "basins": {"least": 5},
               "catchments": {"gauges": [(9, 20), (18, 33)]}}.get(name, {})
        return getattr(relief_gis, name)(heights, program=self.program, **own, **more)

    def test_every_map(self):
        masked = np.ma.masked_invalid(self.heights)
        whole = np.rint(np.where(np.isnan(self.heights), -1, self.heights)).astype(np.int16)
        for heights, more in ((self.heights, {"sinks": [SINK]}), (masked, {"scale": 1}), (whole, {"nodata": -1})):
            found = relief_gis.maps(heights, MAPS, gauges=[(9, 20), (18, 33)], cell=30, threshold=20, least=5,
                                    program=self.program, workers=2, **more)
            for name in MAPS:
                ours, theirs = getattr(found, name), self.expected(name, heights, **more)
                self.assertEqual((type(ours), ours.dtype), (type(theirs), theirs.dtype), name)
                np.testing.assert_array_equal(np.ma.getdata(ours), np.ma.getdata(theirs), name)
                np.testing.assert_array_equal(np.ma.getmaskarray(ours), np.ma.getmaskarray(theirs), name)

    def test_what_was_not_asked_for(self):
        found = relief_gis.maps(self.heights, ["flow", "depth"], program=self.program)
        self.assertEqual([name for name in MAPS if getattr(found, name) is not None], ["flow", "depth"])
        found = relief_gis.maps(self.heights, ["catchments"], gauges=[(9, 20)],
                                program=self.program)
        np.testing.assert_array_equal(found.catchments, relief_gis.catchments(self.heights, [(9, 20)],
                                      program=self.program))

    def test_refusals(self):
        for wanted, more, told in (
                ([], {}, "wanted= is empty"), (["view"], {}, "wanted[0]='view' is none of fill"),
                (["fill", "fill"], {}, "wanted names fill twice"), (["area"], {}, "area takes cell="),
                (["streams"], {}, "streams takes threshold="), (["catchments"], {}, "catchments takes gauges="),
                (["fill"], {"gauges": [(9, 20)]}, "gauges= are those of catchments")):
            with self.assertRaises(relief_gis.UsageError, msg=told) as caught:
                relief_gis.maps(self.heights, wanted, program=self.program, **more)
            self.assertIn(told, str(caught.exception))
        for more, name in (({"sinks": [SINK, (99, 0)]}, "sinks[1]"), ({"gauges": [(1, 20), (99, 0)]}, "gauges[1]")):
            with self.assertRaises(relief_gis.ReliefError) as caught:
                relief_gis.maps(self.heights, ["flow", "catchments"], program=self.program,
                                **{"gauges": [(9, 20)], **more})
            self.assertIn(name, str(caught.exception))


if __name__ == "__main__":
    unittest.main()
