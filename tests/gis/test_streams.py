"""Streams that are full or closed, names that are not UTF-8, programs that write no map, a parent that is killed."""
import os
import pathlib
import signal
import subprocess
import sys
import time
import unittest

import numpy as np
from osgeo import gdal

from fixtures import GIS, PLACED, RELIEF, Case, at, by_hand, environment, hills, info, make_raster, read

COMMAND = [sys.executable, str(GIS / "relief-gis")]


class Program(Case):
    def setUp(self):
        super().setUp()
        make_raster(self.folder / "dem.tif", hills().astype(np.float32))

    def shell(self, words, program=RELIEF):
        """Runs a line of the shell in which $gis is the command; its status and what it wrote to standard error."""
        done = subprocess.run(["sh", "-c", words], cwd=self.folder, text=True, capture_output=True,
                              env=environment(program, gis=" ".join(COMMAND)))
        self.assertNotIn("Traceback", done.stderr)
        self.assertNotIn("Exception ignored", done.stderr)
        return done.returncode, done.stderr

    def stand_in(self, text):
        """A stand-in for `relief` that does what a shell text says of a map."""
        path = self.folder / "relief"
        path.write_text(f"#!/bin/sh\ncase $1 in --version) echo relief 9.9.9;; --help) echo help;; *) {text};; esac\n")
        path.chmod(0o755)
        return str(path)


class Streams(Program):
    """Where nobody can read what is written."""

    def test_full(self):
        full = (4, "relief-gis: a line could not be written: No space left on device\n")
        for words in ("--help", "--version", "view --help"):
            self.assertEqual(self.shell(f"$gis {words} > /dev/full"), full)
        # A note that nobody could read may be the one that matters: no map.
        view = "$gis view dem.tif out.tif --at 500600,5199700 --eye 3 --radius 300"
        self.assertEqual(self.shell(f"{view} 2> /dev/full"), (4, ""))
        self.assertFalse((self.folder / "out.tif").exists())
        self.assertEqual(self.shell("$gis fill dem.tif out.png 2> /dev/full"), (1, ""))
        self.assertEqual(self.shell("$gis wrong 2> /dev/full"), (1, ""))
        self.assertEqual(self.shell("$gis fill dem.tif out.tif --progress 2> /dev/full")[0], 4)

    def test_closed(self):
        self.assertEqual(self.shell("$gis --help >&-"), (0, ""))
        for closed in ("2>&-", ">&- 2>&-", "<&- >&- 2>&-"):
            self.assertEqual(self.shell(f"$gis fill dem.tif out.tif --progress {closed}"), (0, ""))
            (self.folder / "out.tif").unlink()
        self.assertEqual(self.shell("$gis fill dem.tif out.png 2>&-"), (1, ""))

    def test_a_reader_that_leaves(self):
        self.assertEqual(self.shell("{ sleep 0.2; $gis --help; echo $? >&2; } | true"), (0, "4\n"))


class Names(Program):
    """Names of files."""

    def test_not_utf_8(self):
        name = os.path.join(os.fsencode(self.folder), b"d\xe4m.tif")
        os.rename(self.folder / "dem.tif", name)
        for words in ([b"d\xe4m.tif", b"out.tif"], [b"dem.tif", b"\xe4.tif"]):
            done = subprocess.run([*COMMAND, b"fill", *words], cwd=self.folder, capture_output=True, env=environment())
            self.assertEqual(done.returncode, 1)
            self.assertRegex(done.stderr, rb"\Arelief-gis: '.*\\udce4.*' is not in UTF-8: rename the file, or the f")
        self.assertEqual(os.listdir(os.fsencode(self.folder)), [b"d\xe4m.tif"])

    def test_a_folder_that_is_not(self):
        folder = os.path.join(os.fsencode(self.folder), b"h\xf6hen")
        os.mkdir(folder)
        os.rename(self.folder / "dem.tif", os.path.join(folder, b"dem.tif"))
        words = ["catchments", "dem.tif", "out.tif", *at(10, 20), "--snap", "1", "--snapped", "moved.gpkg"]
        done = subprocess.run([*COMMAND, *words], cwd=folder, capture_output=True, env=environment())
        self.assertEqual((done.returncode, sorted(os.listdir(folder))),
                         (0, [b"dem.tif", b"moved.gpkg", b"out.qml", b"out.tif"]), done.stderr)

    def test_umlauts_and_spaces(self):
        os.rename(self.folder / "dem.tif", self.folder / "Höhen 1.tif")
        self.make("fill", "Höhen 1.tif", "gefüllt 1.tif")
        self.assertTrue((self.folder / "gefüllt 1.tif").exists())


class Maps(Program):
    """Programs in the place of `relief` that write no map."""

    def test_no_map(self):
        for text in ("true", "echo nothing", "printf '\\377\\376\\n'", "cat /bin/true",
                     "printf 'ncols a\\nnrows 3\\n'"):
            with self.subTest(text):
                line = self.refuse(2, "relief wrote no map: set RELIEF to the path of the relief that makes maps",
                                   "fill", "dem.tif", "out.tif", program=self.stand_in(text))
                self.assertEqual(line.count("\n"), 1)

    def test_a_map_of_other_cells(self):
        head = "'ncols 2\\nnrows 1\\nxllcorner 0\\nyllcorner 0\\ncellsize 1\\nNODATA_value 0\\n"
        for cells in ("1 2", "1", "a b", "\\377 \\376"):
            with self.subTest(cells):
                line = self.refuse(2, "relief wrote", "fill", "dem.tif", "out.tif",
                                   program=self.stand_in(f"cat > /dev/null; printf {head}{cells}\\n'"))
                self.assertEqual(line.count("\n"), 1)

    def test_words_that_are_not_utf_8(self):
        self.refuse(2, "relief: ", "fill", "dem.tif", "out.tif",
                    program=self.stand_in("cat > /dev/null; printf 'relief: \\377 odd\\n' >&2; exit 2"))

    def test_the_program_ends_with_its_parent(self):
        program = self.stand_in(f"echo $$ > {self.folder}/number; exec sleep 60")
        with subprocess.Popen([*COMMAND, "fill", "dem.tif", "out.tif"], cwd=self.folder, env=environment(program),
                              stderr=subprocess.DEVNULL) as process:
            number = self.wait_for(self.folder / "number")
            self.assertTrue(pathlib.Path(f"/proc/{number}").exists())
            process.send_signal(signal.SIGKILL)
            process.wait(30)
        self.assertTrue(self.ends(number))
        self.assertFalse((self.folder / "out.tif").exists())

    def wait_for(self, path):
        """The number in a file that another process writes."""
        for _ in range(300):
            if path.exists() and path.read_text().endswith("\n"):
                return int(path.read_text())
            time.sleep(0.1)
        self.fail("the program did not start")

    def ends(self, number):
        """Whether a process ends soon; one that nobody waits for any more is a zombie until then."""
        for _ in range(50):
            try:
                if pathlib.Path(f"/proc/{number}/stat").read_text().rpartition(")")[2].split()[0] == "Z":
                    return True
            except FileNotFoundError:
                return True
            time.sleep(0.1)
        return False


class Bytes(Program):
    """Bytes with a sign, as GDAL before 3.7 keeps them."""

    def test_heights_below_zero(self):
        random = np.random.default_rng(3)
        heights = random.integers(-100, 100, (12, 15)).astype(np.int8)
        heights[4:6, 5:9] = -128
        heights[5, :5] = -128
        make_raster(self.folder / "wide.tif", heights.astype(np.int16), -128)
        driver = gdal.GetDriverByName("GTiff")
        dataset = driver.Create(str(self.folder / "dem.tif"), 15, 12, 1, gdal.GDT_Byte, ["PIXELTYPE=SIGNEDBYTE"])
        dataset.SetGeoTransform(PLACED)
        dataset.SetProjection(gdal.Open(str(self.folder / "wide.tif")).GetProjection())
        dataset.GetRasterBand(1).SetNoDataValue(-128)
        dataset.GetRasterBand(1).WriteArray(heights.view(np.uint8))
        del dataset
        self.make("fill", "dem.tif", "out.tif", "--voids", "drain")
        expected = by_hand(["fill"], self.folder / "wide.tif").astype(int)
        np.testing.assert_array_equal(read(self.folder / "out.tif"), expected)
        band = info(self.folder / "out.tif")["bands"][0]
        self.assertEqual((band["type"], band["noDataValue"]), ("Int16", -128))


class Threshold(Program):
    def test_below_zero_and_no_number(self):
        for word in ("-5", "-1", "1.5", "x", "1e3"):
            self.refuse(1, f"{word} is no number of cells, from 0", "streams", "dem.tif", "out.tif", "--threshold",
                        word)
        self.make("streams", "dem.tif", "out.tif", "--threshold", "0")
        counts = by_hand(["accumulate"], self.folder / "dem.tif", 2).astype(int)
        np.testing.assert_array_equal(read(self.folder / "out.tif"), counts > 0)


if __name__ == "__main__":
    unittest.main()
