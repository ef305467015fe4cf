"""Lines of sight: against the judge, against maps of `view`, and by hand."""
import contextlib
import csv
import io
import os
import random
import re
import subprocess
import sys
import unittest
from decimal import Decimal
from fractions import Fraction

import numpy as np

import judge
from fixtures import GIS, RELIEF, Case, centre, environment, hills, make_raster, read
import relief_gis
from relief_gis.errors import InputError, UsageError
from relief_gis.program import Program

NODATA = -9999
# Random pairs of cells that are compared with maps of `view`.
PAIRS = 10_000


def draw(chance, factor=1):
    """Heights with cells without data, and the judge's land of them."""
    rows, cols = (1 if chance.randrange(9) == 0 else chance.randint(2, 40) for _ in range(2))
    heights = np.array([[chance.randint(0, 12) if chance.randrange(12) else NODATA for _ in range(cols)]
                        for _ in range(rows)])
    heights[0, 0] = 3
    land = {(int(row), int(col)): int(heights[row, col]) * factor for row, col in np.argwhere(heights != NODATA)}
    return np.where(heights == NODATA, NODATA, heights * factor), land


class Pairs(unittest.TestCase):
    """Many pairs of cells."""

    def test_as_view_has_them(self):
        """Each pair is seen where the program's map of the same observer has its target."""
        chance, program, tried = random.Random(3), Program.find(RELIEF), 0
        while tried < PAIRS:
            heights, land = draw(chance)
            cells = sorted(land)
            for start in chance.sample(cells, min(4, len(cells))):
                eye, target = chance.randint(0, 9), chance.randint(0, 9)
                seen = relief_gis.view(heights, [(*start, eye)], NODATA, target=target, program=program)
                for end in chance.sample(cells, min(60, len(cells))):
                    found = relief_gis.profile(heights, start, end, eye, NODATA, target=target)
                    self.assertEqual(found.is_seen, bool(seen[end]), (heights.tolist(), start, end, eye, target))
                    tried += 1

    def test_as_the_judge_has_them(self):
        """Least heights are seen, and heights a unit lower are not; also where products pass 64 bits."""
        chance = random.Random(4)
        for factor in (1, 10**13, 8 * 10**13):
            for _ in range(40):
                heights, land = draw(chance, factor)
                for _ in range(20):
                    start, end = chance.choice(sorted(land)), chance.choice(sorted(land))
                    eye, target = chance.randint(0, 9), chance.randint(0, 9)
                    found = relief_gis.profile(heights, start, end, eye, NODATA, target=target)

                    def is_seen(low, high):
                        return judge.is_seen(land, end, start, low, high, None)

                    self.assertEqual(found.is_seen, is_seen(eye, target))
                    self.assertEqual(found.is_seen, found.worst is None or found.worst.excess <= 0)
                    for least, sees in ((found.least_eye, lambda height: is_seen(height, target)),
                                        (found.least_target, lambda height: is_seen(eye, height))):
                        self.assertTrue(sees(int(least)))
                        self.assertFalse(least > 0 and sees(int(least) - 1), (start, end))


class Python(unittest.TestCase):
    """The function by hand."""

    def test_a_ridge(self):
        # The line from 10 + 2 to 0 passes the ridge of 9 at 3 of 4 columns at a height of 3; the eye would have to
        # stand at 36, and the target at (4 * 9 - 12) / 3 = 8.
        found = relief_gis.profile([[10, 0, 0, 9, 0]], (0, 0), (0, 4), 2)
        self.assertEqual((found.is_seen, found.least_eye, found.least_target), (False, 26, 8))
        self.assertEqual((found.worst.along, found.worst.excess, found.worst.cell), (Fraction(3, 4), 6, (0, 3)))
        self.assertEqual(found.along, [Fraction(part, 4) for part in range(5)])
        self.assertEqual((found.ground, found.line), ([10, 0, 0, 9, 0], [12, 9, 6, 3, 0]))

    def test_between_centres(self):
        # A row down over two columns: at the column between, the ground is the mean of 1.5 and 4.
        found = relief_gis.profile(np.array([[0.5, 1.5, 9], [9, 4, 1]]), (0, 0), (1, 2), 1.25, scale=2, target="0.5")
        self.assertEqual((found.along, found.ground), ([0, Fraction(1, 2), 1], [0.5, 2.75, 1]))
        self.assertEqual(found.line, [Fraction(7, 4), Fraction(13, 8), Fraction(3, 2)])
        self.assertEqual((found.least_eye, found.least_target), (Decimal("3.50"), Decimal("2.75")))

    def test_no_data(self):
        found = relief_gis.profile([[0, -9, 0, 5, 0]], (0, 0), (0, 2), 1, nodata=-9)
        self.assertEqual((found.is_seen, found.worst, found.ground), (True, None, [0, None, 0]))

    def test_neighbours_and_one_cell(self):
        self.assertEqual(relief_gis.profile([[0, 9]], (0, 0), (0, 1), 0).along, [0, 1])
        self.assertTrue(relief_gis.profile([[0, 9]], (0, 0), (0, 0), 0).is_seen)

    def test_refused(self):
        for start, end, eye, error, told in (
                ((0, 2), (0, 0), 1, InputError, r"start=\(0, 2\) lies outside the grid"),
                ((0, 0), (0, 1), 1, InputError, r"end=\(0, 1\) lies where there is no data"),
                ((0, 0), (0, 0), 1.5, UsageError, "eye 1.5 is no whole number of units"),
                ((0, 0), (0,), 1, InputError, r"end\[0\]=\(0,\) is not \(row, column\)")):
            with self.assertRaisesRegex(error, told):
                relief_gis.profile([[0, -9]], start, end, eye, nodata=-9)


class Command(Case):
    """The command."""

    def setUp(self):
        super().setUp()
        self.heights = hills(30, 40)
        make_raster(self.folder / "dem.tif", self.heights.astype(np.float32), -9999.0)
        self.ends = ["--from", "{},{}".format(*centre(4, 5)), "--to", "{},{}".format(*centre(25, 33))]

    def tell(self, *words, status=0):
        """Runs the command by its own name; what it tells, and its lines."""
        done = subprocess.run([sys.executable, GIS / "relief-gis", "profile", *map(str, words)], text=True,
                              cwd=self.folder, env=environment(), capture_output=True)
        self.assertEqual(done.returncode, status, done.stderr)
        return done.stdout, done.stderr

    def test_answer(self):
        out, lines = self.tell("dem.tif", *self.ends, "--eye", "2", "--target", "1.5", "--out", "p.csv")
        found = relief_gis.profile(self.heights, (4, 5), (25, 33), 2, target=1.5)
        self.assertEqual(lines, "")
        self.assertIn("from 500165,5199865", out)
        self.assertIn("to 501005,5199235", out)
        # Of 21 rows and 28 columns of 30 m, which are 3 and 4 of 210.
        self.assertIn(": 1050.000 long\n", out)
        self.assertIn("seen: " if found.is_seen else "hidden: ", out)
        self.assertIn(f"least eye: {found.least_eye}, to see a target of 1.5\n", out)
        self.assertIn(f"least target: {found.least_target}, to be seen from an eye of 2\n", out)
        with open(self.folder / "p.csv", newline="") as file:
            rows = list(csv.DictReader(file))
        self.assertEqual(len(rows), len(found.along))
        for row, along, ground, line in zip(rows, found.along, found.ground, found.line):
            for name, number, most in (("distance", along * 1050, 0.0005), ("ground", ground, 0.00005),
                                       ("line", line, 0.00005), ("x", 500165 + along * 840, 0.0005),
                                       ("y", 5199865 - along * 630, 0.0005)):
                self.assertAlmostEqual(float(row[name]), float(number), delta=1.01 * most, msg=str((name, along)))

    def test_a_least_eye_clears(self):
        out, _ = self.tell("dem.tif", *self.ends, "--eye", "0")
        least = Decimal(out.partition("least eye: ")[2].partition(",")[0])
        self.assertGreater(least, 0)
        self.assertIn("\nseen: ", self.tell("dem.tif", *self.ends, "--eye", least)[0])
        self.assertIn("\nhidden: ", self.tell("dem.tif", *self.ends, "--eye", least - Decimal("0.01"))[0])

    def test_curvature_as_in_view(self):
        """Where the earth curves, a pair is seen where the map of the observer has the target."""
        seen = 0
        placed = (500000.0, 3000.0, 0.0, 5200000.0, 0.0, -3000.0)
        make_raster(self.folder / "wide.tif", self.heights.astype(np.float32), placed=placed)
        words = ["--eye", "30", "--target", "25", "--curvature", "--refraction", "0.2"]
        point = "{},{}".format(*centre(4, 5, placed))
        self.make("view", "wide.tif", "out.tif", "--at", point, *words)
        found, chance = read(self.folder / "out.tif"), random.Random(9)
        for _ in range(40):
            cell = chance.randrange(30), chance.randrange(40)
            if cell == (4, 5):
                continue
            out = self.run_profile("wide.tif", "--from", point, "--to", "{},{}".format(*centre(*cell, placed)), *words)
            self.assertEqual("\nseen: " in out, bool(found[cell]), cell)
            # The ground as it was read, and how much lower it lies: by hand, with four decimals.
            drop = 0.8 * 3000**2 * ((cell[0] - 4)**2 + (cell[1] - 5)**2) / (2 * 6378137)
            told = re.search(r", ground (\S+), by the curvature (\S+) lower: ", out)
            self.assertEqual(float(told[1]), round(float(self.heights[cell]), 2))
            self.assertAlmostEqual(float(told[2]), drop, delta=0.0001)
            seen += found[cell]
        self.assertTrue(0 < seen < 39)

    def run_profile(self, *words):
        """What the command tells, run within this process."""
        out = io.StringIO()
        with contextlib.redirect_stdout(out):
            self.make("profile", *words)
        return out.getvalue()

    def test_picture(self):
        self.tell("dem.tif", *self.ends, "--eye", "2", "--picture", "p.png", "--out", "p.csv")
        self.assertTrue((self.folder / "p.png").read_bytes().startswith(b"\x89PNG"))
        self.assertEqual(sorted(os.listdir(self.folder)), ["dem.tif", "p.csv", "p.png"])

    def test_no_matplotlib(self):
        (self.folder / "matplotlib.py").write_text("raise ImportError\n")
        done = subprocess.run([sys.executable, GIS / "relief-gis", "profile", "dem.tif", *self.ends, "--eye", "2",
                               "--picture", "p.png"], cwd=self.folder, capture_output=True, text=True,
                              env=environment(PYTHONPATH=f"{self.folder}:{GIS}"))
        self.assertEqual((done.returncode, done.stderr), (0, "relief-gis: p.png was not drawn: that takes matplotlib "
                                                             "(package python3-matplotlib)\n"))
        self.assertFalse((self.folder / "p.png").exists())
        self.assertIn("least eye", done.stdout)

    def test_refused(self):
        eye = ["--eye", "3"]
        for status, told, words in (
                (2, "--to (400000, 5200000) lies outside the raster", ["--from", "500165,5199865", "--to",
                                                                      "400000,5200000", *eye]),
                (2, "lie in one cell: name two", ["--from", "500165,5199865", "--to", "500160,5199860", *eye]),
                (1, "3.123 is no whole number of units of 0.01", [*self.ends, "--eye", "3.123"]),
                (1, "p.txt would be a table: give it a name that ends with .csv", [*self.ends, *eye, "--out", "p.txt"]),
                (1, "dem.tif would be a picture", [*self.ends, *eye, "--picture", "dem.tif"]),
                (4, "p.csv cannot be written", [*self.ends, *eye, "--out", "none/p.csv"])):
            _, lines = self.tell("dem.tif", *words, status=status)
            self.assertIn(told, lines)
        self.assertEqual(os.listdir(self.folder), ["dem.tif"])

    def test_cells_without_data(self):
        holed = self.heights.astype(np.float32)
        holed[10:20, 8:30] = -9999
        make_raster(self.folder / "holed.tif", holed, -9999.0)
        out, _ = self.tell("holed.tif", *self.ends, "--eye", "3")
        found = relief_gis.profile(holed, (4, 5), (25, 33), 3, nodata=-9999)
        self.assertIn(f"no data at {found.ground.count(None)} places of the line, which block no view\n", out)
        self.assertGreater(found.ground.count(None), 5)


if __name__ == "__main__":
    unittest.main()
