"""Views, rises and profiles on the curved earth, against the judge, by hand, and against gdal_viewshed."""
import csv
import shutil
import subprocess
import unittest
from decimal import Decimal
from fractions import Fraction

import numpy as np

import judge
from fixtures import Case, at, hills, make_raster, read
from relief_gis.curvature import drop_of_a_cell, lowered
from relief_gis.heights import heights_of
from relief_gis.raster import open_raster
from test_views import land_of

SEMI_MAJOR = 6378137
# Of the curvature, where refraction takes away 0.143 of it.
SHARE = "0.857"
DISTANCES = (5000, 10000, 20000)


def seen_over_a_plane(eye, share, cell=1000):
    """How many cells in a row see an eye of so many metres in the first one, over ground that curves.

    Cell n hides behind the one before it where n (n - 1) is past the square of the distance of the horizon.
    """
    square = 2 * SEMI_MAJOR * Fraction(eye) / Fraction(share) / cell**2
    return max(n for n in range(1, 999) if n * (n - 1) <= square) + 1


def placed_by(cell):
    """Where a raster of cells with so long sides lies."""
    return 500000.0, float(cell), 0.0, 5200000.0, 0.0, -float(cell)


def lowered_land(land, cell, share, side=30, factor=1, unit=1):
    """A land with the heights that the formula gives, by exact numbers, in units of which so many make one.

    Args:
        unit: how many units make a metre.
    """
    return {place: height * factor - round(Fraction(share) * factor * unit * side**2 * (
        (place[0] - cell[0])**2 + (place[1] - cell[1])**2) / (2 * SEMI_MAJOR)) for place, height in land.items()}


class Curvature(Case):
    """Ground that lies lower far from a mast."""

    def test_against_the_judge(self):
        # Centimetres, by which the drop shows over 40 cells of 30 m: at most 0.11 m.
        array = np.random.default_rng(8).integers(0, 30, (12, 45)).astype(np.int32)
        make_raster(self.folder / "dem.tif", array, scale=0.01)
        masts = [(3, 2), (8, 40)]
        for words, share in (([], "0.87"), (["--refraction", "0"], "1"), (["--refraction", "0.25"], "0.75")):
            self.make("view", "dem.tif", "out.tif", *[word for mast in masts for word in at(*mast)], "--eye", "0.2",
                      "--curvature", *words)
            found = read(self.folder / "out.tif")
            wanted = {cell: 0 for cell in land_of(array)}
            for mast in masts:
                # An eye of 20 cm has 200,000 units of 0.000001.
                land = lowered_land(land_of(array), mast, share, 30, 10**4, 100)
                for cell, seen in judge.view(land, [(mast, 20 * 10**4, 0, None)]).items():
                    wanted[cell] += seen
            self.assertEqual({cell: int(found[cell]) for cell in wanted}, wanted, share)
        flat = judge.view(land_of(array), [(mast, 20, 0, None) for mast in masts])
        self.assertNotEqual(flat, wanted)

    def test_far_against_the_judge(self):
        """What lies 5, 10 and 20 km away, seen by an eye of 100.5 m and one of 20 m, with a target."""
        array = np.round(hills(41, 41) * 2 - 500).astype(np.int32)
        make_raster(self.folder / "dem.tif", array, placed=placed_by(1000))
        for eye, decimals in (("100.5", 3), ("20", 4)):
            factor = 10**decimals
            land = lowered_land(land_of(array), (20, 20), SHARE, 1000, factor)
            for radius in (5, 10, 20):
                self.make("view", "dem.tif", "out.tif", *self.middle(1000, 41), "--eye", eye, "--target", "1.5",
                          "--decimals", "1", "--curvature", "--refraction", "0.143", "--radius", f"{radius}km")
                wanted = judge.view(land, [((20, 20), int(Fraction(eye) * factor), 3 * factor // 2, radius)])
                found = read(self.folder / "out.tif")
                self.assertEqual({cell: int(found[cell]) for cell in wanted}, wanted)
                self.assertTrue(0 < sum(wanted.values()) < len(wanted))

    def middle(self, cell, side):
        """The words of a mast in the middle of a raster."""
        return "--at", f"{500000 + cell * side / 2},{5200000 - cell * side / 2}"

    def test_rise_against_the_judge(self):
        array = np.round(hills(21, 21) * 2 - 500).astype(np.int32)
        make_raster(self.folder / "dem.tif", array, placed=placed_by(1000))
        self.make("rise", "dem.tif", "out.tif", *self.middle(1000, 21), "--eye", "20", "--curvature")
        land = lowered_land(land_of(array), (10, 10), "0.87", 1000, 100)
        wanted = judge.rise(land, [((10, 10), 2000, None)])
        found = read(self.folder / "out.tif")
        self.assertEqual({cell: int(found[cell]) for cell in wanted},
                         {cell: -(-units // 100) for cell, units in wanted.items()})
        self.assertGreater(max(wanted.values()), 100)

    def test_a_plane_ends_at_the_horizon(self):
        """From an eye over a plane the ground is seen as far as the ray grazes it, by any decimals of heights."""
        for cell, cols in ((1000, 40), (100, 260)):
            make_raster(self.folder / "dem.tif", np.zeros((1, cols), np.int16), placed=placed_by(cell))
            for words, share in (([], "0.87"), (["--refraction", "0"], "1")):
                for eye in (3, 9, 30):
                    self.make("view", "dem.tif", "out.tif", "--at", f"{500000 + cell / 2},{5200000 - cell / 2}", "--eye",
                              eye, "--curvature", *words)
                    self.assertEqual(int(read(self.folder / "out.tif").sum()), seen_over_a_plane(eye, share, cell))

    def test_refused(self):
        make_raster(self.folder / "dem.tif", hills(decimals=0).astype(np.int16), projection="")
        view = ["view", "dem.tif", "out.tif", *at(4, 5), "--eye", "3"]
        self.refuse(2, "--curvature takes lengths in metres, and the raster has no projection", *view, "--curvature",
                    "--no-projection")
        make_raster(self.folder / "dem.tif", hills(decimals=0).astype(np.int16), unit="furlong")
        self.refuse(2, "--curvature takes heights in metres or feet, and those of the raster are in furlong", *view,
                    "--curvature")
        self.refuse(1, "--refraction is a share of the earth's curvature", *view, "--refraction", "0.1")
        self.refuse(1, "the refraction 1.5 is not 0 to 1", *view, "--curvature", "--refraction", "1.5")

    def test_feet(self):
        """A drop in feet is that in metres over 0.3048."""
        make_raster(self.folder / "dem.tif", np.zeros((1, 40), np.float32), placed=placed_by(1000), unit="ft")
        self.make("view", "dem.tif", "out.tif", "--at", "500500,5199500", "--eye", "30", "--curvature")
        self.assertEqual(int(read(self.folder / "out.tif").sum()), seen_over_a_plane(Fraction("9.144"), "0.87"))


@unittest.skipUnless(shutil.which("gdal_viewshed"), "no gdal_viewshed")
class AsGdal(Case):
    """What gdal_viewshed has by the same formula: its own rule of sight is another one than that of docs/rules.md."""

    def shed(self, source, curvature, place, *words):
        """What gdal_viewshed makes of a raster, with a share of the curvature."""
        subprocess.run(["gdal_viewshed", "-q", "-ox", str(place[0]), "-oy", str(place[1]), "-cc", str(curvature), *words,
                        source, "shed.tif"], cwd=self.folder, check=True)
        return read(self.folder / "shed.tif")

    def test_least_targets_over_a_plane(self):
        """The least heights at which targets on a plane are seen, 5, 10 and 20 km away."""
        make_raster(self.folder / "dem.tif", np.zeros((3, 260), np.float32), placed=placed_by(100))
        theirs = self.shed("dem.tif", SHARE, (500050, 5199850), "-oz", "0.5", "-md", "26000", "-om", "GROUND")
        masts = [word for km in (0, 5, 10, 20) for word in ("--at", f"{500050 + 1000 * km},5199850")]
        self.make("view", "dem.tif", "out.tif", *masts, "--eye", "0.5", "--curvature", "--refraction", "0.143",
                  "--decimals", "4", "--visibility", "who.csv")
        with open(self.folder / "who.csv", newline="") as file:
            ours = {row["other"]: float(row["least_height"]) for row in csv.DictReader(file) if row["number"] == "1"}
        for number, km in (("2", 5), ("3", 10), ("4", 20)):
            self.assertAlmostEqual(ours[number], theirs[1, 10 * km], delta=0.0001)
            self.assertGreater(ours[number], 0.3)

    def test_horizons(self):
        """Eyes for which the horizon of a plane lies at 5, 10 and 20 km: by hand, by gdal_viewshed and by relief-gis."""
        make_raster(self.folder / "dem.tif", np.zeros((1, 300), np.int16), placed=placed_by(100))
        for distance in DISTANCES:
            # In tenths of a millimetre, of which an eye has at most a million.
            eye = f"{float(Fraction(SHARE) * distance**2 / (2 * SEMI_MAJOR)):.4f}"
            by_hand = seen_over_a_plane(Fraction(eye), SHARE, 100)
            self.assertAlmostEqual(100 * (by_hand - 1), distance, delta=100)
            self.make("view", "dem.tif", "out.tif", "--at", "500050,5199950", "--eye", eye, "--decimals", "4",
                      "--curvature", "--refraction", "0.143")
            self.assertEqual(int(read(self.folder / "out.tif").sum()), by_hand)
            theirs = self.shed("dem.tif", SHARE, (500050, 5199950), "-oz", eye)
            self.assertEqual(np.count_nonzero(theirs), by_hand)

    def test_lowered_ground(self):
        """What gdal_viewshed sees of lowered ground is what it sees with the curvature, but where half a unit tells."""
        ground = np.round(hills(421, 421, seed=4) / 20, 2)
        make_raster(self.folder / "dem.tif", ground, placed=placed_by(100))
        cell, place = (210, 205), (520550, 5178950)
        frame = open_raster(str(self.folder / "dem.tif"), 1, None, None, None, True).frame
        heights = heights_of(ground, np.ones(ground.shape, bool), 2)
        drop = drop_of_a_cell(frame, "", 2, Decimal(1) - Decimal(SHARE))
        # An eye of 20 m: tenths of a millimetre. Without finer units, as with an eye of 10,000 m, centimetres.
        for given, decimals in ((2000, 4), (10**6, 2)):
            low = lowered(heights, cell, drop, given)
            self.assertEqual(low.decimals, decimals)
            make_raster(self.folder / "low.tif", low.units / 10.0**decimals, placed=placed_by(100))
            for distance in DISTANCES:
                ours = self.shed("low.tif", 0, place, *self.heights(0), "-md", str(distance))
                theirs, least, most = (
                    self.shed(self.raised(ground, by / 2 / 10**decimals), SHARE, place,
                              *self.heights(by / 2 / 10**decimals), "-md", str(distance)) for by in (0, 1.01, -1.01))
                # Where it blocks half a unit more and targets lie half a unit lower, less is seen.
                self.assertTrue((least <= theirs).all() and (theirs <= most).all())
                np.testing.assert_array_equal(ours[least == most], theirs[least == most])
                self.assertLess(np.count_nonzero(least != most), 0.01 * theirs.size)
        flat = self.shed("dem.tif", 0, place, *self.heights(0), "-md", "20000")
        self.assertGreater(np.count_nonzero((flat != theirs) & (least == most)), 0.02 * theirs.size)

    def heights(self, by):
        """The words of an eye and of targets over ground that is raised: the eye is no higher, and targets are lower."""
        return "-oz", repr(20 - by), "-tz", repr(1 - 2 * by)

    def raised(self, ground, by):
        """The name of a raster with all of the ground raised."""
        make_raster(self.folder / "raised.tif", ground + by, placed=placed_by(100))
        return "raised.tif"


if __name__ == "__main__":
    unittest.main()
