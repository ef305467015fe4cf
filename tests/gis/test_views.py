"""Views by parts of a raster and for each mast, against the judge's plain reading."""
import csv
import random
import unittest
import unittest.mock

import numpy as np
from osgeo import gdal

import judge
from fixtures import Case, at, centre, hills, make_points, make_raster, read

NODATA = -9999


def land_of(array):
    """The judge's land of whole heights."""
    return {(int(row), int(col)): int(array[row, col]) for row, col in zip(*np.nonzero(array != NODATA))}


def boxes_of(shape, masts):
    """The first and last rows and columns that masts (row, col, eye, target, radius) reach."""
    return [(max(row - radius, 0), min(row + radius, shape[0] - 1), max(col - radius, 0),
             min(col + radius, shape[1] - 1)) for row, col, _, _, radius in masts]


def observers_of(masts):
    """Masts as the judge takes them."""
    return [((row, col), eye, above, radius) for row, col, eye, above, radius in masts]


class Views(Case):
    """Rasters of whole metres, of which `array` has the heights."""

    def write(self, array, name="dem.tif"):
        self.array = array.astype(np.int32)
        make_raster(self.folder / name, self.array, NODATA)

    def words(self, masts):
        """The words of masts with an eye, a target and a radius of their own."""
        words = [word for row, col, *_ in masts for word in at(row, col)]
        for option, place, side in (("--eye", 2, 1), ("--target", 3, 1), ("--radius", 4, 30)):
            words += [word for mast in masts for word in (option, str(mast[place] * side))]
        return words

    def draw(self, chance, most_side):
        """A raster with some cells without data at its border, and masts on it."""
        rows, cols = chance.randint(14, 40), chance.randint(14, 40)
        array = np.array([[chance.randint(0, 9) for _ in range(cols)] for _ in range(rows)])
        if chance.randrange(2):
            array[:chance.randint(1, 6), :chance.randint(1, 9)] = NODATA
        cells = [tuple(map(int, cell)) for cell in np.argwhere(array != NODATA)]
        masts = [(*chance.choice(cells), chance.randint(0, 9), chance.randint(0, 3),
                  chance.randint(1, (most_side - 1) // 2)) for _ in range(chance.randint(1, 4))]
        self.write(array)
        return masts

    def expected(self, masts):
        """What masts see, in the least box round all that they reach, with the box's first row and column."""
        boxes = boxes_of(self.array.shape, masts)
        top, left = min(box[0] for box in boxes), min(box[2] for box in boxes)
        wanted = np.full((max(box[1] for box in boxes) - top + 1, max(box[3] for box in boxes) - left + 1), NODATA)
        seen = judge.view(land_of(self.array), observers_of(masts))
        for (row, col), count in seen.items():
            if any(box[0] <= row <= box[1] and box[2] <= col <= box[3] for box in boxes):
                wanted[row - top, col - left] = count
        return wanted, top, left

    def narrow(self, most_side):
        """Rasters with more columns or rows than so many are read by parts."""
        for module in ("raster", "views"):
            patch = unittest.mock.patch(f"relief_gis.{module}.MOST_SIDE", most_side)
            patch.start()
            self.addCleanup(patch.stop)


class Parts(Views):
    """Rasters that are larger than what is read at once."""

    def test_random_rasters(self):
        self.narrow(13)
        chance = random.Random(5)
        for number in range(60):
            masts = self.draw(chance, 13)
            with self.subTest(number=number, masts=masts):
                self.make("view", "dem.tif", "out.tif", *self.words(masts))
                wanted, top, left = self.expected(masts)
                np.testing.assert_array_equal(read(self.folder / "out.tif"), wanted)
                made = gdal.Open(str(self.folder / "out.tif")).GetGeoTransform()
                self.assertEqual((made[0], made[3]), (500000 + 30 * left, 5200000 - 30 * top))

    def test_5000_columns(self):
        array = np.zeros((40, 5000))
        array[:, ::7] = np.arange(715) % 11
        self.write(array)
        masts = [(20, 100, 5, 0, 12), (3, 4900, 7, 2, 30)]
        lines = self.make("view", "dem.tif", "out.tif", *self.words(masts))
        wanted, top, left = self.expected(masts)
        np.testing.assert_array_equal(read(self.folder / "out.tif"), wanted)
        self.assertEqual((top, left, wanted.shape[1]), (0, 88, 4843))
        self.assertEqual(lines.count("whole cells"), 2)

    def test_refused(self):
        self.narrow(13)
        self.write(hills(20, 30, decimals=0))
        view = ["view", "dem.tif", "out.tif", *at(10, 10), "--eye", "3"]
        self.refuse(2, "30 columns and 20 rows, and 13 of each is the most: give --radius", *view)
        self.refuse(2, "lie 15 columns and 15 rows, and 13 of each is the most: give a smaller --radius", *view,
                    "--radius", "210")
        self.refuse(2, "lies outside the raster", *view, "--radius", "90", *at(10, 31))
        self.refuse(2, "30 columns and 20 rows, and 13 of each is the most: cut a part out", "fill", "dem.tif",
                    "out.tif")
        with unittest.mock.patch("relief_gis.views.MOST_CELLS", 188):
            self.refuse(2, "their map would have 27 columns and 7 rows", *view[:3], *at(10, 3), *at(10, 23), "--eye",
                        "3", "--radius", "90", "--eye", "4")

    def test_cells_without_data(self):
        self.narrow(13)
        array = hills(20, 30, decimals=0)
        array[9, 12:30] = NODATA
        self.write(array)
        view = ["view", "dem.tif", "out.tif", *at(10, 10), "--eye", "3", "--radius", "120"]
        lines = self.make(*view)
        # The row begins two columns to the east of the mast and leads out of what is read, four columns on.
        self.assertIn("relief-gis: 3 cells without data are joined to the border of what is read: they block no view",
                      lines)
        array[9, 13:] = 5
        self.write(array)
        self.refuse(2, "voids: 1 cell in 1 hole inside the land", *view)
        self.refuse(2, "near point 1 (500315, 5199685): voids: 1 cell in 1 hole inside the land", *view, *at(3, 26),
                    "--voids", "refuse")
        lines = self.make(*view, *at(3, 26), "--voids", "drain")
        self.assertIn("near point 1 (500315, 5199685): voids: 1 cell in 1 hole inside the land, left as they are",
                      lines)

    def test_bounds_of_a_wide_raster(self):
        self.narrow(13)
        self.write(hills(20, 30, decimals=0))
        self.make("view", "dem.tif", "out.tif", *at(10, 10), "--eye", "3", "--radius", "150", "--window", "8,0,22,20")
        found = gdal.Open(str(self.folder / "out.tif"))
        self.assertEqual((found.RasterXSize, found.RasterYSize, found.GetGeoTransform()[0]), (8, 11, 500240))


class Each(Views):
    """A band for each mast, and who sees whom."""

    def test_bands(self):
        chance = random.Random(6)
        for number in range(20):
            self.narrow(13 if number % 2 else 4096)
            masts = self.draw(chance, 13)
            lines = self.make("view", "dem.tif", "out.tif", *self.words(masts), "--each")
            wanted, top, left = self.expected(masts)
            found = gdal.Open(str(self.folder / "out.tif"))
            self.assertEqual(found.RasterCount, len(masts), lines)
            for band, mast in enumerate(masts, 1):
                alone = np.full(wanted.shape if number % 2 else self.array.shape, NODATA)
                one, own_top, own_left = self.expected([mast])
                if number % 2 == 0:
                    alone[self.array != NODATA] = 0
                    top = left = 0
                alone[own_top - top:own_top - top + one.shape[0], own_left - left:own_left - left + one.shape[1]] = one
                np.testing.assert_array_equal(found.GetRasterBand(band).ReadAsArray(), alone, str((number, mast)))

    def test_names(self):
        self.write(hills(20, 30, decimals=0))
        places = *centre(4, 5), *centre(15, 20)
        (self.folder / "masts.csv").write_text(
            "x,y,eye,top,reach,site\n{},{},20,3,120,Nordberg\n{},{},7,0,300,Süd 2\n".format(*places))
        fields = ["--eye-field", "eye", "--target-field", "top", "--radius-field", "reach"]
        self.make("view", "dem.tif", "out.tif", "--points", "masts.csv", *fields, "--name-field", "site", "--each")
        found = gdal.Open(str(self.folder / "out.tif"))
        self.assertEqual([found.GetRasterBand(band).GetDescription() for band in (1, 2)], ["Nordberg", "Süd 2"])
        for band, mast in ((1, (4, 5, 20, 3, 4)), (2, (15, 20, 7, 0, 10))):
            wanted = judge.view(land_of(self.array), observers_of([mast]))
            made = found.GetRasterBand(band).ReadAsArray()
            self.assertEqual({cell: int(made[cell]) for cell in wanted}, wanted)
        self.make("view", "dem.tif", "both.tif", "--points", "masts.csv", *fields)
        np.testing.assert_array_equal(read(self.folder / "both.tif"), sum(
            found.GetRasterBand(band).ReadAsArray() for band in (1, 2)))

    def test_fields_are_refused(self):
        self.write(hills(20, 30, decimals=0))
        make_points(self.folder / "masts.gpkg", [(*centre(4, 5), 20, 90)], fields=["eye", "reach"])
        view = ["view", "dem.tif", "out.tif", "--points", "masts.gpkg", "--eye", "3"]
        self.refuse(1, "masts.gpkg has no field none", *view, "--radius-field", "none")
        self.refuse(1, "--radius and --radius-field reach both say how long", *view, "--radius-field", "reach",
                    "--radius", "90")
        self.refuse(1, "--target-field eye is a field of --points LAYER", *view[:3], *at(4, 5), "--eye", "3",
                    "--target-field", "eye")
        self.refuse(1, "--name-field eye is a field of --points LAYER", *view[:3], *at(4, 5), "--eye", "3",
                    "--name-field", "eye")

    def test_who_sees_whom(self):
        chance = random.Random(7)
        for number in range(20):
            self.narrow(13 if number % 2 else 4096)
            masts = self.draw(chance, 13)
            self.make("view", "dem.tif", "out.tif", *self.words(masts), "--visibility", "who.csv")
            with open(self.folder / "who.csv", newline="") as file:
                rows = list(csv.DictReader(file))
            self.assertEqual([self.numbers(row) for row in rows], list(self.sight(masts)), masts)

    def numbers(self, row):
        """A row of the table as numbers; None: an empty field."""
        names = ("number", "cells", "other", "seen", "least_height")
        return tuple(int(row[name]) if row[name] else None for name in names)

    def sight(self, masts):
        """The table by the judge: the least height is found by trying one after the other."""
        land = land_of(self.array)
        for number, (row, col, eye, above, radius) in enumerate(masts, 1):
            seen = judge.view(land, [((row, col), eye, above, radius)])
            others = [(place, other) for place, other in enumerate(masts, 1)
                      if place != number and (row - other[0])**2 + (col - other[1])**2 <= radius**2]
            for place, other in others or [(None, None)]:
                if place is None:
                    yield number, sum(seen.values()), None, None, None
                    continue
                sights = [judge.is_seen(land, other[:2], (row, col), eye, height, None) for height in range(99)]
                yield number, sum(seen.values()), place, int(sights[other[2]]), sights.index(True)


if __name__ == "__main__":
    unittest.main()
