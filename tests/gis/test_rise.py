"""Rises: rows by hand, and random rasters as a whole, by parts, by mast and on the curved earth, against the judge."""
import os
import random
import unittest
import unittest.mock

import numpy as np
from osgeo import gdal

import fixtures
import judge
import relief_gis
from fixtures import Case, at, make_raster, read
from relief_gis.program import Program
from test_views import Views, boxes_of, land_of

NODATA = -9999


def plain_rise(land, masts):
    """The least height at which a mast (row, col, eye, radius) sees each cell, by the judge."""
    return judge.rise(land, [((row, col), eye, radius) for row, col, eye, radius in masts])


@unittest.skipUnless(Program.find(fixtures.RELIEF).has_map("rise"), "relief has no rise")
class Rise(Views):
    def words(self, masts):
        """The words of masts with an eye and a radius of their own."""
        return [word for row, col, eye, radius in masts for word in
                (*at(row, col), "--eye", str(eye), "--radius", str(30 * radius))]

    def wanted(self, masts, boxes=None):
        """The map of masts, or its least box round what lies within their boxes."""
        whole = np.full(self.array.shape, NODATA)
        for cell, height in plain_rise(land_of(self.array), masts).items():
            whole[cell] = height
        if boxes is None:
            return whole
        near = np.zeros(whole.shape, bool)
        for top, bottom, left, right in boxes:
            near[top:bottom + 1, left:right + 1] = True
        whole[~near] = NODATA
        rows, cols = (slice(min(box[first] for box in boxes), max(box[first + 1] for box in boxes) + 1)
                      for first in (0, 2))
        return whole[rows, cols]

    def test_a_row_by_hand(self):
        """From 12 over a crest of 9 at three quarters of the way: 12 / 4 + 3 h / 4 is 9 where h is 8."""
        self.write(np.array([[10, 0, 0, 9, 0]] * 2))
        self.make("rise", "dem.tif", "out.tif", *at(0, 0), "--eye", "2")
        self.assertEqual(read(self.folder / "out.tif")[0].tolist(), [0, 0, 0, 0, 8])
        self.make("rise", "dem.tif", "out.tif", *at(0, 0), "--eye", "2", "--radius", "90")
        self.assertEqual(read(self.folder / "out.tif")[0].tolist(), [0, 0, 0, 0, NODATA])
        self.make("rise", "dem.tif", "out.tif", *at(0, 0), *at(0, 4), "--eye", "2", "--eye", "0")
        self.assertEqual(read(self.folder / "out.tif")[0].tolist(), [0, 0, 0, 0, 0])

    def test_decimals_type_and_style(self):
        make_raster(self.folder / "dem.tif", np.array([[10, 0.5, 0, 9, 0.25]] * 2, np.float32), NODATA)
        self.make("rise", "dem.tif", "out.tif", *at(0, 0), "--eye", "1.5")
        dataset = gdal.Open(str(self.folder / "out.tif"))
        band = dataset.GetRasterBand(1)
        self.assertEqual((gdal.GetDataTypeName(band.DataType), band.GetNoDataValue()), ("Float32", NODATA))
        # 11.5 / 4 + 3 (h + 0.25) / 4 is 9 where h is 7.9166..
        np.testing.assert_array_equal(band.ReadAsArray()[0], np.array([0, 0, 0, 0, 7.92], np.float32))
        style = (self.folder / "out.qml").read_text()
        self.assertIn('label="seen"', style)
        self.assertIn('label="up to 7.92"', style)

    def test_random_rasters(self):
        chance = random.Random(41)
        for number in range(40):
            masts = [(row, col, eye, radius) for row, col, eye, _, radius in self.draw(chance, 21)]
            with self.subTest(number=number, masts=masts):
                self.make("rise", "dem.tif", "out.tif", *self.words(masts))
                np.testing.assert_array_equal(read(self.folder / "out.tif"), self.wanted(masts))
                self.make("rise", "dem.tif", "each.tif", *self.words(masts), "--each")
                bands = gdal.Open(str(self.folder / "each.tif")).ReadAsArray().reshape(-1, *self.array.shape)
                for band, mast in zip(bands, masts):
                    np.testing.assert_array_equal(band, self.wanted([mast]))

    def test_random_rasters_by_parts(self):
        self.narrow(13)
        chance = random.Random(42)
        for number in range(30):
            masts = [(row, col, eye, radius) for row, col, eye, _, radius in self.draw(chance, 13)]
            with self.subTest(number=number, masts=masts):
                self.make("rise", "dem.tif", "out.tif", *self.words(masts))
                boxes = boxes_of(self.array.shape, [(*mast[:3], 0, mast[3]) for mast in masts])
                np.testing.assert_array_equal(read(self.folder / "out.tif"), self.wanted(masts, boxes))

    def test_arrays(self):
        chance = random.Random(43)
        curved = {"cell": 30, "curvature": True, "earth": 900}
        with unittest.mock.patch.dict(os.environ, RELIEF=fixtures.RELIEF):
            for _ in range(12):
                masts = [(row, col, eye, radius) for row, col, eye, _, radius in self.draw(chance, 21)]
                observers, radius = [mast[:3] for mast in masts], masts[0][3]
                found = relief_gis.rise(self.array, observers, nodata=NODATA, radius=radius)
                self.assertEqual(found.dtype, np.int64)
                np.testing.assert_array_equal(found, self.wanted([(*mast[:3], radius) for mast in masts]))
                # The rise of each cell is the least target that is seen, on a curved earth within its units of 0.01.
                for more, rounding in (({}, 0), (curved, 1)):
                    risen = relief_gis.rise(self.array, observers, nodata=NODATA, radius=radius, **more)
                    for target in sorted(set(risen[risen >= 0].tolist()))[:6]:
                        seen = relief_gis.view(self.array, observers, nodata=NODATA, radius=radius, target=target,
                                               **more) > 0
                        low, high = ((risen >= 0) & (risen <= target + by) for by in (-rounding, rounding))
                        self.assertTrue((seen >= low).all() and (seen <= high).all())

    def test_refused(self):
        self.write(np.zeros((3, 4)))
        for words in (["--target", "1"], ["--visibility", "who.csv"], ["--target-field", "top"]):
            status, lines = self.run_command("rise", "dem.tif", "out.tif", *at(0, 0), "--eye", "1", *words)
            self.assertEqual(status, 1, lines)
        self.refuse(1, "rise needs observers", "rise", "dem.tif", "out.tif", "--eye", "1")


class WithoutRise(Case):
    def test_an_older_program(self):
        make_raster(self.folder / "dem.tif", np.zeros((3, 4), np.int16), NODATA)
        path = self.folder / "relief"
        path.write_text("#!/bin/sh\ncase $1 in --version) echo relief 0.2.0;; --help) echo ' view ';; esac\n")
        path.chmod(0o755)
        self.refuse(5, "relief 0.2.0 has no rise", "rise", "dem.tif", "out.tif", *at(0, 0), "--eye", "1",
                    program=str(path))


if __name__ == "__main__":
    unittest.main()
