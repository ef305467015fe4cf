"""The functions of the package: numpy arrays in and out."""
import dataclasses
import inspect
import os
import subprocess
import sys
import unittest
import unittest.mock
from decimal import Decimal

import numpy as np

import fixtures
import relief_gis
from fixtures import Case, by_hand, hills, make_raster, read


class Arrays(Case):
    """Each function against `relief` run by hand on a raster of the array."""

    def setUp(self):
        super().setUp()
        patch = unittest.mock.patch.dict(os.environ, RELIEF=fixtures.RELIEF)
        patch.start()
        self.addCleanup(patch.stop)
        self.heights = hills()
        self.heights[:4, :5] = np.nan
        self.valid = ~np.isnan(self.heights)
        make_raster(self.folder / "dem.tif", np.where(self.valid, self.heights, -9999), -9999.0)

    def expected(self, *words):
        return by_hand(words, self.folder / "dem.tif", 2).astype(float)

    def test_fill(self):
        found = relief_gis.fill(self.heights, scale=2)
        self.assertEqual(found.dtype, np.float64)
        np.testing.assert_array_equal(np.isnan(found), ~self.valid)
        np.testing.assert_array_equal(found[self.valid], self.expected("fill")[self.valid])

    def test_integers_keep_their_type(self):
        heights = np.rint(np.where(self.valid, self.heights, -1)).astype(np.int16)
        found = relief_gis.fill(heights, nodata=-1)
        self.assertEqual(found.dtype, np.int16)
        np.testing.assert_array_equal(found == -1, ~self.valid)
        make_raster(self.folder / "dem.tif", heights, -1)
        np.testing.assert_array_equal(found, by_hand(["fill"], self.folder / "dem.tif").astype(int))

    def test_codes_and_counts(self):
        for name, dtype, nodata in (("flow", np.uint8, relief_gis.NODATA_CODE), ("accumulate", np.int32, -9999),
                                    ("basins", np.int32, -9999)):
            found = getattr(relief_gis, name)(self.heights, scale=2, sinks=[(12, 20)], workers=2)
            self.assertEqual(found.dtype, dtype)
            self.assertTrue(np.all(found[~self.valid] == nodata))
            np.testing.assert_array_equal(found[self.valid], self.expected(name, "12,20")[self.valid])

    def test_view(self):
        found = relief_gis.view(self.heights, [(12, 20, 1.1), (3, 30, "2.25")], scale=2, target=1, radius=9)
        expected = self.expected("view", "--target", "100", "--radius", "9", "12,20,110", "3,30,225")
        np.testing.assert_array_equal(found, expected)

    def test_view_of_a_curved_earth(self):
        self.make("view", "dem.tif", "view.tif", "--at", "500615,5199625", "--eye", "1.1", "--at", "500915,5199895",
                  "--eye", "2", "--curvature", "--refraction", "0.2", "--radius", "900")
        found = relief_gis.view(self.heights, [(12, 20, 1.1), (3, 30, 2)], radius=30, cell=30, curvature=True,
                                refraction=0.2)
        np.testing.assert_array_equal(found, read(self.folder / "view.tif"))
        # An earth that is as small as the grid hides what a flat one shows.
        flat, small = (np.count_nonzero(relief_gis.view(self.heights, [(12, 20, 1.1)], cell=30, **more) > 0)
                       for more in ({}, {"curvature": True, "earth": 2000}))
        self.assertLess(small, flat)
        with self.assertRaises(relief_gis.ReliefError) as caught:
            relief_gis.view(self.heights, [(12, 20, 1), (2**40, 0, 1)], cell=30, curvature=True)
        self.assertIn("observers[1]", str(caught.exception))

    def test_each_observer(self):
        observers = [(12, 20, 1.1), (3, 30, "2.25"), (12, 20, 30)]
        found = relief_gis.view_each(self.heights, observers, scale=2, target=1, radius=9)
        self.assertEqual(len(found), len(observers))
        for one, word in zip(found, ("12,20,110", "3,30,225", "12,20,3000")):
            np.testing.assert_array_equal(one, self.expected("view", "--target", "100", "--radius", "9", word))
        curved = {"cell": 30, "curvature": True, "earth": 2000}
        for one, observer in zip(relief_gis.view_each(self.heights, observers, **curved), observers):
            np.testing.assert_array_equal(one, relief_gis.view(self.heights, [observer], **curved))
        masked = relief_gis.view_each(np.ma.masked_invalid(self.heights), observers[:1])
        np.testing.assert_array_equal(masked[0].mask, ~self.valid)

    def test_who_sees_whom(self):
        """By views of the cells of the others: at their eyes, at the least height, and a unit lower."""
        observers = [(12, 20, 1.1), (3, 30, "2.25"), (25, 7, 0), (29, 39, 60), (12, 20, 30)]
        seen_by = {}
        for more in ({}, {"radius": 17}, {"cell": 30, "curvature": True, "earth": 2000}):
            found = relief_gis.visibility(self.heights, observers, scale=2, target=1, **more)
            each = relief_gis.view_each(self.heights, observers, scale=2, target=1, **more)
            self.assertEqual(found.cells, tuple(np.count_nonzero(one > 0) for one in each))
            for observer, other, distance, is_seen, least in found.sights:
                row, col, eye = observers[other]
                away = np.hypot(row - observers[observer][0], col - observers[observer][1])
                self.assertAlmostEqual(distance, away)

                def at(height):
                    seen = relief_gis.view(self.heights, [observers[observer]], scale=2, target=height, **more)
                    return bool(seen[row, col])

                self.assertEqual(is_seen, at(eye))
                # Where the ground curves, the units of a view depend on the target.
                most = Decimal("0.03") if "curvature" in more else 0
                self.assertTrue(at(least + most))
                self.assertTrue(least <= most or not at(least - most - Decimal("0.01")))
            pairs = [(one, other) for one, other, *_ in found.sights]
            self.assertEqual(pairs, [(one, other) for one in range(5) for other in range(5) if one != other and (
                np.hypot(*np.subtract(observers[one][:2], observers[other][:2])) <= more.get("radius", 99))])
            seen_by[str(more)] = {it.is_seen for it in found.sights}
        self.assertEqual(seen_by["{}"], {True, False})

    def test_refused_observers_of_each(self):
        for function in (relief_gis.view_each, relief_gis.visibility):
            for place, name, number in (((0, 0, 1), "ObserverOnNodata", 1), ((99, 0, 1), "ObserverOutside", 1)):
                with self.assertRaises(relief_gis.ReliefError) as caught:
                    function(self.heights, [(12, 20, 1), place])
                self.assertEqual(caught.exception.place, number)
                self.assertIn("observers[1]", str(caught.exception))
            for more in ({"curvature": True}, {"target": 1.115}):
                with self.assertRaises(relief_gis.UsageError):
                    function(self.heights, [(12, 20, 1)], **more)
            with self.assertRaises(relief_gis.GisError):
                function(self.heights, [])

    def test_profile_on_a_curved_earth(self):
        start, end = (5, 7), (25, 38)
        away = 900 * ((np.arange(30)[:, None] - 5)**2 + (np.arange(40) - 7)**2)
        # An eye of 3 m has 300,000 units of 0.00001.
        lowered = np.round(self.heights - np.round(0.87 * away / (2 * 6378137), 5), 5)
        found = relief_gis.profile(self.heights, start, end, 3, target=2, cell=30, curvature=True)
        fine = relief_gis.profile(lowered, start, end, 3, target=2, scale=5)
        least = {name: getattr(fine, name).quantize(Decimal("0.01"), "ROUND_CEILING")
                 for name in ("least_eye", "least_target")}
        self.assertEqual(found, dataclasses.replace(fine, **least))

    def test_refused_curvature(self):
        for more, told in (({}, "curvature takes cell="), ({"cell": 0}, "cell=0 is not above 0"),
                           ({"cell": 1, "refraction": 1.5}, "refraction=1.5 is not 0 to 1"),
                           ({"cell": 1, "earth": -1}, "earth=-1 is not above 0"),
                           ({"cell": "x"}, "cell x is no number")):
            with self.assertRaises(relief_gis.UsageError, msg=told) as caught:
                relief_gis.view(self.heights, [(12, 20, 1)], curvature=True, **more)
            self.assertIn(told, str(caught.exception))

    def test_small_basins(self):
        plain = relief_gis.basins(self.heights)
        sizes = np.bincount(plain[plain > 0])
        expected = np.where((plain > 0) & (sizes[np.maximum(plain, 0)] < 20), 0, plain)
        self.assertTrue((expected == 0).any() and (expected > 0).any())
        np.testing.assert_array_equal(relief_gis.basins(self.heights, least=20), expected)
        np.testing.assert_array_equal(relief_gis.basins(self.heights, least=0), plain)

    def test_catchments(self):
        gauges, sinks = [(20, 30), (12, 20), (20, 30)], [(7, 9)]
        found = relief_gis.catchments(self.heights, gauges, scale=2, sinks=sinks, workers=2)
        self.assertEqual(found.dtype, np.int32)
        self.assertTrue(np.all(found[~self.valid] == relief_gis.NODATA_COUNT))
        expected = self.expected("catchments", "--sink", "7,9", "20,30", "12,20", "20,30")
        np.testing.assert_array_equal(found, expected)

    def test_catchments_of_an_example(self):
        heights = np.array([[9, 9, 9, 9], [9, 1, 9, 9], [9, 9, 2, 9], [9, 9, 9, 3]])
        for gauges, expected in (([(2, 2)], [[1, 1, 1, 0], [1, 1, 1, 1], [1, 1, 1, 0], [0, 1, 0, 0]]),
                                 ([(3, 3), (1, 1), (2, 2)],
                                  [[2, 2, 2, 0], [2, 2, 3, 3], [2, 3, 3, 1], [0, 3, 1, 1]])):
            self.assertEqual(relief_gis.catchments(heights, gauges).tolist(), expected)

    def test_uncertain_cells_of_an_example(self):
        """A valley from west to east: its water may come from beyond the edge, that of its slopes does not."""
        heights = np.full((5, 5), 9)
        heights[2] = [5, 4, 3, 2, 1]
        expected = np.ones((5, 5), int)
        expected[[1, 3], 1:4] = 0
        self.assertEqual(relief_gis.uncertain(heights).tolist(), expected.tolist())
        found = relief_gis.uncertain(np.ma.masked_equal(heights, 4))
        # The hole is an edge too, of the slopes beside it as well, and cuts the valley.
        self.assertEqual(found.filled().tolist(), [[1, 1, 1, 1, 1], [1, 1, 1, 0, 1], [1, 255, 1, 1, 1], [1, 1, 1, 0, 1],
                                                   [1, 1, 1, 1, 1]])

    def test_refused_gauges_and_sinks(self):
        for gauges, sinks, number, name, place, told in (
                ([(1, 8), (0, 0)], [], 62, "GaugeOnNodata", 1, "gauges[1]: the gauge stands where there is no data"),
                ([(99, 0)], [(1, 8)], 61, "GaugeOutside", 0, "gauges[0]: the gauge lies outside the grid"),
                ([(1, 8)] * 1025, [], 63, "TooManyGauges", None, "more than 1,024 gauges"),
                # Sinks are judged before gauges.
                ([(99, 0)], [(1, 8), (99, 0)], 46, "SinkOutside", 1, "sinks[1]: the sink lies outside the grid")):
            with self.assertRaises(relief_gis.ReliefError) as caught:
                relief_gis.catchments(self.heights, gauges, sinks=sinks)
            error = caught.exception
            self.assertEqual((error.number, error.name, error.place, error.status), (number, name, place, 2))
            self.assertIn(told, str(error))

    def test_refusals(self):
        with self.assertRaises(relief_gis.ReliefError) as caught:
            relief_gis.fill(self.heights, sinks=[(1, 8), (99, 0)])
        error = caught.exception
        self.assertEqual((error.number, error.name, error.place, error.status), (46, "SinkOutside", 1, 2))
        self.assertIn("sinks[1]", str(error))
        with self.assertRaises(relief_gis.InputError):
            relief_gis.fill(np.zeros(3))
        with self.assertRaises(relief_gis.UsageError):
            relief_gis.view(self.heights, [(12, 20, 1.115)])

    def test_arrays_take_no_gdal(self):
        code = ("import sys; sys.modules['osgeo'] = None; import relief_gis; "
                "print(relief_gis.fill([[9, 9, 9], [9, 1, 9], [9, 9, 5]])[1, 1])")
        done = subprocess.run([sys.executable, "-c", code], env=fixtures.environment(), capture_output=True, text=True)
        self.assertEqual((done.stdout, done.stderr), ("5\n", ""))

    def test_every_public_function_is_typed_and_told(self):
        for name in ("fill", "flow", "accumulate", "basins", "catchments", "view", "uncertain", "depth", "area",
                     "streams", "profile", "compare", "maps", "view_each", "visibility",
                     "rise"):
            function = getattr(relief_gis, name)
            self.assertIn("Returns:", function.__doc__)
            self.assertIn("Raises:", function.__doc__)
            for parameter in inspect.signature(function).parameters.values():
                self.assertIsNot(parameter.annotation, inspect.Parameter.empty, f"{name}: {parameter}")


if __name__ == "__main__":
    unittest.main()
