"""The arguments of the functions on arrays: whole numbers and places, or errors that speak Python."""
import decimal
import os
import re
import unittest
import unittest.mock

import numpy as np

import fixtures
import relief_gis

HEIGHTS = np.array([[9, 9, 9, 9], [9, 1, 9, 9], [9, 9, 2, 9], [9, 9, 9, 3]])


class Arguments(unittest.TestCase):
    def setUp(self):
        patch = unittest.mock.patch.dict(os.environ, RELIEF=fixtures.RELIEF)
        patch.start()
        self.addCleanup(patch.stop)

    def refuse(self, kind, told, name, *words, **more):
        """Calls a function, which has to raise an error of a kind with a text, in no words of the command."""
        with self.assertRaisesRegex(kind, re.escape(told)) as caught:
            getattr(relief_gis, name)(more.pop("heights", HEIGHTS), *words, **more)
        self.assertNotIn("--", str(caught.exception))

    def test_places_are_whole_numbers(self):
        expected = relief_gis.fill(HEIGHTS, sinks=[(1, 1)])
        self.assertEqual(expected[1, 1], 1)
        for place in ((np.int8(1), np.uint64(1)), np.array([1, 1]), [1, 1], (1.0, np.float32(1)), (np.array(1), 1),
                      (decimal.Decimal(1), 1)):
            np.testing.assert_array_equal(relief_gis.fill(HEIGHTS, sinks=[place]), expected)
        np.testing.assert_array_equal(relief_gis.fill(HEIGHTS, sinks=np.argwhere(HEIGHTS == 1)), expected)
        np.testing.assert_array_equal(relief_gis.fill(HEIGHTS, sinks=zip([1], [1])), expected)
        for place in ((1.7, 1), (True, 1), (1, np.True_), ("1", 1), (None, 1), (1, float("nan")), (1, float("inf")),
                      (1j, 1)):
            self.refuse(relief_gis.InputError, "sinks[1]=", "fill", sinks=[(1, 1), place])
            self.refuse(relief_gis.InputError, "gauges[0]=", "catchments", [place])
            self.refuse(relief_gis.InputError, "observers[0]=", "view", [(*place, 2)])
        for place in (1, (1,), (1, 1, 1), "11", b"11", None):
            self.refuse(relief_gis.InputError, "sinks[0]=", "fill", sinks=[place])
        for places in (1, "11", (1, 1), None):
            self.refuse(relief_gis.InputError, "sinks", "fill", sinks=places)

    def test_places_outside(self):
        self.refuse(relief_gis.InputError, "sinks[0]=(-1, 2) lies outside the grid", "fill", sinks=[(-1, 2)])
        for place in ((4, 0), (0, 4), (10**9, 0), (2**32, 0), (2**64, 1), (10**30, 1)):
            with self.assertRaises((relief_gis.ReliefError, relief_gis.InputError)) as caught:
                relief_gis.fill(HEIGHTS, sinks=[(1, 1), place])
            self.assertIn("sinks[1]", str(caught.exception))
            self.assertIn("lies outside the grid", str(caught.exception))

    def test_needed_places(self):
        self.refuse(relief_gis.InputError, "gauges= is empty", "catchments", [])
        self.refuse(relief_gis.InputError, "observers= is empty", "view", [])

    def test_whole_numbers(self):
        for name, good, bad in (("workers", (1, 2.0, np.int16(3), 64), (0, 65, -1, 1.5, True, None, "2", float("nan"))),
                                ("scale", (0, 6, np.int8(2), 3.0), (-1, 7, 1.5, True, "2"))):
            for value in good:
                relief_gis.fill(HEIGHTS, **{name: value})
            for value in bad:
                self.refuse(relief_gis.InputError, f"{name}={value!r} is ", "fill", **{name: value})
        for radius in (None, 1, 9.0, np.int64(8192)):
            relief_gis.view(HEIGHTS, [(1, 1, 2)], radius=radius)
        for radius in (0, -1, 8193, 1.5, True, "3", float("inf")):
            self.refuse(relief_gis.InputError, f"radius={radius!r} is ", "view", [(1, 1, 2)], radius=radius)

    def test_eyes_and_targets(self):
        for eye in (2, 2.0, "2", np.float32(2), decimal.Decimal(2)):
            self.assertEqual(relief_gis.view(HEIGHTS, [(1, 1, eye)])[1, 1], 1)
        for eye in (None, "high", float("nan"), True, (2,)):
            self.refuse(relief_gis.UsageError, "observers[0]: eye", "view", [(1, 1, eye)])
        self.refuse(relief_gis.UsageError, "observers[1]: eye 1.25 is no whole number of units of 1: scale=2", "view",
                    [(1, 1, 2), (0, 0, 1.25)])
        self.refuse(relief_gis.UsageError, "target 0.5 is no whole number of units of 1: scale=1", "view", [(1, 1, 2)],
                    target=0.5)
        self.refuse(relief_gis.UsageError, "give a smaller scale=", "view", [(1, 1, 2000)], scale=6)
        self.refuse(relief_gis.UsageError, "target -1 is below 0", "view", [(1, 1, 2)], target=-1)

    def test_refusals_of_the_program_in_pythons_words(self):
        for told, name, words, more in (
                ("sinks[0]: the sink lies outside the grid: move it, or take a larger array", "fill", [],
                 {"sinks": [(9, 9)]}),
                ("gauges[1]: the gauge lies outside the grid", "catchments", [[(1, 1), (9, 9)]], {}),
                ("observers[0]: the observer lies outside the grid", "view", [[(9, 9, 1)]], {}),
                ("more than 1,024 sinks", "flow", [], {"sinks": [(1, 1)] * 1025})):
            self.refuse(relief_gis.ReliefError, told, name, *words, **more)


if __name__ == "__main__":
    unittest.main()
