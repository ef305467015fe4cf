"""Eyes, targets and radii that are given again and again: each is of the observer by --at beside it."""
import unittest

import numpy as np

from fixtures import Case, at, by_hand, centre, hills, make_points, make_raster, read

PLACES = [(10, 20), (25, 33), (4, 5)]


class Observers(Case):
    """Against the program by hand, once for each observer, and the sum of these maps."""

    def setUp(self):
        super().setUp()
        array = hills()
        array[12:15, 3:9] = -9999
        array[14, :4] = -9999
        make_raster(self.folder / "dem.tif", array.astype(np.float32), -9999.0)
        self.words = [word for place in PLACES for word in at(*place)]

    def seen(self, *words):
        """How many observers see each cell, of one run by hand for each."""
        maps = [by_hand(["view", *map(str, one)], self.folder / "dem.tif", 2).astype(int) for one in words]
        return np.where(maps[0] == -9999, -9999, sum(maps))

    def check(self, expected, *words):
        lines = self.make("view", "dem.tif", "out.tif", "--voids", "drain", *self.words, *words)
        np.testing.assert_array_equal(read(self.folder / "out.tif"), expected)
        return lines

    def test_an_eye_for_each(self):
        expected = self.seen(["10,20,4000"], ["25,33,300"], ["4,5,25"])
        self.check(expected, "--eye", "40", "--eye", "3", "--eye", "0.25")
        # The least eye of all is not that of all.
        self.assertFalse(np.array_equal(expected, self.seen(["10,20,25"], ["25,33,25"], ["4,5,25"])))

    def test_one_eye_for_all(self):
        self.check(self.seen(["10,20,300"], ["25,33,300"], ["4,5,300"]), "--eye", "3")

    def test_a_target_for_each(self):
        expected = self.seen(["--target", 0, "10,20,300"], ["--target", 250, "25,33,300"], ["--target", 250, "4,5,300"])
        self.check(expected, "--eye", "3", "--target", "0", "--target", "2.5", "--target", "2.50")

    def test_a_radius_for_each(self):
        expected = self.seen(["--radius", 5, "10,20,300"], ["--radius", 9, "25,33,400"], ["--radius", 5, "4,5,500"])
        lines = self.check(expected, "--eye", "3", "--eye", "4", "--eye", "5", "--radius", "150", "--radius", "299",
                           "--radius", "150")
        self.assertEqual(lines.count("radius 150: 5 whole cells of 30"), 1)
        self.assertIn("radius 299: 9 whole cells of 30", lines)

    def test_others_are_refused(self):
        make_points(self.folder / "masts.gpkg", [centre(10, 20)], fields=["height"])
        for option in ("--eye", "--target", "--radius"):
            words = [option, "30", option, "60", *([] if option == "--eye" else ["--eye", "3"])]
            self.refuse(1, f"{option} is given 2 times for 3 observers by --at", "view", "dem.tif", "out.tif",
                        *self.words, *words)
            self.refuse(1, f"{option} is given 2 times", "view", "dem.tif", "out.tif", *at(10, 20), *words, "--points",
                        "masts.gpkg")
            self.refuse(1, f"{option} is given 2 times", "view", "dem.tif", "out.tif", *words, "--points", "masts.gpkg")

    def test_an_eye_and_a_field(self):
        make_points(self.folder / "masts.gpkg", [(*centre(25, 33), 4.0)], fields=["height"])
        layer = ["--points", "masts.gpkg", "--eye-field", "height"]
        self.refuse(1, "--eye and --eye-field height both say how high", "view", "dem.tif", "out.tif", *layer, "--eye",
                    "3")
        self.refuse(1, "--eye-field height is a field of --points", "view", "dem.tif", "out.tif", *self.words, "--eye",
                    "3", "--eye-field", "height")
        self.words = at(10, 20)
        self.check(self.seen(["10,20,300"], ["25,33,400"]), "--eye", "3", *layer)

    def test_voids_are_no_walls(self):
        make_raster(self.folder / "holed.tif", np.where(np.arange(25).reshape(5, 5) == 12, -9999, 3).astype(np.int16),
                    -9999)
        found = "voids: 1 cell in 1 hole inside the land: --voids fill interpolates, --voids drain "
        self.refuse(2, f"{found}leaves them, and they block no view", "view", "holed.tif", "out.tif", *at(1, 1),
                    "--eye", "3")
        self.refuse(2, f"{found}lets water out", "fill", "holed.tif", "out.tif")

    def test_options_of_one_value_are_given_once(self):
        for words in (["--decimals", "1", "--decimals", "2"], ["--voids", "fill", "--voids", "drain"],
                      ["--window", "0,0,9,9", "--window=0,0,8,8"], ["--eye-field", "a", "--eye-field", "b"]):
            self.refuse(1, f"{words[0]} is given twice: give it once", "view", "dem.tif", "out.tif", *at(2, 2), *words)
        self.refuse(1, "--threshold is given twice", "streams", "dem.tif", "out.tif", "--threshold", "3", "--threshold",
                    "4")


if __name__ == "__main__":
    unittest.main()
