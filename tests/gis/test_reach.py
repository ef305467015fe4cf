"""Views within a radius, of which the program gets the part that can be seen, against the program on the whole grid."""
import unittest

import numpy as np

from fixtures import RELIEF
from relief_gis.errors import ReliefError
from relief_gis.heights import heights_of
from relief_gis.making import Place, Request, make
from relief_gis.program import Program


class Reach(unittest.TestCase):
    def setUp(self):
        self.program = Program.find(RELIEF)
        self.random = np.random.default_rng(11)

    def request(self, heights, count, radius):
        rows, cols = np.nonzero(heights.valid)
        chosen = self.random.integers(0, len(rows), count)
        places = [Place(f"mast {at}", int(rows[it]), int(cols[it]), int(self.random.integers(0, 9)))
                  for at, it in enumerate(chosen)]
        return Request("view", places, target=int(self.random.integers(0, 4)), radius=radius)

    def test_random_grids(self):
        for _ in range(60):
            shape = tuple(self.random.integers(1, 40, 2))
            valid = self.random.random(shape) < self.random.choice([0.6, 1.0])
            valid[0, 0] = True
            heights = heights_of(self.random.integers(-9, 9, shape), valid, 0)
            request = self.request(heights, int(self.random.integers(1, 4)), int(self.random.integers(1, 30)))
            whole = self.program.run(request.words(), heights.units, heights.valid)
            np.testing.assert_array_equal(make(request, heights, self.program), whole, str(request))

    def test_places_that_are_refused(self):
        heights = heights_of(np.zeros((9, 9), int), np.arange(81).reshape(9, 9) != 40, 0)
        for row, col, number in ((9, 0, 41), (0, 9, 41), (4, 4, 42)):
            places = [Place("mast 0", 1, 1, 3), Place("mast 1", row, col, 3)]
            with self.assertRaises(ReliefError) as caught:
                make(Request("view", places, radius=2), heights, self.program)
            self.assertEqual((caught.exception.number, caught.exception.place), (number, 1))
            self.assertIn("mast 1", str(caught.exception))


if __name__ == "__main__":
    unittest.main()
