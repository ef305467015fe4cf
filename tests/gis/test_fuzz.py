"""The judge of random rasters and arrays against values by hand, and relief-gis against the judge."""
import os
import pathlib
import subprocess
import sys
import tempfile
import unittest
from fractions import Fraction

import judge
import judge_scene

FUZZ = pathlib.Path(__file__).resolve().parent / "fuzz"
README = [[9, 9, 9, 9], [9, 1, 9, 9], [9, 9, 2, 9], [9, 9, 9, 3]]
# Runs the program, and makes a 7 of the first digit of each map's last value.
WRONG_PROGRAM = r"""#!/bin/bash
set -o pipefail
"$RIGHT_RELIEF" "$@" | sed '$ s/[0-9]\([0-9]*\)$/7\1/'
"""


def land_of(rows):
    """A land of heights in rows; None is no data."""
    return {(row, col): height for row, line in enumerate(rows) for col, height in enumerate(line)
            if height is not None}


def rows_of(values, rows, cols):
    """A map as rows."""
    return [[values.get((row, col)) for col in range(cols)] for row in range(rows)]


class Rules(unittest.TestCase):
    """The judge's maps by hand."""

    def test_maps_of_the_readme(self):
        drainage = judge.Drainage(land_of(README))
        for values, expected in (
                (drainage.filled, [[9, 9, 9, 9], [9, 3, 9, 9], [9, 9, 3, 9], [9, 9, 9, 3]]),
                (drainage.codes, [[2, 4, 8, 0], [1, 2, 4, 8], [128, 1, 2, 4], [0, 128, 1, 0]]),
                (drainage.accumulation(), [[0, 0, 0, 0], [0, 5, 0, 0], [0, 0, 10, 0], [0, 0, 0, 13]]),
                (drainage.basins(), [[3, 3, 3, 1], [3, 3, 3, 3], [3, 3, 3, 3], [2, 3, 3, 3]]),
                (drainage.catchments([(2, 2)]), [[1, 1, 1, 0], [1, 1, 1, 1], [1, 1, 1, 0], [0, 1, 0, 0]])):
            self.assertEqual(rows_of(values, 4, 4), expected)

    def test_sink_keeps_its_water(self):
        drainage = judge.Drainage(land_of(README), [(1, 1)])
        self.assertEqual([drainage.filled[1, 1], drainage.filled[2, 2], drainage.codes[1, 1]], [1, 2, 0])

    def test_sight_past_a_ridge(self):
        # The eye at 1 over a ridge of 1 one cell away sees level ground beyond only from above it.
        land = land_of([[0, 1, 0, 2, 3]])
        self.assertEqual(rows_of(judge.view(land, [((0, 0), 1, 0, None)]), 1, 5), [[1, 1, 0, 1, 1]])
        self.assertEqual(rows_of(judge.view(land, [((0, 0), 1, 0, 3)]), 1, 5), [[1, 1, 0, 1, 0]])

    def test_rise_over_a_crest(self):
        # From 12 over 9 at three quarters of the way: 12 / 4 + 3 h / 4 is 9 where h is 8.
        land = land_of([[10, 0, 0, 9, 0]])
        self.assertEqual(judge.rise(land, [((0, 0), 2, None)]), {(0, 0): 0, (0, 1): 0, (0, 2): 0, (0, 3): 0, (0, 4): 8})
        self.assertEqual(sorted(judge.rise(land, [((0, 0), 2, 2)])), [(0, 0), (0, 1), (0, 2)])
        self.assertEqual(judge.rise(land, []), {})

    def test_sight_between_centres(self):
        # From the first row's west to the last cell the line passes between 0 and 2 one column on: ground 1, line 1/2.
        land = land_of([[0, 0, 0], [0, 2, 0]])
        self.assertEqual(judge.view(land, [((0, 0), 0, 0, None)])[1, 2], 0)
        self.assertEqual(judge.view(land, [((0, 0), 1, 1, None)])[1, 2], 1)

    def test_hole_of_cells_that_touch_by_corners(self):
        rows = [[1, 1, 1, 1, 1], [1, None, 1, 1, 1], [1, 1, None, 1, 1], [1, 1, 1, 1, None], [1, 1, 1, 1, 1]]
        self.assertEqual(judge.holes(land_of(rows), 5, 5), 2)
        rows[0][0] = None
        self.assertEqual(judge.holes(land_of(rows), 5, 5), 0)

    def test_simplest_fractions(self):
        for value, slack, expected in ((30.000000000000004, 3e-8, 30), (1 / 3, 3e-10, Fraction(1, 3)), (0.1, 1e-10,
                                       Fraction(1, 10)), (-500000.33333333331, 1e-9, Fraction(-1500001, 3))):
            self.assertEqual(judge_scene.near(value, Fraction(slack)), expected)


class Fuzz(unittest.TestCase):
    """relief-gis against the judge."""

    def run_fuzz(self, *words, **environment):
        """Status and lines of a run of the fuzz."""
        done = subprocess.run([sys.executable, FUZZ, *words], capture_output=True, text=True,
                              env={**os.environ, **environment})
        return done.returncode, done.stdout + done.stderr

    def test_random_rasters_and_arrays(self):
        status, lines = self.run_fuzz()
        self.assertEqual(status, 0, lines)

    def test_wrong_program_is_found(self):
        right = os.environ.get("RELIEF", str(FUZZ.parents[2] / "relief"))
        with tempfile.TemporaryDirectory() as folder:
            wrong = pathlib.Path(folder, "relief")
            wrong.write_text(WRONG_PROGRAM)
            wrong.chmod(0o755)
            status, lines = self.run_fuzz("--count", "30", "--arrays", "30", RELIEF=str(wrong), RIGHT_RELIEF=right)
        self.assertEqual(status, 1)
        self.assertGreater(lines.count("values, as"), 5)


if __name__ == "__main__":
    unittest.main()
