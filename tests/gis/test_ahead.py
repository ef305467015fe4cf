"""Runs that go ahead of the check of their land: what the check says and refuses comes first, and no map is left."""
import time
import unittest
import unittest.mock

import numpy as np

from fixtures import Case, hills, make_raster, read
from relief_gis.errors import InputError


class Ahead(Case):
    def setUp(self):
        super().setUp()
        self.heights = hills(300, 300, decimals=4).astype(np.float32)
        make_raster(self.folder / "dem.tif", self.heights, -9999.0)

    def slow(self, seconds=0.5, error=None):
        """A check that takes its time, says a line and may refuse."""
        def check(terrain, job, say):
            time.sleep(seconds)
            say("the check's line")
            if error is not None:
                raise error
            return terrain

        patch = unittest.mock.patch("relief_gis.job.checked", check)
        patch.start()
        self.addCleanup(patch.stop)

    def stand_in(self, text):
        """A stand-in for `relief` that does what a shell text says of a map."""
        path = self.folder / "relief"
        path.write_text("#!/bin/sh\ncase $1 in --version) echo relief 9.9.9;; --help) echo ' catchments ';; "
                        f"*) {text};; esac\n")
        path.chmod(0o755)
        return str(path)

    def test_lines_keep_their_order(self):
        self.make("fill", "dem.tif", "expected.tif")
        self.slow()
        lines = self.make("fill", "dem.tif", "out.tif", "--progress").splitlines()
        self.assertEqual(lines[0], "relief-gis: the check's line")
        self.assertRegex(lines[1], r"^relief-gis: heights rounded to 0\.01, by at most 0\.005")
        self.assertRegex(lines[2], "^relief-gis: fill, stage 1: ")
        np.testing.assert_array_equal(read(self.folder / "out.tif"), read(self.folder / "expected.tif"))

    def test_a_refusal_ends_the_program(self):
        self.slow(1, InputError("voids: the check refuses"))
        program = self.stand_in("exec sleep 60")
        began = time.monotonic()
        lines = self.refuse(2, "voids: the check refuses", "fill", "dem.tif", "out.tif", program=program)
        self.assertLess(time.monotonic() - began, 20)
        self.assertNotIn("rounded", lines)

    def test_the_first_refusal_counts(self):
        self.heights[3, 3] = np.inf
        make_raster(self.folder / "dem.tif", self.heights, -9999.0)
        self.refuse(2, "a height is infinite", "fill", "dem.tif", "out.tif")
        self.slow(0.3, InputError("voids: the check refuses"))
        self.refuse(2, "voids: the check refuses", "fill", "dem.tif", "out.tif")

    def test_lines_before_a_refusal_of_the_program(self):
        self.slow(0.3)
        lines = self.refuse(3, "relief: 12 Memory", "fill", "dem.tif", "out.tif",
                            program=self.stand_in("echo 'relief: 12 Memory' >&2; exit 3"))
        self.assertEqual(lines.splitlines()[0], "relief-gis: the check's line")
        self.assertIn("rounded", lines.splitlines()[1])

    def test_a_map_that_breaks_off_is_no_map(self):
        head = "'ncols 300\\nnrows 300\\nxllcorner 0\\nyllcorner 0\\ncellsize 1\\nNODATA_value -9999\\n'"
        row = "for n in $(seq 270); do yes 7 | head -n 300 | paste -sd ' '; done"
        for end in ("exit 2", "kill -9 $$", "exit 0"):
            with self.subTest(end):
                program = self.stand_in(f"cat > /dev/null; printf {head}; {row}; {end}")
                self.refuse(3 if "kill" in end else 2, "relief", "fill", "dem.tif", "out.tif", program=program)


if __name__ == "__main__":
    unittest.main()
