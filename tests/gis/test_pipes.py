"""The pipes between relief-gis and the program, with texts that no pipe holds, and the memory of a run."""
import subprocess
import sys
import time
import unittest

import numpy as np

from fixtures import GIS, RELIEF, Case, environment, make_raster
from relief_gis.errors import Cancelled, InputError, ReliefError
from relief_gis.program import Program

# The text of so many rows and columns is larger than any pipe.
SIDE = 700
HEADER = "ncols {0}\\nnrows {0}\\nxllcorner 0\\nyllcorner 0\\ncellsize 1\\nNODATA_value -9999\\n".format(SIDE)
# Prints the most memory that a run of the command took, without the program's, in KiB. A process's own resource usage
# begins with that of the process that started it.
PEAK = """
import re, sys
from relief_gis.command import main
status = main(sys.argv[1:])
print(re.search(r"VmHWM:\\s*(\\d+) kB", open("/proc/self/status").read())[1])
sys.exit(status)
"""

# What some maps take beside their names.
MORE = {"catchments": ["--at", "500315,5199685"], "accumulate": ["--uncertain", "uncertain.tif"]}


class Pipes(Case):
    """Stand-ins for the program that read or write less than is due."""

    def run_stand_in(self, text, **more):
        """Runs a stand-in that does what a shell text says of a map."""
        path = self.folder / "relief"
        path.write_text("#!/bin/sh\ncase $1 in --version) echo relief 9.9.9;; --help) echo help;; "
                        f"*) {text};; esac\n")
        path.chmod(0o755)
        units = np.arange(SIDE * SIDE, dtype=np.int32).reshape(SIDE, SIDE)
        return Program.find(str(path)).run(["fill"], units, None, **more)

    def test_a_refusal_before_all_was_read(self):
        for before in ("", "head -c 100000 > /dev/null; ", "exec 0<&-; "):
            text = f"{before}echo 'relief: 12 Memory' >&2; exit 3"
            with self.assertRaises(ReliefError, msg=text) as caught:
                self.run_stand_in(text)
            self.assertEqual((caught.exception.number, caught.exception.status), (12, 3))

    def test_a_program_that_reads_nothing_and_is_cancelled(self):
        began = time.monotonic()
        with self.assertRaises(Cancelled):
            self.run_stand_in("exec sleep 60", is_cancelled=lambda: time.monotonic() > began + 1)
        self.assertLess(time.monotonic() - began, 20)

    def test_a_map_that_is_cut_off(self):
        for text, told in ((f"cat > /dev/null; printf '{HEADER}1 2 3\\n'", f"relief wrote 3 values of {SIDE * SIDE}"),
                           (f"printf '{HEADER}1 2 3\\n'; cat > /dev/null", f"relief wrote 3 values of {SIDE * SIDE}"),
                           (f"cat > /dev/null; printf '{HEADER}1 2 3'", "cut off"), ("cat > /dev/null", "no map")):
            with self.assertRaises(InputError, msg=text) as caught:
                self.run_stand_in(text)
            self.assertIn(told, str(caught.exception))

    def test_a_program_that_writes_on_after_a_wrong_word(self):
        for text in ("printf 'x '; yes 1 | head -c 3000000", "yes 1 | head -c 3000000", "head -c 3000000 /dev/zero"):
            with self.assertRaises(InputError, msg=text):
                self.run_stand_in(f"cat > /dev/null; printf '{HEADER}'; {text}")

    def test_a_map_of_all_that_was_read(self):
        rest = self.folder / "rest"
        found = self.run_stand_in(f"tail -n +7 > {rest}; printf '{HEADER}'; cat {rest}", dtype=np.int32)
        np.testing.assert_array_equal(found.ravel(), np.arange(SIDE * SIDE))

    def test_rows_are_given_on_before_the_program_ends(self):
        rest, last = self.folder / "rest", []
        self.run_stand_in(f"tail -n +7 > {rest}; printf '{HEADER}'; cat {rest}; sleep 3", dtype=np.int32,
                          on_rows=lambda rows, row: last.append((row + len(rows), time.monotonic())))
        self.assertEqual(last[-1][0], SIDE)
        self.assertGreater(time.monotonic() - last[-1][1], 1)


class Memory(Case):
    """The most memory of a run for each cell."""

    def peak(self, name, side):
        path = self.folder / f"{side}.tif"
        row, col = np.mgrid[0:side, 0:side]
        make_raster(path, (row * 0.01 + np.sin(col)).astype(np.float32).round(2), -9999.0)
        words = [name, path, self.folder / "out.tif", *MORE.get(name, [])]
        done = subprocess.run([sys.executable, "-c", PEAK, *words], check=True, cwd=self.folder,
                              env=environment(RELIEF, PYTHONPATH=str(GIS)), stdout=subprocess.PIPE,
                              stderr=subprocess.DEVNULL)
        return 1024 * int(done.stdout)

    def test_bytes_for_each_further_cell(self):
        # Python, its modules and buffers need the rest, which is at most 7 bytes a cell of the largest grid.
        small, large = 1500, 3000
        for name, most in (("fill", 14), ("area", 15), ("catchments", 14), ("accumulate", 20)):
            self.assertLess(self.peak(name, large) - self.peak(name, small), most * (large**2 - small**2), name)


if __name__ == "__main__":
    unittest.main()
