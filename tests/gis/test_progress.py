"""How far a run is: lines, a bar on a terminal, and what is said meanwhile."""
import os
import pty
import re
import subprocess
import sys
import unittest

import numpy as np

from fixtures import GIS, RELIEF, Case, at, environment, hills, make_raster, read
from relief_gis.errors import ReliefError
from relief_gis.heights import heights_of
from relief_gis.making import Place, Request, make
from relief_gis.program import Program

LINE = re.compile(r"relief-gis: (\w+), stage (\d+): (\d+) %")
# Says a map's progress as `relief` does, and copies the grid: the fill of a grid without pits.
STAND_IN = """#!/bin/sh
case $1 in --version) echo relief 9.9.9; exit;; --help) echo '  catchments  gauges'; exit;; esac
for stage in 1 2; do for part in 50 100; do echo "relief: stage $stage: $part %" >&2; sleep 0.2; done; done
[ "$2" = --progress ] || exit 9
"""


class ProgressCase(Case):
    """A raster, and a stand-in for the program."""

    def setUp(self):
        super().setUp()
        make_raster(self.folder / "dem.tif", hills().astype(np.float32))

    def program(self, rest):
        path = self.folder / "relief"
        path.write_text(STAND_IN + rest + "\n")
        path.chmod(0o755)
        return str(path)

    def steps(self, lines):
        """The map, stage and percent of each line, which have to grow from stage to stage."""
        steps = [(found[1], int(found[2]), int(found[3])) for found in map(LINE.fullmatch, lines) if found]
        for name in {name for name, _, _ in steps}:
            of_map = [step[1:] for step in steps if step[0] == name]
            self.assertEqual(of_map, sorted(of_map))
            stages = [stage for stage, _ in of_map]
            self.assertEqual(sorted(set(stages)), list(range(1, stages[-1] + 1)))
            for stage in set(stages):
                self.assertEqual(max(percent for it, percent in of_map if it == stage), 100)
        return steps


class Lines(ProgressCase):
    """Lines where no terminal is."""

    def test_each_map_by_the_program(self):
        gauge = at(20, 30)
        for name, words in (("fill", []), ("flow", []), ("accumulate", []), ("basins", []), ("area", []),
                            ("view", [*gauge, "--eye", "3"]), ("catchments", [*gauge, "--workers", "3"])):
            quiet = self.make(name, "dem.tif", "quiet.tif", *words)
            lines = self.make(name, "dem.tif", "out.tif", *words, "--progress").splitlines()
            steps = self.steps(lines)
            self.assertGreater(len(steps), 0, name)
            self.assertEqual([line for line in lines if not LINE.fullmatch(line)], quiet.splitlines())
            np.testing.assert_array_equal(read(self.folder / "out.tif"), read(self.folder / "quiet.tif"))

    def test_both_runs_of_a_gauge_that_moves(self):
        lines = self.make("catchments", "dem.tif", "out.tif", *at(20, 30), "--snap", "2", "--progress").splitlines()
        maps = [step[0] for step in self.steps(lines)]
        self.assertEqual(sorted(set(maps), key=maps.index), ["accumulate", "catchments"])

    def test_a_refusal_among_the_lines(self):
        program = self.program("echo 'relief: 12 Memory' >&2; exit 3")
        lines = self.refuse(3, "relief: 12 Memory: out of memory", "fill", "dem.tif", "out.tif", "--progress",
                            program=program)
        self.assertEqual(len(self.steps(lines.splitlines())), 4)
        self.assertEqual(len(lines.splitlines()), 5)

    def test_an_older_program(self):
        program = self.folder / "relief"
        program.write_text("#!/bin/sh\ncase $1 in --version) echo relief 0.1.0;; --help) echo '  fill  heights';;\n"
                           f"*) exec {RELIEF} \"$@\";; esac\n")
        program.chmod(0o755)
        lines = self.make("fill", "dem.tif", "out.tif", "--progress", program=str(program))
        self.assertEqual(lines, "relief-gis: relief 0.1.0 reports no progress\n")

    def test_in_python(self):
        steps = []
        heights = heights_of(np.rint(hills(200, 200)).astype(int), np.ones((200, 200), bool), 0)
        request = Request("view", [Place("mast", 100, 100, 3)], tile=32)
        make(request, heights, Program.find(RELIEF), steps.append)
        self.assertEqual({step.map for step in steps}, {"view"})
        last = {step.stage: step.share for step in steps}
        self.assertEqual(set(last.values()), {1.0})
        self.assertEqual([step.stage for step in steps], sorted(step.stage for step in steps))


    def test_each_percent_in_python(self):
        heights = heights_of(np.rint(hills(700, 700)).astype(int), np.ones((700, 700), bool), 0)
        places = [Place("mast", 30 * at, 33 * at, 30) for at in range(20)] * 4
        found = []
        for by_percent in (False, True):
            steps = []
            found.append(make(Request("view", places), heights, Program.find(RELIEF), steps.append,
                              by_percent=by_percent))
            self.assertEqual(steps, sorted(steps, key=lambda step: (step.stage, step.share)))
            last = {step.share for step in steps if step.stage == steps[-1].stage}
            self.assertEqual(len(last) > 10, by_percent)
        np.testing.assert_array_equal(*found)
        with self.assertRaises(ReliefError) as caught:
            make(Request("view", [Place("mast", 700, 0, 30)]), heights, Program.find(RELIEF), steps.append,
                 by_percent=True)
        self.assertEqual((caught.exception.number, caught.exception.place), (41, 0))


class Terminal(ProgressCase):
    """A bar on a terminal, which leaves nothing behind."""

    def on_terminal(self, *words, program, columns=80):
        """Runs the command on a terminal; its status and what the terminal got."""
        leader, follower = pty.openpty()
        done = subprocess.Popen([sys.executable, str(GIS / "relief-gis"), *words], cwd=self.folder, stderr=follower,
                                env=environment(program, COLUMNS=str(columns)))
        os.close(follower)
        got = b""
        while True:
            try:
                part = os.read(leader, 4096)
            except OSError:
                part = b""
            if not part:
                break
            got += part
        os.close(leader)
        return done.wait(60), got.decode()

    def shown(self, text):
        """What is left on a terminal of a text with carriage returns, line by line."""
        lines = []
        for line in text.replace("\r\n", "\n").split("\n"):
            cells = []
            for part in line.split("\r"):
                cells[:len(part)] = part
            lines.append("".join(cells).rstrip())
        return lines

    def test_a_bar_that_is_cleared(self):
        status, got = self.on_terminal("fill", "dem.tif", "out.tif", "--progress",
                                       program=self.program(f"exec {RELIEF} \"$@\" 2> /dev/null"))
        self.assertEqual(status, 0, got)
        self.assertIn("fill, stage 1 " + "#" * 20 + "." * 20 + "  50%", got)
        self.assertIn("fill, stage 2 " + "#" * 40 + " 100%", got)
        self.assertEqual(self.shown(got), [""])

    def test_a_narrow_terminal(self):
        _, got = self.on_terminal("fill", "dem.tif", "out.tif", "--progress", columns=30,
                                  program=self.program(f"exec {RELIEF} \"$@\" 2> /dev/null"))
        self.assertIn("fill, stage 2 #", got)
        self.assertTrue(all(len(part) < 30 for part in got.split("\r")), got)

    def test_lines_stand_alone(self):
        status, got = self.on_terminal("catchments", "dem.tif", "out.tif", *at(20, 30), "--snap", "1", "--progress",
                                       program=self.program("echo 'relief: 12 Memory' >&2; exit 3"))
        self.assertEqual(status, 3)
        line = "relief-gis: relief: 12 Memory: out of memory: take a smaller grid, or free some memory"
        self.assertEqual(self.shown(got), [line, ""])


if __name__ == "__main__":
    unittest.main()
