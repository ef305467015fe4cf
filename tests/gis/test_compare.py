"""`compare`: maps of the judge, written as other programs would and then spoiled, against what the judge says."""
import contextlib
import io
import random
import unittest

import numpy as np

import judge
from fixtures import PLACED, RELIEF, Case, at, centre, make_raster, read
import relief_gis

NODATA = -9999
# The numbers of E, SE, S, SW, W, NW, N, NE, and of an outlet, as the manuals of the programs have them.
WAYS = (1, 2, 4, 8, 16, 32, 64, 128)
MANUALS = {"arcgis": ((1, 2, 4, 8, 16, 32, 64, 128), 0), "grass": ((8, 7, 6, 5, 4, 3, 2, 1), 0),
           "saga": ((2, 3, 4, 5, 6, 7, 0, 1), -1), "taudem": ((1, 8, 7, 6, 5, 4, 3, 2), 0),
           "whitebox": ((2, 4, 8, 16, 32, 64, 128, 1), 0),
           "degrees": ((360, 315, 270, 225, 180, 135, 90, 45), 0), "agnps": ((3, 4, 5, 6, 7, 8, 1, 2), 0)}
KINDS = ("the direction of the definition", "another one of equals",
         "neither the steepest nor the shortest over a flat", "numbers that are no codes of", "on paths that never end")


class Compare(Case):
    def draw(self, chance):
        """A raster of some cells, and its drainage by the judge."""
        rows, cols = chance.randint(2, 12), chance.randint(2, 12)
        array = np.array([[chance.randint(0, 5) if chance.randrange(14) else NODATA for _ in range(cols)]
                          for _ in range(rows)])
        array[0, 0] = 3
        make_raster(self.folder / "dem.tif", array.astype(np.int32), NODATA)
        land = {(int(row), int(col)): int(array[row, col]) for row, col in np.argwhere(array != NODATA)}
        self.shape = array.shape
        return judge.Drainage(land)

    def write(self, values, dtype=np.int32):
        """Writes a map of another program, a dict from cell to value."""
        array = np.full(self.shape, NODATA, dtype)
        for cell, value in values.items():
            array[cell] = value
        make_raster(self.folder / "other.tif", array, NODATA)

    def tell(self, name, *words):
        """The lines of the answer."""
        out = io.StringIO()
        with contextlib.redirect_stdout(out):
            self.make("compare", "dem.tif", "other.tif", "--map", name, "--voids", "drain", *words)
        return out.getvalue().splitlines()

    def counts(self, lines, kinds):
        """The numbers before some words."""
        found = {line.partition(" ")[2]: int(line.split()[0].replace(",", "")) for line in lines
                 if line[0].isdigit()}
        return [next(count for words, count in found.items() if words.startswith(kind)) for kind in kinds]

    def kind_of(self, drainage, cell, code, codes):
        """The place in KINDS of a direction, by the rules one by one."""
        path, here = set(), cell
        while codes[here] in WAYS and here not in path:
            path.add(here)
            step = judge.WAYS[codes[here]]
            following = here[0] + step[0], here[1] + step[1]
            if following not in drainage.land:
                break
            here = following
        if here in path and codes[here] in WAYS and (here[0] + judge.WAYS[codes[here]][0],
                                                     here[1] + judge.WAYS[codes[here]][1]) in drainage.land:
            return 4
        if code == drainage.codes[cell]:
            return 0
        near, level = drainage.near[cell], drainage.filled[cell]
        if code not in near:
            # Out of the data, which is an outlet's way.
            return 0 if drainage.codes[cell] == 0 else 2
        if any(drainage.filled[place] < level for place in near.values()):
            weights = {way: judge.weight(way, level - drainage.filled[place]) for way, place in near.items()
                       if drainage.filled[place] < level}
            return 1 if weights.get(code) == max(weights.values()) else 2
        if cell in drainage.ends:
            return 2
        place = near[code]
        return 1 if drainage.filled[place] == level and drainage.steps[place] == drainage.steps[cell] - 1 else 2

    def test_directions(self):
        chance = random.Random(21)
        seen = [0] * len(KINDS)
        for number in range(110):
            drainage = self.draw(chance)
            program = chance.choice(sorted(MANUALS))
            ways, outlet = MANUALS[program]
            codes = dict(drainage.codes)
            for cell in codes:
                if chance.randrange(4) == 0:
                    codes[cell] = chance.choice(WAYS)
            wanted = [self.kind_of(drainage, cell, codes[cell], codes) for cell in sorted(codes)]
            theirs = {cell: ways[WAYS.index(code)] if code else outlet for cell, code in codes.items()}
            if program == "grass":
                theirs = {cell: -value if chance.randrange(3) == 0 else value for cell, value in theirs.items()}
            self.write(theirs)
            lines = self.tell("flow", "--codes", program, "--out", "kinds.tif")
            self.assertEqual(lines[0], f"{len(codes)} cells compared")
            self.assertEqual(self.counts(lines, KINDS), [wanted.count(kind) for kind in range(5)], (number, program))
            kinds = read(self.folder / "kinds.tif")
            self.assertEqual([int(kinds[cell]) for cell in sorted(codes)], wanted)
            seen = [before + wanted.count(kind) for kind, before in enumerate(seen)]
        self.assertTrue(seen[0] and seen[1] and seen[2] and seen[4], seen)

    def test_no_codes(self):
        drainage = self.draw(random.Random(22))
        self.write({**drainage.codes, (0, 0): 3})
        # The way of the cell is no way, and others may lead to it.
        self.assertEqual(self.counts(self.tell("flow"), KINDS[3:4]), [1])
        self.write({cell: 77 for cell in drainage.codes})
        self.refuse(1, "most numbers of other.tif are no codes of arcgis: give --codes arcgis|grass|saga", "compare",
                    "dem.tif", "other.tif", "--map", "flow", "--voids", "drain")

    def test_heights(self):
        chance = random.Random(23)
        for _ in range(20):
            drainage = self.draw(chance)
            changes = {cell: chance.choice((0, 0, 0, 0.4, -0.4, 1, 2.5, -3)) for cell in drainage.land}
            self.write({cell: drainage.filled[cell] + change for cell, change in changes.items()}, np.float32)
            lines = self.tell("fill", "--out", "differences.tif")
            for kind, cells in (("equal within half a unit of 1", [it for it in changes.values() if abs(it) < 0.5]),
                                ("above, by at most", [it for it in changes.values() if it >= 0.5]),
                                ("below, by at most", [-it for it in changes.values() if it <= -0.5])):
                if cells or kind.startswith("equal"):
                    self.assertEqual(self.counts(lines, [kind]), [len(cells)])
                if cells and not kind.startswith("equal"):
                    self.assertIn(f"{kind} {max(cells):g}, at", "\n".join(lines))
            found = read(self.folder / "differences.tif")
            for cell, change in changes.items():
                self.assertAlmostEqual(found[cell], change, places=5)

    def test_accumulations(self):
        chance = random.Random(24)
        for own in (0, 1):
            drainage = self.draw(chance)
            counts = drainage.accumulation()
            changed = {cell: count + own for cell, count in counts.items()}
            changed[0, 0] += 7
            self.write(changed)
            lines = self.tell("accumulate")
            told = "the other map counts the cell itself: 1 is taken off each of its counts"
            self.assertEqual(told in lines, own == 1)
            self.assertEqual(self.counts(lines, ["equal", "above, by at most 7 cells, at 500015,5199985"]),
                             [len(counts) - 1, 1])
            # GRASS marks cells by a minus.
            marked = [cell for cell, count in changed.items() if count and chance.randrange(3) == 0]
            self.write({cell: -count if cell in marked else count for cell, count in changed.items()})
            lines = self.tell("accumulate")
            self.assertEqual(self.counts(lines, ["counts have a minus", "equal"]), [len(marked), len(counts) - 1])

    def test_basins(self):
        chance = random.Random(25)
        for _ in range(20):
            drainage = self.draw(chance)
            basins = drainage.basins()
            numbers = sorted(set(basins.values()))
            names = dict(zip(numbers, chance.sample(range(1000), len(numbers))))
            self.write({cell: names[number] for cell, number in basins.items()})
            self.assertIn(f"{len(numbers)} basins of the same cells, of {len(numbers)} by the definition and "
                          f"{len(numbers)} of the other map", self.tell("basins"))
            if len(numbers) > 1:
                # Two basins become one.
                names[numbers[0]] = names[numbers[1]]
                joined = sum(number in numbers[:2] for number in basins.values())
                self.write({cell: names[number] for cell, number in basins.items()})
                self.assertEqual(self.tell("basins")[1:], [
                    f"{len(numbers) - 2} basins of the same cells, of {len(numbers)} by the definition and "
                    f"{len(numbers) - 1} of the other map",
                    f"{len(basins) - joined} cells in them, {joined} in others"])

    def test_arrays(self):
        """What Python tells is what the command tells, with cells as row,column."""
        chance = random.Random(27)
        for number in range(12):
            drainage = self.draw(chance)
            for name, values in (("fill", drainage.filled), ("flow", drainage.codes), ("basins", drainage.basins()),
                                 ("accumulate", drainage.accumulation())):
                changed = {cell: chance.choice(WAYS) if name == "flow" and chance.randrange(3) == 0 else
                           value + (name != "flow" and chance.randrange(5) == 0) for cell, value in values.items()}
                self.write({cell: value for cell, value in changed.items() if chance.randrange(20)})
                lines = self.tell(name, "--out", "kinds.tif")
                heights, other = read(self.folder / "dem.tif"), read(self.folder / "other.tif")
                found = relief_gis.compare(heights, other, name, NODATA, other_nodata=NODATA,
                                           program=relief_gis.Program.find(RELIEF))
                self.assertEqual([line.split(", at ")[0] for line in found.lines],
                                 [line.split(", at ")[0] for line in lines], (number, name))
                for ours, theirs in zip(found.lines, lines):
                    if ", at " in theirs:
                        row, col = ours.split(", at ")[1].split(",")
                        self.assertEqual(theirs.split(", at ")[1], "{:g},{:.7g}".format(*centre(int(row), int(col))))
                np.testing.assert_array_equal(found.cells, read(self.folder / "kinds.tif"))
                self.assertEqual(found.cells.dtype, np.uint8 if name in ("flow", "basins") else np.float64)

    def test_refused_arrays(self):
        grid = np.arange(12).reshape(3, 4)
        for error, told, arguments, more in (
                (relief_gis.UsageError, "map='view' is none of fill, flow", (grid, grid, "view"), {}),
                (relief_gis.UsageError, "codes='x' is none of arcgis", (grid, grid, "flow"), {"codes": "x"}),
                (relief_gis.UsageError, "most numbers of the other map are no codes of arcgis: choose others by codes=",
                 (grid, grid * 0 + 77, "flow"), {}),
                (relief_gis.InputError, "other has the shape (4, 3)", (grid, grid.T, "fill"), {}),
                (relief_gis.InputError, "other_nodata='x' is no number", (grid, grid, "fill"), {"other_nodata": "x"}),
                (relief_gis.InputError, "the other map has no data where", (grid, grid * np.nan, "fill"), {}),
                (relief_gis.InputError, "other are no array", (grid, [[1], [2, 3]], "fill"), {})):
            with self.assertRaises(error, msg=told) as caught:
                relief_gis.compare(*arguments, program=relief_gis.Program.find(RELIEF), **more)
            self.assertIn(told, str(caught.exception))

    def test_other_cells(self):
        drainage = self.draw(random.Random(26))
        compare = ["compare", "dem.tif", "other.tif", "--map", "fill", "--voids", "drain"]
        array = np.zeros(self.shape, np.float32)
        for placed in ((*PLACED[:3], PLACED[3] + 30, *PLACED[4:]), (500000, 29.9, 0, 5200000, 0, -29.9)):
            make_raster(self.folder / "other.tif", array, placed=placed)
            self.refuse(2, "other.tif has other cells than dem.tif", *compare)
        make_raster(self.folder / "other.tif", np.zeros((30, 30), np.float32))
        self.refuse(2, "other.tif has other cells than dem.tif: 30 by 30 of 30 from 500000,5200000", *compare)
        make_raster(self.folder / "other.tif", np.full(self.shape, NODATA, np.float32), NODATA)
        self.refuse(2, "other.tif has no data where dem.tif has", *compare)
        self.write({cell: height for cell, height in drainage.filled.items() if cell != (0, 0)})
        self.assertIn("1 cell has heights, and no data in the other map", self.tell("fill"))
        self.refuse(1, "other.tif is the other map that is read", *compare, "--out", "other.tif")
        make_raster(self.folder / "other.tif", array, projection="EPSG:25833")
        with contextlib.redirect_stdout(io.StringIO()):
            self.assertIn("other.tif names another projection than dem.tif", self.make(*compare))

    def test_sinks(self):
        array = np.array([[9, 9, 9, 9, 9], [9, 5, 4, 5, 9], [9, 5, 1, 5, 9], [9, 9, 9, 8, 9]])
        make_raster(self.folder / "dem.tif", array.astype(np.int16))
        self.shape = array.shape
        land = {(int(row), int(col)): int(height) for (row, col), height in np.ndenumerate(array)}
        self.write(judge.Drainage(land, [(2, 2)]).filled)
        self.assertEqual(self.counts(self.tell("fill", *at(2, 2)), ["equal"]), [20])
        self.assertLess(self.counts(self.tell("fill"), ["equal"])[0], 20)


if __name__ == "__main__":
    unittest.main()
