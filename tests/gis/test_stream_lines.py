"""Streams as lines, thresholds and radii with units, and basins above a size, against the judge."""
import collections
import random
import unittest

import numpy as np
from osgeo import ogr

import judge
from fixtures import Case, at, hills, make_raster, nodata_of, read

NODATA = -9999


class Streams(Case):
    def draw(self, chance):
        """A raster of some cells, and its drainage by the judge."""
        rows, cols = chance.randint(2, 16), chance.randint(2, 16)
        array = np.array([[chance.randint(0, 8) + row if chance.randrange(20) else NODATA for _ in range(cols)]
                          for row in range(rows)])
        array[0, 0] = 3
        make_raster(self.folder / "dem.tif", array.astype(np.int16), NODATA)
        return judge.Drainage({(int(row), int(col)): int(array[row, col]) for row, col in np.argwhere(array != NODATA)})

    def lines(self):
        """The features of the layer of lines: fields, and the cells of their vertices."""
        source = ogr.Open(str(self.folder / "lines.gpkg"))
        return [({**feature.items()}, [self.cell(*point[:2]) for point in feature.GetGeometryRef().GetPoints()],
                 feature.GetGeometryRef().Length()) for feature in source.GetLayerByName("streams")]

    @staticmethod
    def cell(x, y):
        col, row = (x - 500015) / 30, (5199985 - y) / 30
        assert col == int(col) and row == int(row)
        return int(row), int(col)

    def test_reaches(self):
        chance = random.Random(31)
        for _ in range(50):
            drainage, threshold = self.draw(chance), chance.randint(0, 6)
            self.make("streams", "dem.tif", "out.tif", "--voids", "drain", "--threshold", threshold, "--lines",
                      "lines.gpkg")
            counts = drainage.accumulation()
            streams = {cell for cell in counts if counts[cell] > threshold}
            below = {cell: drainage.path(cell)[1] for cell in streams if len(drainage.path(cell)) > 1}
            inflows = collections.Counter(below.values())
            found = self.lines()
            # Each step from one cell of a stream to the next lies in one line.
            steps = [step for _, cells, _ in found for step in zip(cells, cells[1:])]
            self.assertEqual(sorted(steps), sorted(below.items()))
            firsts = {cells[0]: fields["number"] for fields, cells, _ in found}
            for fields, cells, length in found:
                self.assertTrue(inflows[cells[0]] != 1 and all(inflows[cell] == 1 for cell in cells[1:-1]))
                self.assertTrue(inflows[cells[-1]] > 1 or cells[-1] not in below)
                self.assertEqual(fields["below"], firsts.get(cells[-1]))
                # What comes to a confluence by another reach does not count, at the stream's end neither.
                own = cells[:-1] if inflows[cells[-1]] > 1 else cells
                self.assertEqual((fields["cells"], fields["first_count"], fields["count"], fields["area"]),
                                 (len(own), counts[cells[0]], counts[own[-1]], (counts[own[-1]] + 1) * 900))
                self.assertAlmostEqual(fields["length"], length)
            self.assertEqual([fields["number"] for fields, *_ in found], list(range(1, len(found) + 1)))

    def test_no_stream(self):
        self.draw(random.Random(32))
        self.make("streams", "dem.tif", "out.tif", "--voids", "drain", "--threshold", 999, "--lines", "lines.gpkg")
        self.assertEqual(self.lines(), [])

    def test_thresholds_as_areas(self):
        make_raster(self.folder / "dem.tif", hills().astype(np.float32))
        self.make("accumulate", "dem.tif", "counts.tif")
        counts = read(self.folder / "counts.tif")
        # 8.1 ha are 90 cells of 900 square metres: more than these are 91.
        for word, least in (("8.1ha", 91), ("8.0999ha", 90), ("81000m2", 91), ("0.081km2", 91), ("0m2", 1), ("90", 91)):
            self.make("streams", "dem.tif", "out.tif", "--threshold", word)
            np.testing.assert_array_equal(read(self.folder / "out.tif"), counts >= least, word)
        for word in ("-1ha", "ha", "8 acres", "1.5"):
            self.refuse(1, "--threshold", "streams", "dem.tif", "more.tif", f"--threshold={word}")
        for word in ("5km", "9m", "5HA", "ten"):
            self.refuse(1, f"{word} is no number of cells, from 0, and no area in m2, ha, km2, as 5ha", "streams",
                        "dem.tif", "more.tif", "--threshold", word)
        make_raster(self.folder / "bare.tif", hills().astype(np.float32), projection="")
        self.refuse(1, "8ha takes a projection, and the raster has none", "streams", "bare.tif", "more.tif",
                    "--threshold", "8ha", "--no-projection")

    def test_radii_with_units(self):
        make_raster(self.folder / "dem.tif", hills().astype(np.float32))
        for word, cells in (("0.3km", 10), ("299.99m", 9), ("300", 10)):
            lines = self.make("view", "dem.tif", "out.tif", *at(9, 9), "--eye", "3", "--radius", word)
            self.assertIn(f": {cells} whole cells of 30", lines)
        # Cells of 100 US survey feet of 1200 / 3937 m: 100 of them are 3048.006 m.
        make_raster(self.folder / "feet.tif", hills().astype(np.float32), placed=(1e6, 100, 0, 2e5, 0, -100),
                    projection="EPSG:2263")
        for word, cells in (("3.0481km", 100), ("3.048km", 99), ("10000", 100)):
            lines = self.make("view", "feet.tif", "out.tif", "--at", "1000500,199500", "--eye", "3", "--radius", word)
            self.assertIn(f": {cells} whole cells of 100", lines)
        self.refuse(1, "the radius 5miles is no number", "view", "dem.tif", "more.tif", *at(9, 9), "--eye", "3",
                    "--radius", "5miles")
        self.refuse(1, "the eye 3m is no number", "view", "dem.tif", "more.tif", *at(9, 9), "--eye", "3m")


class Basins(Streams):
    def test_least(self):
        chance = random.Random(33)
        for _ in range(30):
            drainage, least = self.draw(chance), chance.randint(0, 12)
            lines = self.make("basins", "dem.tif", "out.tif", "--voids", "drain", "--least", least)
            basins = drainage.basins()
            sizes = collections.Counter(basins.values())
            wanted = {cell: basin if sizes[basin] >= least else 0 for cell, basin in basins.items()}
            found = read(self.folder / "out.tif")
            self.assertEqual({cell: int(found[cell]) for cell in wanted}, wanted)
            self.assertEqual(int((found == NODATA).sum()), found.size - len(wanted))
            small = [size for size in sizes.values() if size < least]
            self.assertRegex(lines, fr"\b{len(sizes) - len(small):,} basins? ha(ve|s) at least {least:,} cells?; "
                             fr"{len(small):,} smaller ones? (are|is) 0, with {sum(small):,} cells?\b")
            self.assertEqual(nodata_of(self.folder / "out.tif"), NODATA)


if __name__ == "__main__":
    unittest.main()
