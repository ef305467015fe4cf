"""Cells downstream of where the data ends: against a walk down each flow path, and what is told and written of them."""
import os
import unittest

import numpy as np

from fixtures import PLACED, Case, at, by_hand, hills, info, make_points, make_raster, read
from relief_gis.edges import uncertain_cells

WAYS = {1: (0, 1), 2: (1, 1), 4: (1, 0), 8: (1, -1), 16: (0, -1), 32: (-1, -1), 64: (-1, 0), 128: (-1, 1)}


def ends_at(valid, row, col):
    """Whether one of the eight places around a cell lies outside or has no data."""
    around = [(row + down, col + right) for down, right in WAYS.values()]
    return not all(0 <= near[0] < valid.shape[0] and 0 <= near[1] < valid.shape[1] and valid[near] for near in around)


def downstream(codes, valid):
    """The definition: the cells of the flow paths that begin where the data ends."""
    found = np.zeros(valid.shape, bool)
    for start in zip(*np.nonzero(valid)):
        cell = start
        while ends_at(valid, *start):
            found[cell] = True
            if int(codes[cell]) not in WAYS:
                break
            down, right = WAYS[int(codes[cell])]
            cell = cell[0] + down, cell[1] + right
    return found


class Cells(unittest.TestCase):
    def test_a_line_through_the_middle(self):
        valid = np.ones((5, 5), bool)
        codes = np.zeros((5, 5), np.uint8)
        # From the west into the middle, and from there to the south; the cells above the middle drain to it.
        codes[2, :2] = 1
        codes[2:4, 2] = 4
        codes[1, 1:4], codes[3, 1], codes[3, 3], codes[2, 3] = 4, 4, 4, 16
        expected = np.ones((5, 5), bool)
        expected[1:4, 1:4] = [[False, False, False], [True, True, False], [False, True, False]]
        codes[1, 1] = codes[1, 3] = 1
        np.testing.assert_array_equal(uncertain_cells(codes, valid), downstream(codes, valid))
        codes[1, 1:4] = 0
        np.testing.assert_array_equal(uncertain_cells(codes, valid), expected)

    def test_a_path_of_all_lengths(self):
        for cells in (1, 2, 3, 4, 7, 8, 9, 31, 32, 33, 200):
            codes = np.zeros((3, cells + 2), np.uint8)
            codes[1, :-1] = 1
            found = uncertain_cells(codes, np.ones(codes.shape, bool))
            self.assertTrue(found.all())
            codes[1, 0] = 0
            found = uncertain_cells(codes, np.ones(codes.shape, bool))
            self.assertEqual(np.count_nonzero(~found), cells)

    def test_no_data_and_one_cell(self):
        none = np.zeros((3, 4), bool)
        self.assertFalse(uncertain_cells(np.full((3, 4), 255, np.uint8), none).any())
        self.assertTrue(uncertain_cells(np.zeros((1, 1), np.uint8), np.ones((1, 1), bool)).all())


class Maps(Case):
    def setUp(self):
        super().setUp()
        self.array = hills(50, 60).astype(np.float32)
        self.array[:8, :9] = -9999
        make_raster(self.folder / "dem.tif", self.array, -9999.0)

    def window(self, left, top, cols, rows):
        """The cells downstream, and the counts, of a window that is cut out by hand."""
        part = self.array[top:top + rows, left:left + cols]
        make_raster(self.folder / "part.tif", part, -9999.0)
        codes, counts = (by_hand([name], self.folder / "part.tif", 2).astype(int) for name in ("flow", "accumulate"))
        return downstream(codes, part != -9999), counts

    def test_told_where_a_part_was_cut_out(self):
        cells, counts = self.window(5, 6, 40, 30)
        count, most = np.count_nonzero(cells), counts[cells].max()
        self.assertGreater(np.count_nonzero(counts >= 0) - count, 100)
        west, north = PLACED[0] + 5 * 30, PLACED[3] - 6 * 30
        bounds = ["--bounds", f"{west},{north - 900},{west + 1200},{north}"]
        begin = f"relief-gis: {count:,} cells lie where the data ends or downstream of it: "
        end = " drain through one of them, and land beyond may too\n"
        for name, words, rest in (("accumulate", [], f"up to {most:,} other cells{end}"),
                                  ("area", [], f"up to {(most + 1) * 900} square units{end}"),
                                  ("streams", ["--threshold", "9"], f"up to {most:,} other cells{end}"),
                                  ("basins", [], "land beyond may drain through them\n")):
            for part in (["--window", "5,6,40,30"], bounds):
                lines = self.make(name, "dem.tif", "out.tif", *part, *words)
                self.assertTrue(lines.endswith(begin + rest), lines)

    def test_not_told_of_a_whole_raster_or_other_maps(self):
        for name in ("accumulate", "area", "basins"):
            for words in ([], ["--window", "0,0,60,50"], ["--bounds", "499000,5000000,600000,5300000"]):
                self.assertNotIn("downstream", self.make(name, "dem.tif", "out.tif", *words))
        for name in ("fill", "flow", "depth"):
            self.assertNotIn("downstream", self.make(name, "dem.tif", "out.tif", "--window", "5,6,40,30"))

    def test_the_map_of_them(self):
        cells, counts = self.window(0, 0, 60, 50)
        valid = self.array != -9999
        expected = np.where(valid, cells, 255)
        options = {"streams": ["--threshold", "9"], "catchments": at(20, 30)}
        for name in ("flow", "accumulate", "area", "streams", "basins", "catchments"):
            words = options.get(name, [])
            lines = self.make(name, "dem.tif", "out.tif", *words, "--uncertain", "cells.tif")
            self.assertIn(f"{np.count_nonzero(cells):,} cells lie where the data ends", lines)
            found = read(self.folder / "cells.tif")
            np.testing.assert_array_equal(found, expected)
            os.remove(self.folder / "cells.tif")
        self.assertGreater(np.count_nonzero(valid & ~cells), 100)

    def test_the_file(self):
        self.make("accumulate", "dem.tif", "out.tif", "--uncertain", "cells.tif")
        made, source = info(self.folder / "cells.tif"), info(self.folder / "dem.tif")
        for key in ("size", "geoTransform", "coordinateSystem"):
            self.assertEqual(made[key], source[key])
        band = made["bands"][0]
        self.assertEqual((band["type"], band["noDataValue"], "colorTable" in band), ("Byte", 255, True))
        self.assertEqual(made["metadata"][""]["RELIEF_COMMAND"],
                         "relief-gis accumulate dem.tif out.tif --uncertain cells.tif")
        self.assertEqual(sorted(os.listdir(self.folder))[:2], ["cells.tif", "dem.tif"])

    def test_sinks_keep_their_water(self):
        pit = np.full((5, 7), 9, np.int16)
        pit[1:4, 1:6] = 6
        pit[2, 2:5] = 5, 4, 3
        make_raster(self.folder / "dem.tif", pit)
        make_points(self.folder / "sinks.gpkg", [(PLACED[0] + 4.5 * 30, PLACED[3] - 2.5 * 30)])
        codes = by_hand(["flow", "2,4"], self.folder / "dem.tif").astype(int)
        expected = downstream(codes, np.ones((5, 7), bool))
        for words in (["accumulate", "--at"], ["basins", "--points"], ["catchments", *at(2, 3), "--sink-at"]):
            place = "sinks.gpkg" if words[-1] == "--points" else at(2, 4)[1]
            self.make(words[0], "dem.tif", "out.tif", *words[1:], place, "--uncertain", "cells.tif")
            np.testing.assert_array_equal(read(self.folder / "cells.tif"), expected)

    def test_targets_that_cannot_be(self):
        run = "accumulate", "dem.tif", "out.tif", "--uncertain"
        self.refuse(4, "no folder", *run, "none/cells.tif")
        self.refuse(1, "give it a name that ends with .tif", *run, "cells.gpkg")
        self.refuse(1, "is the raster that is read", *run, "dem.tif")
        for name in ("fill", "depth", "view"):
            self.refuse(1, "--uncertain", name, "dem.tif", "out.tif", "--uncertain", "cells.tif")

    def test_an_older_file_stays_where_the_run_is_refused(self):
        make_raster(self.folder / "cells.tif", np.full((3, 3), 7, np.uint8))
        before = (self.folder / "cells.tif").read_bytes()
        words = "accumulate", "dem.tif", "out.tif", "--uncertain", "cells.tif", "--at", "0,0"
        self.refuse(2, "lies outside the raster", *words)
        self.assertEqual((self.folder / "cells.tif").read_bytes(), before)
        self.make(*words[:-2])
        self.assertNotEqual((self.folder / "cells.tif").read_bytes(), before)

    def test_two_outputs_of_one_name(self):
        self.refuse(1, "would be written twice", "accumulate", "dem.tif", "out.tif", "--uncertain", "out.tif")


if __name__ == "__main__":
    unittest.main()
