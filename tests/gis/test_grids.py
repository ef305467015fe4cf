"""What the functions on arrays take: every type and layout, masks and NODATA values, against `relief` run by hand."""
import os
import subprocess
import unittest
import unittest.mock

import numpy as np

import fixtures
import relief_gis
from fixtures import TOP

TYPES = ("int8", "uint8", "int16", "uint16", "int32", "uint32", "int64", "uint64", "float16", "float32", "float64",
         "longdouble")
NONE = "-99999"


def program(words, cells):
    """What `relief` writes of cells, given as words: rows of words."""
    rows = [" ".join(row) for row in cells]
    text = f"ncols {len(cells[0])}\nnrows {len(cells)}\nxllcorner 0\nyllcorner 0\ncellsize 1\nNODATA_value {NONE}\n"
    done = subprocess.run([fixtures.RELIEF, *words], input=text + "\n".join(rows) + "\n", capture_output=True,
                          text=True, check=True)
    return [line.split() for line in done.stdout.splitlines()[6:]]


def numbers(rows):
    """Rows of words as floats, with NaN where there is no data."""
    return np.array([[np.nan if word in (NONE, "-9999") else float(word) for word in row] for row in rows])


def ground(rows=7, cols=9, seed=3):
    """Heights from 1 to 100 with pits."""
    return np.random.default_rng(seed).integers(1, 101, (rows, cols))


def layouts(array):
    """The array in every layout, by name."""
    rows, cols = array.shape
    wide = np.zeros((2 * rows, 3 * cols), array.dtype)
    wide[::2, ::3] = array
    locked = array.copy()
    locked.flags.writeable = False
    deep = np.zeros((rows, cols, 2), array.dtype)
    deep[..., 1] = array
    return {"C": array, "Fortran": np.asfortranarray(array), "strided": wide[::2, ::3],
            "reversed": np.ascontiguousarray(array[::-1, ::-1])[::-1, ::-1], "read-only": locked,
            "one of several": deep[..., 1], "transposed": np.ascontiguousarray(array.T).T,
            "swapped": array.astype(array.dtype.newbyteorder()), "list": array.tolist()}


class Grids(unittest.TestCase):
    def setUp(self):
        patch = unittest.mock.patch.dict(os.environ, RELIEF=fixtures.RELIEF)
        patch.start()
        self.addCleanup(patch.stop)

    def same(self, found, expected, label=None):
        """Whether values are equal, NaN standing for no data."""
        np.testing.assert_array_equal(np.asarray(found, np.float64), expected, str(label))


class TypesAndLayouts(Grids):
    def test_types_and_layouts(self):
        whole = ground()
        for name in TYPES:
            values = whole.astype(name)
            if values.dtype.kind == "f":
                # Quarters, which each type of floats has.
                values = values + np.array(0.25, name)
            words = [[str(it) if values.dtype.kind in "iu" else f"{float(it):.2f}" for it in row] for row in values]
            scale = ["--scale", "2"] if values.dtype.kind == "f" else []
            filled, counts = (numbers(program([it, *scale], words)) for it in ("fill", "accumulate"))
            for label, heights in layouts(values).items():
                before = np.array(heights)
                found = relief_gis.fill(heights)
                self.same(found, filled, (name, label))
                self.same(relief_gis.accumulate(heights), counts, (name, label))
                np.testing.assert_array_equal(np.array(heights), before)
                is_own = values.dtype.kind in "iu" and label != "list"
                expected = np.asarray(heights).dtype if is_own else np.dtype("float64" if scale else "int64")
                self.assertEqual(found.dtype, expected, (name, label))

    def test_decimals_of_integers(self):
        found = relief_gis.fill(np.array([[9, 9, 9], [9, 1, 9], [9, 9, 5]], np.int8), scale=3)
        self.assertEqual((found.dtype, found[1, 1]), (np.float64, 5.0))

    def test_what_is_no_grid(self):
        heights = ground()
        for array, told in ((np.zeros((0, 3)), "3 columns and 0 rows are not 1 to 4,096 each"),
                            (np.zeros((3, 0)), "0 columns and 3 rows"), (np.zeros(3), "1 dimensions is no grid"),
                            (7, "0 dimensions is no grid"), (np.zeros((2, 3, 4)), "choose one, as heights[0]"),
                            (np.zeros((1, 4097)), "4097 columns"), (heights > 5, "type bool"),
                            (heights.astype(complex), "type complex128"), (heights.astype(object), "type object"),
                            (heights.astype(str), "neither integers nor floats"), ([[1, 2], [3]], "no array"),
                            (None, "type object"), ("dem.tif", "neither integers nor floats"),
                            (np.array([[1.0, np.inf]]), "infinite"), (np.array([[1.0, 1e16]]), "a smaller scale="),
                            (np.array([[2**63]], np.uint64), "by nodata=")):
            with self.assertRaisesRegex(relief_gis.InputError, told.replace("[0]", r"\[0\]")):
                relief_gis.fill(array)

    def test_one_cell_and_no_data_at_all(self):
        self.same(relief_gis.fill(np.array([[5]])), [[5]])
        self.same(relief_gis.fill(np.full((2, 3), np.nan)), np.full((2, 3), np.nan))
        self.same(relief_gis.flow(np.full((2, 3), np.nan)), np.full((2, 3), 255))


class Masks(Grids):
    def setUp(self):
        super().setUp()
        self.heights = ground()
        self.mask = np.random.default_rng(4).random(self.heights.shape) < 0.3
        self.words = [[NONE if hidden else str(it) for it, hidden in zip(*pair)]
                      for pair in zip(self.heights, self.mask)]

    def masked(self, under, dtype=np.float64):
        """The heights as a masked array, with a value under the mask."""
        return np.ma.MaskedArray(np.where(self.mask, under, self.heights).astype(dtype), mask=self.mask)

    def test_what_lies_under_a_mask_has_no_meaning(self):
        expected = {name: numbers(program([name], self.words)) for name in ("fill", "accumulate", "basins")}
        for under in (np.nan, np.inf, -np.inf, -9999, 0, 50, 1e300):
            heights = self.masked(under)
            for name, values in expected.items():
                found = getattr(relief_gis, name)(heights)
                self.assertIsInstance(found, np.ma.MaskedArray)
                np.testing.assert_array_equal(np.ma.getmaskarray(found), self.mask)
                self.same(found.filled(-9999), np.nan_to_num(values, nan=-9999), (name, under))
                self.same(found.filled()[self.mask], np.full(self.mask.sum(), found.fill_value), (name, under))

    def test_each_map(self):
        row, col = np.argwhere(~self.mask)[20]
        place = f"{row},{col}"
        plain = np.where(self.mask, np.nan, self.heights)
        for name, words, more, nodata in (("flow", [], {}, 255),
                                          ("catchments", [place], {"gauges": [(row, col)]}, -9999),
                                          ("view", [place + ",2"], {"observers": [(row, col, 2)]}, -9999)):
            found = getattr(relief_gis, name)(self.masked(np.inf, "float32"), scale=0, **more)
            expected = numbers(program([name, *words], self.words))
            np.testing.assert_array_equal(np.ma.getmaskarray(found), self.mask)
            self.same(found.filled(nodata)[~self.mask], expected[~self.mask], name)
            self.assertEqual(found.fill_value, nodata)
            # Without a mask comes an array.
            found = getattr(relief_gis, name)(plain, scale=0, **more)
            self.assertIs(type(found), np.ndarray)
            self.assertTrue(np.all(found[self.mask] == nodata))

    def test_mask_nodata_and_nan_together(self):
        heights = self.masked(7.0)
        free = np.argwhere(~self.mask)
        heights[tuple(free[5])], heights[tuple(free[11])] = -1, np.nan
        words = [list(row) for row in self.words]
        for row, col in free[[5, 11]]:
            words[row][col] = NONE
        found = relief_gis.fill(heights, nodata=-1)
        self.same(found.filled(np.nan), numbers(program(["fill"], words)))

    def test_fill_value_is_no_height(self):
        heights = np.ma.MaskedArray(np.array([[9, 9, 9], [9, 1, 9], [9, 9, 63]], np.int8), fill_value=9)
        heights[0, 0] = np.ma.masked
        found = relief_gis.fill(heights)
        self.assertEqual(found.dtype, np.int8)
        self.assertNotIn(found.fill_value, (9, 63))
        self.assertEqual(found.filled()[0, 0], found.fill_value)
        own = np.ma.masked_equal(np.array([[5, 5], [5, -32768]], np.int16), -32768)
        self.assertEqual(relief_gis.fill(own).fill_value, -32768)

    def test_a_mask_that_is_never_set(self):
        found = relief_gis.fill(np.ma.MaskedArray([[1, 2], [3, 4]]))
        self.assertEqual(np.ma.getmaskarray(found).tolist(), [[False, False], [False, False]])

    def test_the_example_with_its_holes(self):
        with open(TOP / "examples" / "hills.asc") as file:
            rows = [line.split() for line in file]
        cells = [[NONE if word == "-9999" else word for word in row] for row in rows[6:]]
        heights = np.array(rows[6:], int)
        for name in ("fill", "accumulate"):
            found = getattr(relief_gis, name)(np.ma.masked_equal(heights, -9999))
            expected = numbers(program([name], cells))
            self.assertGreater(int(found.mask.sum()), 0)
            np.testing.assert_array_equal(found.mask, heights == -9999)
            self.same(found[~found.mask].data, expected[~found.mask], name)


class NoData(Grids):
    def test_a_value_is_rounded_to_the_type_of_floats(self):
        heights = np.array([[1, 2, 3], [4, 0.1, 6], [7, 8, 9]])
        lowest = float(np.finfo(np.float32).min)
        for dtype, inner, values in (("float32", 0.1, (0.1, np.float64(0.1), np.float32(0.1))),
                                     ("float32", -3.4e38, (-3.4e38, np.float64(-3.4e38))),
                                     ("float32", lowest, (lowest, -3.4028235e38, np.finfo(np.float32).min)),
                                     ("float16", -9999, (-9999, -9999.0, np.int64(-9999))),
                                     ("float16", -np.inf, (-99999,)), ("float64", 0.1, (0.1,)),
                                     ("longdouble", 0.1, (0.1,)), ("float64", -np.inf, (-np.inf,))):
            array = heights.copy().astype(dtype)
            array[1, 1] = inner
            for nodata in values:
                found = relief_gis.accumulate(array, nodata=nodata)
                self.assertEqual(np.argwhere(found == -9999).tolist(), [[1, 1]], (dtype, nodata))

    def test_integers(self):
        for dtype, inner, values in (("int16", -9999, (-9999, -9999.0, np.float32(-9999))),
                                     ("uint64", 2**64 - 1, (2**64 - 1, float(2**64 - 1), np.uint64(2**64 - 1))),
                                     ("int64", -2**63, (-2**63, -2.0**63)), ("uint8", 255, (255, 255.0))):
            array = np.array([[1, 2, 3], [4, 5, 6], [7, 8, 9]], dtype)
            array[1, 1] = inner
            for nodata in values:
                found = relief_gis.accumulate(array, nodata=nodata)
                self.assertEqual(np.argwhere(found == -9999).tolist(), [[1, 1]], (dtype, nodata))

    def test_a_value_that_the_type_cannot_have(self):
        array = np.array([[1, 2], [255, 0]], np.uint8)
        for nodata in (-9999, 256, 511, 0.5, 1e300, np.nan, np.inf):
            self.assertFalse(np.any(relief_gis.accumulate(array, nodata=nodata) == -9999), nodata)

    def test_refused(self):
        for nodata in ("0", True, [0], "none"):
            with self.assertRaisesRegex(relief_gis.InputError, "nodata=.* is no number"):
                relief_gis.fill(np.zeros((2, 2)), nodata=nodata)


if __name__ == "__main__":
    unittest.main()
