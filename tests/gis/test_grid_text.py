"""The grid text from and to arrays, against plain Python."""
import io
import os
import subprocess
import tempfile
import unittest
import unittest.mock

import numpy as np

from fixtures import RELIEF, hills
from relief_gis.errors import InputError
from relief_gis import grid_text
from relief_gis.grid_text import DIGITS, HEADER_LINES, Wanted, offset_of, read_grid, read_grids, write_grid
from relief_gis.heights import Heights

HEADER = "ncols {1}\nnrows {0}\nxllcorner 0\nyllcorner 0\ncellsize 1\nNODATA_value -9999\n"
MOST = 10**15
# Rows and columns: single cells, rows and columns, several blocks and pieces of text.
SHAPES = ((1, 1), (1, 700), (700, 1), (3, 4096), (40, 33), (500, 150))


def of_units(units, valid=None):
    """Heights in units; where no cells are given, all have data."""
    return Heights.of_units(units, np.ones(units.shape, bool) if valid is None else valid, 0)


def written(units, valid=None):
    """Of the text of an array the words of its header's values, and the numbers of NODATA and of the cells in units."""
    file, heights = io.BytesIO(), of_units(units, valid)
    write_grid(heights, file)
    words = file.getvalue().decode().split()
    numbers = [int(word) - offset_of(heights) for word in words[2 * HEADER_LINES - 1:]]
    return words[1:2 * HEADER_LINES:2], numbers[0], numbers[1:]


def plain_text(numbers):
    """A grid text as the program writes it, by Python alone."""
    lines = [" ".join(str(number) for number in row) for row in numbers.tolist()]
    return (HEADER.format(*numbers.shape) + "".join(line + "\n" for line in lines)).encode()


def random_units(random, shape, digits):
    """Whole numbers of up to so many digits, some of them of few, of both signs or above 0."""
    few = random.integers(0, 2, shape) * random.integers(0, digits, shape)
    low = -10**digits if random.integers(2) else 0
    return random.integers(low, 10**digits + 1, shape) // 10**few


class Writing(unittest.TestCase):
    def test_random_numbers_of_all_lengths(self):
        random = np.random.default_rng(5)
        for shape in SHAPES:
            for digits in range(1, 16):
                units = random_units(random, shape, digits)
                header, _, numbers = written(units)
                self.assertEqual(numbers, units.ravel().tolist())
                self.assertEqual(header[:2], [str(shape[1]), str(shape[0])])

    def test_ends_of_lengths(self):
        for digits in range(16):
            for sign in (1, -1):
                for off in (-1, 0, 1):
                    units = np.array([[sign * min(10**digits + off, MOST)]])
                    self.assertEqual(written(units)[2], units.ravel().tolist())

    def test_cells_without_data(self):
        random = np.random.default_rng(6)
        for shape in SHAPES:
            for dtype, digits in ((np.int32, 8), (np.int64, 15)):
                units, valid = random_units(random, shape, digits).astype(dtype), random.random(shape) < 0.7
                _, nodata, numbers = written(units, valid)
                expected = [int(unit) if known else nodata for unit, known in zip(units.flat, valid.flat)]
                self.assertEqual(numbers, expected)
                self.assertNotIn(nodata, units[valid].tolist())

    def test_words_of_one_length(self):
        for low in (-MOST, -10**6, -5, 0, 1, 10**6, MOST - 10**9):
            for digits in range(1, DIGITS + 1):
                # There are as many numbers of so many digits, of which one stands for no data.
                most = low + 9 * 10**(digits - 1) - 2
                for high, expected in ((most, digits), (most + 1, digits + 1)):
                    heights, file = of_units(np.array([[low, high]])), io.BytesIO()
                    write_grid(heights, file)
                    words = file.getvalue().split()[2 * HEADER_LINES - 1:]
                    with self.subTest(low=low, high=high):
                        if expected > DIGITS:
                            self.assertEqual(offset_of(heights), 0)
                        else:
                            self.assertEqual({len(str(int(word))) for word in words}, {expected})

    def test_the_program_reads_it(self):
        random = np.random.default_rng(7)
        for digits in (2, 3, 6, 7, 9, 15):
            units, valid = random_units(random, (50, 60), digits), random.random((50, 60)) < 0.9
            with tempfile.TemporaryFile() as text:
                write_grid(of_units(units, valid), text)
                text.seek(0)
                done = subprocess.run([RELIEF, "fill"], stdin=text, capture_output=True, check=True)
            offset = offset_of(of_units(units, valid))
            # Each word of it is a height of the grid or NODATA.
            found = np.array([int(word) for word in done.stdout.split()[2 * HEADER_LINES:]]).reshape(50, 60) - offset
            np.testing.assert_array_equal(found == written(units, valid)[1], ~valid)
            self.assertTrue(np.all(found[valid] >= units[valid]))
            self.assertLessEqual(set(found[valid].tolist()), set(units[valid].tolist()))


class Reading(unittest.TestCase):
    def test_random_numbers_of_all_lengths(self):
        random = np.random.default_rng(8)
        for shape in SHAPES:
            for digits in range(1, 16):
                numbers = random_units(random, shape, digits)
                numbers[random.random(shape) < 0.2] = -9999
                found = read_grid(io.BytesIO(plain_text(numbers)))
                np.testing.assert_array_equal(found, numbers)
                self.assertEqual(found.dtype, np.int64)

    def test_numbers_of_one_length(self):
        random = np.random.default_rng(13)
        for shape in SHAPES:
            for digits in range(1, 11):
                numbers = random.integers(10**(digits - 1), 10**digits, shape)
                text = plain_text(numbers)
                for offset in (0, 1, -10**15, 2**31, 2**30, -2**30 - 7):
                    with self.subTest(shape=shape, digits=digits, offset=offset):
                        found = read_grid(io.BytesIO(text), np.int64, shape, offset=offset)
                        np.testing.assert_array_equal(found, numbers - offset)

    def test_words_of_one_length_among_others(self):
        text = plain_text(np.full((3, 4), 12345))
        for old, new in ((b" 12345 ", b" 12x45 "), (b" 12345 ", b" 12/45 "), (b" 12345 ", b" 12:45 "),
                         (b"45 12", b"45x12"), (b"45 12", b"45112"), (b"45 12", b"4 512 ")):
            with self.subTest(new=new):
                self.assertRaises(InputError, read_grid, io.BytesIO(text.replace(old, new, 1)))
        # Two words that are as long as two others.
        for new in (b" 1234 123456 ", b" 123456 1234 ", b" -2345 12345 "):
            with self.subTest(new=new):
                expected = [12345, *map(int, new.split()), *[12345] * 9]
                found = read_grid(io.BytesIO(text.replace(b" 12345 12345 ", new, 1)))
                self.assertEqual(found.ravel().tolist(), expected)

    def test_a_narrow_type(self):
        numbers = np.random.default_rng(9).integers(-9999, 2**30, (300, 400))
        found = read_grid(io.BytesIO(plain_text(numbers)), np.int32)
        np.testing.assert_array_equal(found, numbers)
        self.assertEqual(found.dtype, np.int32)

    def test_each_map_of_the_program(self):
        with tempfile.TemporaryDirectory() as folder:
            path = os.path.join(folder, "dem.asc")
            heights = np.rint(hills(60, 70, decimals=0) - 300).astype(int)
            heights[:5, 20:] = -9999
            with open(path, "wb") as file:
                file.write(plain_text(heights))
            for words in (["fill"], ["flow"], ["accumulate"], ["basins"], ["catchments", "50,40"],
                          ["view", "30,30,20", "9,9,5"]):
                with open(path, "rb") as file:
                    text = subprocess.run([RELIEF, *words], stdin=file, capture_output=True, check=True).stdout
                expected = [[int(word) for word in line.split()] for line in text.splitlines()[HEADER_LINES:]]
                np.testing.assert_array_equal(read_grid(io.BytesIO(text)), expected)

    def test_a_text_that_is_cut_off(self):
        text = plain_text(np.random.default_rng(10).integers(-99, 10**6, (5, 6)))
        for end in range(len(text)):
            with self.assertRaises(InputError, msg=text[:end]):
                read_grid(io.BytesIO(text[:end]))

    def test_longest_numbers(self):
        for digits in range(1, 20):
            for word in ("9" * digits, "1" + "0" * (digits - 1), "0" * (digits - 1) + "7", "12345678901234567890"[:digits]):
                text = HEADER.format(1, 2) + f"{word} -{word}\n"
                if int(word) < 1 << 63:
                    self.assertEqual(read_grid(io.BytesIO(text.encode())).tolist(), [[int(word), -int(word)]])
                else:
                    self.assertRaises(InputError, read_grid, io.BytesIO(text.encode()))
        self.assertRaises(InputError, read_grid, io.BytesIO((HEADER.format(1, 2) + "1 " + "0" * 20 + "\n").encode()))

    def test_words_that_are_no_whole_numbers(self):
        for words in ("1 2  3 4\n", "1 2.5 3 4\n", "1 x 3 4\n", "1 2-3 3 4\n", "1 - 3 4\n", "1 2 3 4 5\n",
                      "1 +2 3 4\n", "1 --2 3 4\n", "1 2 3 -\n", "-- 2 3 4\n", "1 2- 3 4\n", " 2 3 4\n"):
            with self.assertRaises(InputError, msg=words):
                read_grid(io.BytesIO((HEADER.format(2, 2) + words).encode()))
        for text in (b"", b"no grid\n" * 9, b"ncols x\nnrows 1\n" * 3):
            with self.assertRaises(InputError, msg=text):
                read_grid(io.BytesIO(text))


class Several(unittest.TestCase):
    """Grid texts one after the other, parted where a header begins."""

    def test_parts(self):
        random = np.random.default_rng(12)
        for shape in ((1, 1), (1, 9), (7, 1), (40, 33), (300, 2)):
            for count in (1, 2, 5):
                grids = [random_units(random, shape, digits) for digits in (1, 3, 6, 2, 9)[:count]]
                text = b"".join(map(plain_text, grids))
                for piece in (1, 2, 7, 64, 65, 1000, len(text), 2 * len(text)):
                    seen = [[] for _ in grids]
                    wanted = [Wanted(np.dtype(np.int64), lambda rows, row, it=it: it.append(rows.copy()), at % 2 == 0)
                              for at, it in enumerate(seen)]
                    with unittest.mock.patch.object(grid_text, "PIECE", piece):
                        found = read_grids(io.BytesIO(text), wanted, shape)
                    for at, grid in enumerate(grids):
                        np.testing.assert_array_equal(np.concatenate(seen[at]), grid)
                        np.testing.assert_array_equal(found[at], grid if at % 2 == 0 else grid[:0])

    def test_refused(self):
        wanted = [Wanted(np.dtype(np.int64))] * 2
        one, other = plain_text(np.arange(12).reshape(3, 4)), plain_text(np.arange(12).reshape(4, 3))
        for text, told in ((one, "no map"), (b"", "no map"), (one + one[:-1], "cut off"), (one + one[:-3], "11 values"),
                           (one[:-4] + b"\n" + one, "11 values"), (one[:-1] + one, "cut off"),
                           (one + one + one, "more than 2 maps"), (one + one + b"n", "more than 2 maps"),
                           (one + one + b"1 ", "13 values"), (one + other, "(4, 3) rows and columns of (3, 4)"),
                           (one + one.replace(b" 5 ", b" x "), "no whole numbers"), (one + b"nothing", "no map")):
            for piece in (1, 5, 1 << 18):
                with self.subTest(text=text[-20:], piece=piece), self.assertRaises(InputError) as caught, \
                        unittest.mock.patch.object(grid_text, "PIECE", piece):
                    read_grids(io.BytesIO(text), wanted, (3, 4))
                self.assertIn(told, str(caught.exception))


if __name__ == "__main__":
    unittest.main()
