"""Reads grid texts for the tools: the header by its words, then the cells row by row."""
import dataclasses
import fractions
import re

MOST_CELLS = 4096 * 4096
DECIMAL = re.compile(r"[-+]?(\d+\.?\d*|\.\d+)([eE][-+]?\d{1,3})?")
# The key of each slot, or both where an axis has two.
KEYS = {
    "ncols": "ncols", "nrows": "nrows", "cellsize": "cellsize", "nodata_value": "nodata",
    "xllcorner": "xll", "xllcenter": "xll", "yllcorner": "yll", "yllcenter": "yll",
}
REQUIRED = ("ncols", "nrows", "xll", "yll", "cellsize")


class Fault(Exception):
    """A fault, which a tool reports in one line in place of its result."""


def decimal_of(word):
    """The exact value of a decimal text; None where the word is none."""
    return fractions.Fraction(word) if DECIMAL.fullmatch(word) else None


@dataclasses.dataclass
class Header:
    """A grid's size, its south-western corner, its cell size, and the words of its header."""

    name: str
    columns: int
    rows: int
    west: fractions.Fraction
    south: fractions.Fraction
    cell_size: fractions.Fraction
    nodata: str
    # Pairs of a key and a value, as read.
    pairs: dict

    def cell_at(self, x, y):
        """The row and column of a point, of a border the cell in the east or the south; None outside the grid."""
        row = (self.south + self.rows * self.cell_size - y) // self.cell_size
        column = (x - self.west) // self.cell_size
        return (row, column) if 0 <= row < self.rows and 0 <= column < self.columns else None

    def cell_of(self, word, most_numbers=2):
        """The row and column of a word `ROW,COL`, which further numbers may follow."""
        found = re.fullmatch(r"(\d{1,9}),(\d{1,9})" + r"(?:,\d{1,10})?" * (most_numbers - 2), word)
        if not found:
            raise Fault(f"{word}: not ROW,COL" + (" or ROW,COL,EYE" if most_numbers > 2 else ""))
        row, column = int(found[1]), int(found[2])
        if row >= self.rows or column >= self.columns:
            raise Fault(f"{word}: {self.name} has {self.rows} rows and {self.columns} columns")
        return row, column


def read_pairs(name, words):
    """The header's pairs by slot, and the first word behind the header (None at the text's end)."""
    slots, pairs = {}, {}
    for word in words:
        if not word[0].isalpha():
            return slots, pairs, word
        slot = KEYS.get(word.lower())
        if slot is None:
            raise Fault(f"{name} is no grid text: it has the header word {word[:40]}")
        if slot in slots:
            raise Fault(f"{name} is no grid text: it gives {slot} twice")
        slots[slot] = (word.lower(), next(words, ""))
        pairs[word] = slots[slot][1]
    return slots, pairs, None


def header_of(name, words):
    """The header, and the first word behind it."""
    slots, pairs, first = read_pairs(name, words)
    for slot in REQUIRED:
        if slot not in slots:
            raise Fault(f"{name} is no grid text: its header has no {slot}")
    sizes = [int(slots[key][1]) if re.fullmatch(r"\d{1,9}", slots[key][1]) else 0 for key in ("ncols", "nrows")]
    if min(sizes) < 1 or sizes[0] * sizes[1] > MOST_CELLS:
        raise Fault(f"{name} is no grid text: {slots['ncols'][1]} columns and {slots['nrows'][1]} rows")
    west, south, cell_size = (decimal_of(slots[key][1]) for key in ("xll", "yll", "cellsize"))
    if None in (west, south, cell_size) or cell_size <= 0:
        raise Fault(f"{name} is no grid text: its corner or cell size is no number")
    # A centre lies half a cell within its corner.
    west -= cell_size / 2 if slots["xll"][0] == "xllcenter" else 0
    south -= cell_size / 2 if slots["yll"][0] == "yllcenter" else 0
    nodata = slots.get("nodata", ("", "-9999"))[1]
    return Header(name, *sizes, west, south, cell_size, nodata, pairs), first


def words_in(lines):
    return (word for line in lines for word in line.split())


def read_header(path):
    """The header of the grid text in a file."""
    return read_file(path, lambda words: header_of(path, words)[0])


def read_file(path, read):
    """What `read` makes of the words of a file."""
    try:
        with open(path, encoding="ascii") as text:
            return read(words_in(text))
    except UnicodeDecodeError:
        raise Fault(f"{path} is no grid text: it has bytes that are not ASCII") from None
    except OSError as error:
        raise Fault(f"{path}: {error.strerror}") from None
