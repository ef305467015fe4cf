"""The grid text that `relief` reads and writes, from and to numpy arrays.

Heights are written as whole numbers of units, so the program runs with its scale of 0 and no decimal point is
written or read. All is computed for the cells of a block at once. To heights `offset_of` is added: words of one length
are parsed in 8 ns a cell, those of all lengths in 22.
"""
from __future__ import annotations

from dataclasses import dataclass
from functools import partial
from typing import IO, Any, Callable, Iterable, Iterator, List, Optional, Sequence, Tuple

import numpy as np

from .blocks import Behind, in_order, row_blocks
from .errors import InputError
from .heights import MOST_NARROW, Heights

HEADER_LINES = 6
ZERO, NINE, MINUS, SPACE, LINE_FEED = b"09- \n"
# What is read at once, in bytes, for the same reason as blocks; how many rows are given on at once.
PIECE = 1 << 19
STRIP = 256
# Of a header, whose first word is ncols.
FIRST_LETTER = b"n"
# No word of the program is longer, and no line of its header.
MOST_WORD, MOST_LINE = 64, 200
NO_NUMBERS = "relief wrote words that are no whole numbers"
TakeRows = Callable[[np.ndarray, int], None]
# What texts are read from: a binary file, or a part of one.
Source = Any
# What they are written to: what has `write` of one.
Target = Any
# Words of so many digits are computed with half the bytes.
NARROW_DIGITS = 9
# Of so few heights the words are worked out once, if they are no longer than this.
MOST_TABLE, MOST_WIDTH = 1 << 18, 8
# Most digits of a number, zeros before it with them. So many are computed at once.
MOST_DIGITS, DIGITS = 19, 7
# Of eight bytes before and behind DIGITS digits and a letter that is none: the bits of the digits by how far it is from
# the letter before, 1 where there is none between.
DIGIT_BITS = np.array([0x0F0F0F0F0F0F0F >> 8 * (DIGITS - it) << 8 * (DIGITS - it) if it else 0
                       for it in (0, *range(DIGITS + 1))], "<u8")
# Factors by which pairs, and pairs of pairs, become one number, and the bits of pairs.
PAIRS, FOURS, PAIR_BITS = np.uint64(10 << 8 | 1), np.uint64(100 << 16 | 1), np.uint64(0x00FF00FF00FF00FF)
LOWER_HALF, TEN_THOUSAND = np.uint32(16), np.uint32(10_000)
# So many bytes lie before those of a text of which numbers are taken.
AHEAD = 8


def _table(count: int, first: bytes, last: bytes) -> np.ndarray:
    """Words of four bytes as numbers of 32 bits: a letter or none, each of so many numbers from 0, a letter or none."""
    width = 4 - len(first) - len(last)
    words = np.empty((count, 4), np.uint8)
    words[:, :len(first)], words[:, 4 - len(last):] = list(first), list(last)
    for place in range(width):
        words[:, len(first) + place] = np.arange(count) // 10**(width - 1 - place) % 10 + ZERO
    return words.view(np.uint32).ravel()


FOUR_DIGITS = _table(10_000, b"", b"")
# The last digits of a word, and its first ones with a sign.
THREE_DIGITS = _table(1_000, b"", b" ")
SIGNED_DIGITS = np.concatenate([_table(1_000, sign, b"") for sign in (b"0", b"-")])


def offset_of(heights: Heights) -> int:
    """What is added to heights in a text, so that all have as many digits and none a sign; 0: they lie too far apart.

    The program compares heights, and does not tell them from others that are all higher by as much.
    """
    low, high = heights.ends
    # One more number stands for no data.
    first = next((10**more for more in range(DIGITS) if high + 1 - low < 9 * 10**more), None)
    return 0 if first is None else first - low


def write_grid(heights: Heights, file: Target) -> None:
    """Writes heights, to which `offset_of` is added, as a grid text, with cells of size 1 at the origin.

    Args:
        file: a binary file, open for writing.
    """
    rows, cols = heights.shape
    offset = offset_of(heights)
    low, high = (end + offset for end in heights.ends)
    nodata = high + 1
    file.write(f"ncols {cols}\nnrows {rows}\nxllcorner 0\nyllcorner 0\ncellsize 1\nNODATA_value {nodata}\n".encode())
    digits = len(str(max(abs(low), abs(nodata))))
    is_signed = low < 0
    table = _table_of(low, nodata, digits, is_signed) if nodata - low < min(MOST_TABLE, rows * cols) else None
    # What is added to units: for the place of a word in a table, or for the word.
    added = heights.dtype.type(offset if table is None else offset - low)

    def text_of(block: slice) -> np.ndarray:
        units, valid = heights.rows(block), heights.valid[block]
        known = units if valid.all() else np.where(valid, units, heights.dtype.type(nodata - offset))
        known = known + added
        return _words(known, digits, is_signed) if table is None else _lines(table.take(known, mode="clip"))

    for text in in_order(text_of, row_blocks(heights.shape)):
        file.write(text.data)


def _table_of(low: int, high: int, digits: int, is_signed: bool) -> Optional[np.ndarray]:
    """The words of all heights from one to another, a number for each; None: they are too long for one."""
    words = _words(np.arange(low, high + 1).reshape(1, -1), digits, is_signed)
    words[:, -1] = SPACE
    width = words.size // (high - low + 1)
    return words.view(f"u{width}").ravel() if width <= MOST_WIDTH else None


def _lines(words: np.ndarray) -> np.ndarray:
    """The bytes of rows of words, a line feed the last of each."""
    letters = words.view(np.uint8).reshape(len(words), -1)
    letters[:, -1] = LINE_FEED
    return letters


def _words(units: np.ndarray, digits: int, is_signed: bool) -> np.ndarray:
    """The bytes of rows of heights: words of four, eight, twelve .. bytes, a space or a line feed the last of each.

    Args:
        units: (rows, cols) integers.
        digits: most digits of a height.
        is_signed: whether heights below 0 are among them.
    """
    kind = np.uint32 if digits <= NARROW_DIGITS else np.int64
    rest = (np.abs(units) if is_signed else units).astype(kind)
    tables = [THREE_DIGITS] + [FOUR_DIGITS] * (digits // 4)
    if is_signed:
        tables = [THREE_DIGITS] + [FOUR_DIGITS] * (max(digits - 3, 0) // 4) + [SIGNED_DIGITS]
    text = np.empty(units.shape + (len(tables),), np.uint32)
    for group, table in zip(range(len(tables) - 1, 0, -1), tables):
        over = rest // kind(table.size)
        text[..., group] = table.take(rest - over * kind(table.size), mode="clip")
        rest = over
    if is_signed:
        rest += (units < 0) * kind(SIGNED_DIGITS.size // 2)
    text[..., 0] = tables[-1].take(rest, mode="clip")
    return _lines(text)


def read_grid(file: Source, dtype: "np.typing.DTypeLike" = np.int64, wanted: Optional[Tuple[int, ...]] = None,
              on_rows: Optional[TakeRows] = None, keeps: bool = True, offset: int = 0) -> np.ndarray:
    """Reads the numbers of a grid text that `relief` wrote with a scale of 0.

    Args:
        file: a binary file at its start.
        dtype: an integer type that has all numbers.
        wanted: the rows and columns that the grid has to have.
        on_rows: called in another thread with strips of STRIP rows, and the row of the first one, as they are read.
        keeps: whether the grid is kept.
        offset: what is taken from each number, so that the type has the rest.

    Returns:
        (rows, cols) of that type, with the NODATA value of the text where there is no data; no rows if it is not kept.

    Raises:
        InputError: the text is cut off, no grid text, or that of another grid.
    """
    rows, cols = shape = _shape(file)
    if wanted is not None and shape != wanted:
        raise InputError(f"relief wrote {shape} rows and columns of {wanted}")
    whole = np.empty((rows if keeps else 0, cols), dtype)
    parts = in_order(partial(_numbers, offset=offset), _pieces(file))
    if on_rows is None:
        count = _put_numbers(parts, rows, cols, whole if keeps else None, dtype, None)
    else:
        # The next strip is read meanwhile.
        with Behind(on_rows) as put:
            count = _put_numbers(parts, rows, cols, whole if keeps else None, dtype, put)
    if count != rows * cols:
        raise InputError(f"relief wrote {count} values of {rows * cols}")
    return whole


def _put_numbers(parts: Iterable[np.ndarray], rows: int, cols: int, whole: Optional[np.ndarray],
                 dtype: "np.typing.DTypeLike", on_rows: Optional[TakeRows]) -> int:
    """Puts the numbers of a text into a grid, if there is one, and gives its strips on; how many there are."""
    strip, filled, count = np.empty((0, cols), dtype), 0, 0
    for part in parts:
        count += part.size
        while part.size and filled < rows * cols:
            first = filled // (STRIP * cols) * STRIP
            if filled == first * cols:
                last = min(first + STRIP, rows)
                strip = np.empty((last - first, cols), dtype) if whole is None else whole[first:last]
            room = strip.reshape(-1)[filled - first * cols:]
            room[:part.size] = part[:room.size]
            filled += min(part.size, room.size)
            if on_rows is not None and part.size >= room.size:
                on_rows(strip, first)
            part = part[room.size:]
    return count


@dataclass(frozen=True)
class Wanted:
    """What becomes of a grid that is read: the arguments of `read_grid`."""

    dtype: np.dtype
    on_rows: Optional[TakeRows] = None
    keeps: bool = True
    offset: int = 0


def read_grids(file: Source, wanted: Sequence[Wanted], shape: Tuple[int, ...]) -> List[np.ndarray]:
    """Reads several grid texts, one after the other, each as `read_grid` does.

    Raises:
        InputError: one is cut off, no grid text or that of another grid, or there are more.
    """
    if len(wanted) == 1:
        return [_read_wanted(file, wanted[0], shape)]
    stream = _Texts(file)
    # A grid ends where a word of the next one's header begins.
    found = [_read_wanted(stream, it, shape) for it in wanted]
    if stream.rest:
        raise InputError(f"relief wrote more than {len(wanted)} maps")
    return found


def _read_wanted(file: Source, wanted: Wanted, shape: Tuple[int, ...]) -> np.ndarray:
    return read_grid(file, wanted.dtype, shape, wanted.on_rows, wanted.keeps, wanted.offset)


class _Texts:
    """Grid texts, one after the other, as files each of which ends before the next one's header."""

    def __init__(self, file: Source) -> None:
        self.file = file
        self.rest = b""

    def readline(self, most: int) -> bytes:
        """A line of a header."""
        if b"\n" not in self.rest:
            self.rest += self.file.readline(most)
        line, end, self.rest = self.rest.partition(b"\n")
        return line + end

    def readinto(self, piece: memoryview) -> int:
        """Reads bytes of rows into a piece; how many there are, none at their end."""
        if self.rest:
            count = min(len(self.rest), len(piece))
            piece[:count] = self.rest[:count]
        else:
            count = self.file.readinto(piece)
        end = bytes(piece[:count]).find(FIRST_LETTER)
        if end < 0:
            self.rest = self.rest[count:]
            return count
        self.rest = self.rest[end:] or bytes(piece[end:count])
        return end


def _shape(file: Source) -> Tuple[int, int]:
    """Rows and columns by the header, which is read."""
    lines = [file.readline(MOST_LINE).split() for _ in range(HEADER_LINES)]
    header = {line[0]: line[1] for line in lines if len(line) == 2}
    try:
        return int(header[b"nrows"]), int(header[b"ncols"])
    except (KeyError, ValueError):
        raise InputError("relief wrote no map: set RELIEF to the path of the relief that makes maps") from None


def _pieces(file: Source) -> Iterator[Optional[np.ndarray]]:
    """The bytes of a text in pieces of whole words, each behind AHEAD further bytes; None where the file gave less."""
    rest = np.empty(0, np.uint8)
    while True:
        text = np.empty(AHEAD + rest.size + PIECE, np.uint8)
        words = text[AHEAD:]
        words[:rest.size] = rest
        count = file.readinto(words[rest.size:].data)
        if not count:
            break
        words = words[:rest.size + count]
        # Behind the last whole word.
        last = words[-MOST_WORD - 1:].tobytes()
        end = words.size - len(last) + max(last.rfind(b" "), last.rfind(b"\n")) + 1
        rest = words[end:]
        if rest.size > MOST_WORD:
            raise InputError(NO_NUMBERS)
        if end:
            yield text[:AHEAD + end]
        if count < PIECE:
            # Maybe all has come, and the end of the file is seen later.
            yield None
    if rest.size:
        raise InputError("relief wrote a text that is cut off")


def _numbers(text: np.ndarray, offset: int) -> np.ndarray:
    """The numbers, less an offset, of words, each of which a space or a line feed ends, behind AHEAD further bytes."""
    width = _common_width(text[AHEAD:])
    if width:
        # The eight bytes that end with each word.
        found = np.ndarray((text.size - AHEAD) // width, "<u8", text, width, (width,))
        numbers = _numbers_of(found & DIGIT_BITS[width])
    else:
        numbers = _numbers_of_all_lengths(text)
    if offset:
        numbers = numbers if abs(offset) < MOST_NARROW else numbers.astype(np.int64)
        numbers -= numbers.dtype.type(offset)
    return numbers


def _common_width(words: np.ndarray) -> int:
    """How many bytes each of some numbers has, with the one that ends it, if all have as many; else 0."""
    first = np.flatnonzero(words[:DIGITS + 1] <= SPACE)
    width = int(first[0]) + 1 if first.size else 0
    if width < 2 or words.size % width or words[width - 1::width].max() > SPACE:
        return 0
    is_even = np.count_nonzero(words < ZERO) == words.size // width and words.max() <= NINE
    return width if is_even else 0


def _numbers_of_all_lengths(text: np.ndarray) -> np.ndarray:
    """The numbers of words with or without a sign, as those of `_numbers`."""
    text[AHEAD - 1] = SPACE
    # The place before the first word, and those behind all words.
    places = np.flatnonzero(text[AHEAD - 1:] <= SPACE)
    before, ends = places[:-1], places[1:]
    steps, words = ends - before, text[AHEAD:]
    others, is_minus = np.count_nonzero(words < ZERO) - ends.size, None
    if others:
        is_minus = words.take(before, mode="clip") == MINUS
        steps -= is_minus
        others -= np.count_nonzero(is_minus)
    most = int(steps.max()) - 1
    if others or words.max() > NINE or steps.min() < 2 or most > MOST_DIGITS:
        raise InputError(NO_NUMBERS)
    numbers = _last_digits(text, ends, steps)
    for place in range(DIGITS, most, DIGITS):
        longer = np.flatnonzero(steps > place + 1)
        numbers = numbers.astype(np.int64)
        numbers[longer] += _last_digits(text, ends[longer] - place, steps[longer] - place).astype(np.int64) * 10**place
        if numbers.min() < 0:
            # Past what 64 bits hold.
            raise InputError(NO_NUMBERS)
    if is_minus is not None:
        np.negative(numbers, out=numbers, where=is_minus)
    return numbers


def _last_digits(text: np.ndarray, ends: np.ndarray, steps: np.ndarray) -> np.ndarray:
    """The numbers of the last DIGITS digits before places, by machine's words of eight bytes.

    Args:
        text: AHEAD bytes, and others; place 0 is the last one of the former.
        ends: the places.
        steps: one more than the digits before each.
    """
    # The eight bytes that end with each place.
    found = np.ndarray(text.size - DIGITS, "<u8", text, 0, (1,))[ends]
    found &= DIGIT_BITS.take(steps, mode="clip")
    return _numbers_of(found)


def _numbers_of(found: np.ndarray) -> np.ndarray:
    """The numbers of DIGITS digits, each in a byte of its own, and a byte 0: machine's words, which are changed."""
    found *= PAIRS
    found &= PAIR_BITS
    found *= FOURS
    # Of four numbers of 16 bits the second has three digits, and the last one four.
    halves = found.view("<u4")
    halves >>= LOWER_HALF
    numbers = halves[::2] * TEN_THOUSAND
    numbers += halves[1::2]
    return numbers.view("<i4")
