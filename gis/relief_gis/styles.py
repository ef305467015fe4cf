"""How maps are drawn: colour tables within a GeoTIFF, and QGIS styles beside it."""
from __future__ import annotations

import colorsys
from html import escape
from typing import Dict, Iterable, List, Optional, Sequence, Tuple

import numpy as np

from .blocks import for_rows
from .making import NODATA_CODE

Color = Tuple[int, int, int, int]
Entry = Tuple[float, Color, str]

CLEAR: Color = (0, 0, 0, 0)
DIRECTIONS = ((0, "outlet"), (1, "E"), (2, "SE"), (4, "S"), (8, "SW"), (16, "W"), (32, "NW"), (64, "N"), (128, "NE"))
# More classes than these make a legend that nobody reads and a style that QGIS is slow to load.
MOST_CLASSES = 2048
GOLDEN_TURN = 0.6180339887
# By this a style of this package is told from one that a user has made.
MARK = "<!-- made by relief-gis -->"


def color_table(name: str) -> Optional[Dict[int, Color]]:
    """The colours of a map of bytes; None: it has none."""
    if name == "flow":
        ways = {code: _hue(at / 8) for at, (code, _) in enumerate(DIRECTIONS[1:])}
        return {0: (0, 0, 0, 255), **ways, NODATA_CODE: CLEAR}
    if name == "streams":
        return {0: (255, 255, 255, 0), 1: (8, 81, 156, 255), NODATA_CODE: CLEAR}
    if name == "uncertain":
        return {0: (255, 255, 255, 0), 1: (227, 74, 51, 160), NODATA_CODE: CLEAR}
    return None


def needs_most(name: str) -> bool:
    """Whether the style of a map takes its greatest value."""
    return name in ("view", "rise", "accumulate", "depth")


def needs_numbers(name: str) -> bool:
    """Whether the style of a map takes the numbers that it has."""
    return name in ("basins", "catchments")


class Numbers:
    """The numbers above 0 of a map, of which rows come one after the other."""

    def __init__(self) -> None:
        # The last one stands for all greater ones.
        self._is_there = np.zeros(MOST_CLASSES + 2, bool)

    def add(self, values: np.ndarray) -> None:
        """Adds those of rows, as long as a legend has all."""
        if self._is_there[-1]:
            return

        def mark(rows: slice) -> None:
            self._is_there[np.clip(values[rows], 0, MOST_CLASSES + 1)] = True

        for_rows(mark, values.shape)

    def all(self) -> Optional[List[int]]:
        """The numbers; None: there are greater ones than a legend has."""
        return None if self._is_there[-1] else [int(number) for number in np.flatnonzero(self._is_there) if number > 0]


def style(name: str, numbers: Numbers, most: float, decimals: int = 0) -> Optional[str]:
    """A QGIS style (QML) for a map; None: QGIS's own is as good.

    Args:
        name: the map.
        numbers: those of the map, where `needs_numbers`.
        most: the greatest value as it is written, where `needs_most`.
        decimals: those of heights.
    """
    if name == "flow":
        table = color_table(name) or {}
        return _palette([(code, table[code], label) for code, label in DIRECTIONS])
    if name == "streams":
        return _palette([(1, (8, 81, 156, 255), "stream")])
    if needs_numbers(name):
        found = numbers.all()
        return None if found is None else _palette([(it, _hue(it * GOLDEN_TURN), str(it)) for it in found])
    if name == "view":
        return _palette(_seen(int(most)))
    if name == "rise":
        shares = (0.1, 0.25, 0.5, 1.0) if most > 0 else ()
        return _classes([(0.0, (255, 220, 40, 200), "seen")] + [
            (most * share, _blue(share), f"up to {most * share:.{max(decimals, 1)}f}") for share in shares])
    if name == "accumulate":
        return _classes(_steps_of_counts(most))
    if name == "depth" and most > 0:
        return _classes([(0.0, CLEAR, "0")] + [(most * share, _blue(share), f"{most * share:.{max(decimals, 1)}f}")
                                               for share in (0.1, 0.25, 0.5, 1.0)])
    return None


def _hue(turn: float) -> Color:
    red, green, blue = colorsys.hls_to_rgb(turn % 1, 0.6, 0.65)
    return round(255 * red), round(255 * green), round(255 * blue), 255


def _blue(share: float) -> Color:
    return round(198 * (1 - share)), round(219 - 140 * share), round(239 - 90 * share), 255


def _seen(most: int) -> List[Entry]:
    """Unseen cells clear, seen ones from yellow for one observer to red for all."""
    steps = min(most, 255)
    seen = [(value, (255, round(220 * (1 - (value - 1) / max(steps - 1, 1))), 40, 200), f"seen by {value}")
            for value in range(1, steps + 1)]
    return [(0, CLEAR, "not seen"), *seen]


def _steps_of_counts(most: float) -> List[Entry]:
    """Tenfold classes of counts, the more the darker."""
    limits, limit = [], 10.0
    while limit < most:
        limits.append(limit)
        limit *= 10
    limits.append(max(most, 1.0))
    return [(it, CLEAR if at == 0 else _blue((at + 1) / len(limits)), f"up to {it:,.0f}")
            for at, it in enumerate(limits)]


def _palette(entries: Iterable[Entry]) -> str:
    lines = [f'<paletteEntry value="{value:g}" color="{_web(color)}" alpha="{color[3]}" label="{escape(label)}"/>'
             for value, color, label in entries]
    return _qml('<rasterrenderer type="paletted" band="1" opacity="1" alphaBand="-1"><colorPalette>',
                lines, "</colorPalette></rasterrenderer>")


def _classes(entries: Sequence[Entry]) -> str:
    """Classes of values, each up to its limit."""
    lines = [f'<item value="{value!r}" color="{_web(color)}" alpha="{color[3]}" label="{escape(label)}"/>'
             for value, color, label in entries]
    least, most = 0, entries[-1][0]
    return _qml(f'<rasterrenderer type="singlebandpseudocolor" band="1" opacity="1" alphaBand="-1" '
                f'classificationMin="{least}" classificationMax="{most!r}"><rastershader>'
                '<colorrampshader colorRampType="DISCRETE" classificationMode="1" clip="0">',
                lines, "</colorrampshader></rastershader></rasterrenderer>")


def _web(color: Color) -> str:
    return f"#{color[0]:02x}{color[1]:02x}{color[2]:02x}"


def _qml(head: str, lines: Iterable[str], tail: str) -> str:
    body = "\n".join(lines)
    return (f"<!DOCTYPE qgis PUBLIC 'http://mrcc.com/qgis.dtd' 'SYSTEM'>\n{MARK}\n<qgis version=\"3.16\">\n<pipe>\n"
            f"{head}\n{body}\n{tail}\n</pipe>\n</qgis>\n")
