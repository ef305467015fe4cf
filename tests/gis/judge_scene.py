"""What relief-gis has to read of a raster, by a plain reading of docs/gis.md and of what GDAL says of it.

It shares no line with `relief_gis`. A scene raises Refused where no map may be made, and Unknown where the pages do not
tell; its `doubts` say why a run may be refused as well.
"""
import itertools
import math
from fractions import Fraction

import numpy
from osgeo import gdal, osr

import judge

SINGLE = 10 ** 9
# Units of heights in metres.
FEET = {"ft": Fraction("0.3048"), "US survey foot": Fraction(1200, 3937)}


class Refused(Exception):
    """The run has to be refused."""


class Unknown(Exception):
    """The pages do not tell what the run has to do."""


def number(text):
    """The exact number of a decimal text."""
    try:
        return Fraction(text)
    except ValueError:
        raise Refused(f"{text} is no number") from None


def whole(text, least):
    """The whole number of a text, which has to be at least as great as another."""
    value = number(text)
    if value.denominator != 1 or value < least:
        raise Refused(f"{text} is no whole number from {least}")
    return int(value)


def simplest(low, high):
    """The fraction of least denominator between two numbers."""
    if low <= 0 <= high:
        return Fraction(0)
    if high < 0:
        return -simplest(-high, -low)
    if math.ceil(low) <= high:
        return Fraction(math.ceil(low))
    base = math.floor(low)
    return base + 1 / simplest(1 / (high - base), 1 / (low - base))


def near(value, slack):
    """The simplest fraction within a slack of a number."""
    return simplest(Fraction(value) - slack, Fraction(value) + slack)


def values_of(band, window=(0, 0)):
    """The cells of a band, in its own type."""
    raw = band.ReadAsArray(*window)
    is_signed = band.GetMetadataItem("PIXELTYPE", "IMAGE_STRUCTURE") == "SIGNEDBYTE"
    return raw.view(numpy.int8) if is_signed and raw.dtype == numpy.uint8 else raw


class Scene:
    """What is read of a raster: its land in units, and where the land lies."""

    def __init__(self, source, options):
        self.doubts = []
        self.dataset = gdal.Open(str(source))
        if self.dataset is None:
            raise Refused("no raster")
        self.band = self.read_band(options)
        self.projection = self.read_projection(options)
        self.read_frame(options)
        self.refuse_oblong()
        self.has_data = self.read_data()
        self.read_land(options)
        self.refuse_holes(options)

    def read_band(self, options):
        """The band of heights."""
        index = whole(options.get("band", ["1"])[-1], 1)
        if index > self.dataset.RasterCount:
            raise Refused("no such band")
        band = self.dataset.GetRasterBand(index)
        if band.GetColorInterpretation() == gdal.GCI_AlphaBand:
            raise Refused("the band is the alpha band")
        return band

    def read_projection(self, options):
        """The projection; None without one."""
        text = self.dataset.GetProjection()
        if text and ("projection" in options or "no-projection" in options):
            self.doubts.append("a projection is given for a raster that has one")
        if "projection" in options and not text:
            system = osr.SpatialReference()
            if system.SetFromUserInput(options["projection"][-1]) != 0:
                raise Refused("no such projection")
        elif text:
            system = osr.SpatialReference(text)
        elif "no-projection" in options:
            return None
        else:
            raise Refused("no projection")
        if system.IsGeographic():
            raise Refused("degrees")
        if not system.IsProjected():
            self.doubts.append("neither degrees nor projected")
        system.SetAxisMappingStrategy(osr.OAMS_TRADITIONAL_GIS_ORDER)
        return system

    def read_frame(self, options):
        """Side of the cells, corner in the north-west, and the window."""
        place = self.dataset.GetGeoTransform(can_return_null=True)
        if place is None:
            raise Refused("no place")
        if place[2] or place[4]:
            raise Refused("turned")
        if place[1] <= 0 or place[5] >= 0:
            self.doubts.append("rows from the south")
            raise Unknown("rows from the south")
        self.side = near(place[1], Fraction(place[1]) / SINGLE)
        height = near(-place[5], Fraction(-place[5]) / SINGLE)
        if self.side != height:
            if not 0.99 < self.side / height < 1.01:
                raise Refused("not square")
            self.doubts.append("sides differ by little")
        west, north = (near(place[axis], self.side / SINGLE) for axis in (0, 3))
        self.window = self.read_window(options, west, north)
        self.west, self.north = west + self.window[0] * self.side, north - self.window[1] * self.side
        self.cols, self.rows = self.window[2:]

    def read_window(self, options, west, north):
        """First column and row, and how many are read of each."""
        all_cols, all_rows = self.dataset.RasterXSize, self.dataset.RasterYSize
        if "window" in options and "bounds" in options:
            raise Refused("window and bounds")
        if "window" in options:
            col, row, cols, rows = self.four(options["window"], int)
            if cols < 1 or rows < 1 or col < 0 or row < 0 or col + cols > all_cols or row + rows > all_rows:
                raise Refused("window outside the raster")
            return col, row, cols, rows
        if "bounds" not in options:
            return 0, 0, all_cols, all_rows
        left, bottom, right, top = self.four(options["bounds"], Fraction)
        if left >= right or bottom >= top:
            raise Refused("bounds without inside")
        col, end = math.floor((left - west) / self.side), math.ceil((right - west) / self.side)
        row, foot = math.floor((north - top) / self.side), math.ceil((north - bottom) / self.side)
        if col < 0 or row < 0 or end > all_cols or foot > all_rows:
            self.doubts.append("bounds partly outside")
        col, row, end, foot = max(col, 0), max(row, 0), min(end, all_cols), min(foot, all_rows)
        if col >= end or row >= foot:
            raise Refused("bounds outside the raster")
        return col, row, end - col, foot - row

    @staticmethod
    def four(texts, kind):
        """The four numbers of a window or of bounds."""
        try:
            one, two, three, four = (kind(text) for text in texts[-1].split(","))
        except ValueError:
            raise Refused("not four numbers") from None
        return one, two, three, four

    def refuse_oblong(self):
        """Refuses cells that are not square on the ground, at the corners and in the middle of what is read."""
        if self.projection is None or not self.projection.IsProjected():
            return
        degrees = self.projection.CloneGeogCS()
        degrees.SetAxisMappingStrategy(osr.OAMS_TRADITIONAL_GIS_ORDER)
        ways = osr.CoordinateTransformation(self.projection, degrees)
        last, low = self.cols - 1, self.rows - 1
        cells = {(0, 0), (0, last), (low, 0), (low, last), (low // 2, last // 2)}
        ratio = max(self.ground_ratio(ways, cell) for cell in cells)
        if ratio > 1.011:
            raise Refused("not square on the ground")
        if ratio > 1.009:
            self.doubts.append("nearly not square on the ground")

    def ground_ratio(self, ways, cell):
        """The longer side of a cell over the shorter, or diagonal over diagonal, on the ellipsoid."""
        corners = [ways.TransformPoint(float(self.west + (cell[1] + right) * self.side),
                                       float(self.north - (cell[0] + down) * self.side))[:2]
                   for down, right in ((0, 0), (0, 1), (1, 0), (1, 1))]
        if not all(map(math.isfinite, itertools.chain(*corners))):
            raise Unknown("outside the projection")
        top, side, falling, rising = (self.ground_length(corners[a], corners[b])
                                      for a, b in ((0, 1), (0, 2), (0, 3), (1, 2)))
        if min(top, side, falling, rising) == 0:
            raise Unknown("outside the projection")
        return max(top / side, side / top, falling / rising, rising / falling)

    def ground_length(self, one, two):
        """The length of a short line between two places in degrees."""
        flat = 1 / self.projection.GetInvFlattening() if self.projection.GetInvFlattening() else 0
        square = flat * (2 - flat)
        middle = math.radians((one[1] + two[1]) / 2)
        root = math.sqrt(1 - square * math.sin(middle) ** 2)
        east = math.radians(two[0] - one[0]) * math.cos(middle) / root
        north = math.radians(two[1] - one[1]) * (1 - square) / root ** 3
        return math.hypot(east, north)

    def read_data(self):
        """Which cells have data."""
        self.raw = values_of(self.band, self.window)
        has_data = numpy.ones(self.raw.shape, bool)
        nodata = self.band.GetNoDataValue()
        if self.raw.dtype.kind == "f":
            has_data &= ~numpy.isnan(self.raw)
            if nodata is not None:
                has_data &= ~self.is_nodata(nodata)
        elif nodata is not None and nodata == nodata:
            has_data &= numpy.array([[int(cell) != nodata for cell in row] for row in self.raw])
        flags = self.band.GetMaskFlags()
        if flags & gdal.GMF_PER_DATASET and not flags & gdal.GMF_ALPHA:
            has_data &= values_of(self.band.GetMaskBand(), self.window) != 0
        for index in range(1, self.dataset.RasterCount + 1):
            band = self.dataset.GetRasterBand(index)
            if band.GetColorInterpretation() == gdal.GCI_AlphaBand:
                has_data &= values_of(band, self.window) != 0
        return has_data

    def is_nodata(self, nodata):
        """Which floats are NODATA, in their own type.

        A VRT may lose the last digits of NODATA, and other formats those of a NODATA value that is no height. The pages
        do not tell what such cells are.
        """
        kind = self.raw.dtype.type
        digits = 1e-6 if abs(nodata) > 1e15 else 2 * numpy.finfo(kind).eps
        with numpy.errstate(over="ignore", invalid="ignore"):
            nodata = kind(nodata)
            near = abs(self.raw - nodata) < digits * abs(self.raw + nodata)
        if (near & (self.raw != nodata)).any():
            raise Unknown("floats that are NODATA but for their last digits")
        return self.raw == nodata

    def read_land(self, options):
        """The heights in units, the decimals of these, and the greatest rounding.

        The rounding of floats that are the nearest to their rounded decimals stands apart.
        """
        factor, shift = (Fraction(repr(float(value if value is not None else default)))
                         for value, default in ((self.band.GetScale(), 1), (self.band.GetOffset(), 0)))
        self.is_whole, self.is_scaled = self.raw.dtype.kind in "iu", (factor, shift) != (1, 0)
        if self.is_scaled and not self.is_whole:
            raise Refused("floats with a scale or an offset")
        self.decimals = self.read_decimals(options, factor, shift)
        self.land, self.roundings = {}, {False: Fraction(0), True: Fraction(0)}
        for row, col in zip(*map(list, numpy.nonzero(self.has_data))):
            value = self.raw[row, col]
            if not math.isfinite(value):
                raise Refused("an infinite height")
            exact = (int(value) if self.is_whole else Fraction(float(value))) * factor + shift
            units = round(exact * 10 ** self.decimals)
            if abs(units) > judge.HIGHEST:
                raise Refused("too high")
            self.land[int(row), int(col)] = units
            rounded = Fraction(units, 10 ** self.decimals)
            is_plain = not self.is_whole and self.raw.dtype.type(float(rounded)) == value
            self.roundings[is_plain] = max(self.roundings[is_plain], abs(exact - rounded))

    def read_decimals(self, options, factor, shift):
        """How many decimals are kept."""
        if "decimals" in options:
            decimals = whole(options["decimals"][-1], 0)
            if decimals > 6:
                raise Refused("more than 6 decimals")
            return decimals
        if not self.is_whole:
            return 2
        for decimals in range(7):
            if (factor * 10 ** decimals).denominator == (shift * 10 ** decimals).denominator == 1:
                return decimals
        raise Refused("more than 6 decimals")

    def refuse_holes(self, options):
        """Refuses holes inside the land, unless they are asked for."""
        count = judge.holes(self.land, self.rows, self.cols)
        wish = options.get("voids", ["refuse"])[-1]
        if wish not in ("refuse", "drain", "fill"):
            raise Refused("no such treatment of voids")
        if count and wish == "refuse":
            raise Refused("holes")
        if count and wish == "fill":
            raise Unknown("filled holes")
        if not self.land:
            raise Refused("no data at all")

    def cell(self, x, y):
        """The cell of a point, of a border the one in the east or the south; None outside of what is read."""
        row, col = math.floor((self.north - y) / self.side), math.floor((x - self.west) / self.side)
        return (row, col) if 0 <= row < self.rows and 0 <= col < self.cols else None

    def metre(self):
        """The length of the projection's unit in metres."""
        if self.projection is None:
            raise Refused("metres without a projection")
        return near(self.projection.GetLinearUnits(), Fraction(self.projection.GetLinearUnits()) / SINGLE)

    def square_of_cell(self):
        """The square of a cell's side over the radius of the earth, in metres."""
        if self.projection is None:
            raise Refused("a curvature without a projection")
        unit = Fraction(self.projection.GetLinearUnits())
        return (self.side * unit) ** 2 / Fraction(self.projection.GetSemiMajor())

    def height_unit(self):
        """The length of the unit of heights in metres."""
        unit = self.band.GetUnitType() or "m"
        if unit not in FEET and unit != "m":
            raise Unknown("a unit of heights")
        return FEET.get(unit, Fraction(1))

    def height_in_units(self, text):
        """An eye or a target in units."""
        units = number(text) * 10 ** self.decimals
        if units.denominator != 1 or not 0 <= units <= judge.HIGHEST_EYE:
            raise Refused(f"{text} is no whole number of units up to a million")
        return int(units)
