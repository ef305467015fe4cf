"""Random rasters, each made from a source of chance alone."""
import pathlib

import numpy
from osgeo import gdal, osr

TYPES = {"Byte": (gdal.GDT_Byte, numpy.uint8), "UInt16": (gdal.GDT_UInt16, numpy.uint16),
         "Int16": (gdal.GDT_Int16, numpy.int16), "UInt32": (gdal.GDT_UInt32, numpy.uint32),
         "Int32": (gdal.GDT_Int32, numpy.int32), "Float32": (gdal.GDT_Float32, numpy.float32),
         "Float64": (gdal.GDT_Float64, numpy.float64), "SignedByte": (gdal.GDT_Byte, numpy.int8)}
PLACES = {32632: (500000, 5200000), 25833: (400000.5, 5400000.25), 31467: (3500000, 5300000), 27700: (400000, 300000),
          2056: (2600000, 1200000), 3035: (4321000, 3210000), 3857: (1000000, 6000000), 2263: (1000000, 200000)}
OBLONG = {4087: (700000, 5300000), 6933: (800000, 5300000), 4326: (7, 47)}
SIDES = (1, 0.5, 30, 0.1, 1 / 3, 30.000000000000004, 29.999999999999996, 0.30000000000000004, 25, 10)
LAYOUTS = ([], [], ["TILED=YES", "BLOCKXSIZE=16", "BLOCKYSIZE=16"], ["COMPRESS=DEFLATE"],
           ["TILED=YES", "BLOCKXSIZE=16", "BLOCKYSIZE=16", "COMPRESS=LZW"], ["COMPRESS=PACKBITS"],
           ["INTERLEAVE=BAND"], ["ENDIANNESS=BIG"])
SCALES = ((0.1, 0), (0.01, 0), (0.001, 0), (0.5, 0), (2, 0), (0.25, 100), (1, 0.5), (0.1, -1000.05), (1 / 3, 0),
          (0.1, 0.1), (1e-7, 0), (1, 1e-3))


class Raster:
    """A raster in a folder."""

    def __init__(self, folder, chance):
        self.folder, self.chance = pathlib.Path(folder), chance
        self.rows, self.cols = self.draw_size(), self.draw_size()
        self.draw_place()
        self.draw_heights()
        self.draw_absences()
        while not self.land and not self.is_rare(6):
            self.draw_heights()
            self.draw_absences()
        self.write()

    def is_rare(self, one_in):
        """True once in so many times."""
        return self.chance.randrange(one_in) == 0

    def draw_size(self):
        """Columns or rows."""
        return self.chance.randint(1, 24 if self.is_rare(8) else 12)

    def draw_place(self):
        """Projection, corner and side of the cells."""
        self.side = self.chance.choice(SIDES)
        self.high = self.side
        self.code = self.chance.choice(list(OBLONG) if self.is_rare(25) else list(PLACES))
        self.west, self.north = {**PLACES, **OBLONG}[self.code]
        if self.is_rare(4):
            self.west += self.chance.choice((0.1, 1 / 3, 2 ** -33, -7.75))
            self.north += self.chance.choice((0.1, 1 / 3, 2 ** -31, -7.75))
        self.has_projection = not self.is_rare(10)
        if not self.has_projection and self.is_rare(2):
            self.west, self.north = self.chance.choice(((0, 0), (-100, 50), (0.1, -0.7)))
        if self.is_rare(60):
            self.high = self.side * self.chance.choice((1.03, 0.5))

    def draw_heights(self):
        """Heights of a type: flats, slopes, ties, the ends of the type, halves of a unit."""
        self.type = self.chance.choice(list(TYPES))
        kind = TYPES[self.type][1]
        draw = self.chance.choice((self.flat, self.flat, self.rough, self.rough, self.slope, self.slope, self.every))
        heights = numpy.array([[draw(row, col) for col in range(self.cols)] for row in range(self.rows)], float)
        if self.type.startswith("Float"):
            self.heights = self.broken(heights).astype(kind)
            return
        ends = numpy.iinfo(kind)
        heights = heights if ends.min < 0 else heights - heights.min() + self.chance.choice((0, 0, 1))
        if self.is_rare(4):
            heights += ends.max - heights.max() if self.is_rare(2) else ends.min - heights.min()
        self.heights = numpy.clip(heights, ends.min, ends.max).astype(kind)

    def flat(self, *_):
        """One of few heights."""
        return self.chance.randint(0, 3)

    def rough(self, *_):
        """One of many heights."""
        return self.chance.randint(-120, 120)

    def slope(self, row, col):
        """A height on a rough slope."""
        return 3 * row - 2 * col + self.chance.randint(0, 4)

    def every(self, row, col):
        """Each height of a byte, where there are as many cells."""
        return (row * self.cols + col) * 7 % 256

    def broken(self, heights):
        """Heights with fractions: near a half of a unit, of a power of two, as decimals, very high, or any."""
        kind = self.chance.randrange(8)
        if kind < 3:
            halves = (heights + 0.5) / 10 ** self.chance.randint(0, 3) + self.chance.choice((0, 0, 1535, 10 ** 6))
            return halves if kind == 0 else numpy.nextafter(halves, self.chance.choice((-numpy.inf, numpy.inf)))
        if kind == 3:
            return heights / 8
        if kind == 4:
            return numpy.round(heights / 7, 2)
        if kind == 5:
            return heights * 1.1 + numpy.array([[self.chance.random() for _ in row] for row in heights])
        if kind == 6:
            return heights * 10.0 ** self.chance.randint(5, 10) / self.chance.choice((1, 1, 7, 8))
        return heights

    def draw_absences(self):
        """Cells without data, and what says so: NODATA, NaN, a mask, alpha bands."""
        empty = self.draw_empty()
        self.nodata, self.mask, self.alphas, self.nan_cells = None, None, [], False
        if self.is_rare(3) is False:
            self.draw_nodata(empty)
        if self.type.startswith("Float") and self.is_rare(4):
            self.heights[self.draw_empty()] = numpy.nan
        if self.is_rare(6):
            self.mask = self.draw_empty()
        for _ in range(self.chance.choice((0, 0, 0, 0, 0, 1, 1, 2))):
            self.alphas.append((self.chance.choice(list(TYPES)[:7]), self.draw_empty()))
        gone = numpy.isnan(self.heights) if self.type.startswith("Float") else numpy.zeros_like(empty)
        gone |= self.heights == self.nodata if self.nodata is not None else False
        for absent in [self.mask, *(alpha for _, alpha in self.alphas)]:
            gone |= absent if absent is not None else False
        self.land = [(row, col) for row in range(self.rows) for col in range(self.cols) if not gone[row, col]]

    def draw_empty(self):
        """Cells to be without data: none, corners, an edge, some, a hole, or all."""
        rows, cols = numpy.indices((self.rows, self.cols))
        kind = self.chance.randrange(12)
        if kind < 3:
            return numpy.zeros((self.rows, self.cols), bool)
        if kind < 6:
            return rows + cols < self.chance.randint(1, 6)
        if kind < 8:
            return cols >= self.chance.randint(1, self.cols)
        if kind < 10:
            some = numpy.array([[self.is_rare(8) for _ in range(self.cols)] for _ in range(self.rows)])
            border = (rows % max(self.rows - 1, 1) == 0) | (cols % max(self.cols - 1, 1) == 0)
            return some & border if kind < 9 else some
        if kind < 11:
            return (rows == self.rows // 2) & (abs(cols - self.cols // 2) < self.chance.randint(1, 3))
        return numpy.ones((self.rows, self.cols), bool) if self.is_rare(4) else rows == 0

    def draw_nodata(self, empty):
        """A value that means no data, and its cells."""
        kind = TYPES[self.type][1]
        is_float = self.type.startswith("Float")
        ends = numpy.finfo(kind) if is_float else numpy.iinfo(kind)
        choices = [-9999, 0, float(ends.min), float(ends.max), float(self.heights.flat[0])]
        choices += [float("nan"), -32768, -3.4028234663852886e+38] if is_float else [0.5, 70000, -1, float("nan")]
        self.nodata = self.chance.choice(choices)
        if is_float or (self.nodata == self.nodata and self.nodata == int(self.nodata)
                        and ends.min <= self.nodata <= ends.max):
            self.heights[empty] = self.nodata

    def write(self):
        """Writes the raster with its mask and alphas, and mostly none or a VRT of it."""
        suffix = "img" if self.is_rare(15) and self.type != "SignedByte" else "tif"
        self.path, self.band = self.folder / f"dem.{suffix}", self.chance.choice((1, 1, 1, 1, 2))
        is_apart = bool(self.alphas) and self.is_rare(2)
        gdal.SetConfigOption("GDAL_TIFF_INTERNAL_MASK", self.chance.choice(("YES", "NO")))
        self.write_raster(suffix, [] if is_apart else self.alphas)
        gdal.SetConfigOption("GDAL_TIFF_INTERNAL_MASK", None)
        if is_apart:
            self.path = self.gather()
        self.source = self.draw_view() if self.is_rare(5) else self.path

    def write_raster(self, suffix, alphas):
        """Writes bands of heights and alphas, all of one type, in one file."""
        options = [*self.chance.choice(LAYOUTS)] if suffix == "tif" else []
        if suffix == "tif" and alphas:
            options.append("ALPHA=NO")
        if self.type == "SignedByte":
            options.append("PIXELTYPE=SIGNEDBYTE")
        dataset = gdal.GetDriverByName("GTiff" if suffix == "tif" else "HFA").Create(
            str(self.path), self.cols, self.rows, self.band + len(alphas), TYPES[self.type][0], options)
        self.set_place(dataset)
        if self.band > 1:
            dataset.GetRasterBand(1).WriteArray(numpy.ones_like(self.heights))
        self.describe(dataset.GetRasterBand(self.band))
        dataset.GetRasterBand(self.band).WriteArray(self.heights)
        for index, (_, empty) in enumerate(alphas, self.band + 1):
            dataset.GetRasterBand(index).SetColorInterpretation(gdal.GCI_AlphaBand)
            dataset.GetRasterBand(index).WriteArray(self.alpha(empty).astype(self.heights.dtype))
        if self.mask is not None:
            dataset.CreateMaskBand(gdal.GMF_PER_DATASET)
            dataset.GetRasterBand(1).GetMaskBand().WriteArray(numpy.where(self.mask, 0, 255).astype(numpy.uint8))

    def set_place(self, dataset):
        """Sets the place of a raster, and its projection if it has one."""
        turn = self.side / 7 if self.is_rare(80) else 0
        dataset.SetGeoTransform((self.west, self.side, turn, self.north, turn, -self.high))
        if self.has_projection:
            system = osr.SpatialReference()
            system.ImportFromEPSG(self.code)
            dataset.SetProjection(system.ExportToWkt())

    def describe(self, band):
        """Sets NODATA, unit, scale and offset of a band."""
        if self.nodata is not None:
            band.SetNoDataValue(self.nodata)
        if self.is_rare(6):
            band.SetUnitType(self.chance.choice(("ft", "m", "US survey foot")))
        if self.is_rare(20 if self.type.startswith("Float") else 6):
            scale, offset = self.chance.choice(SCALES)
            band.SetScale(scale)
            band.SetOffset(offset)

    def alpha(self, empty):
        """The cells of an alpha band."""
        return numpy.where(empty, 0, self.chance.choice((1, 1, 100, 127)))

    def gather(self):
        """A VRT of the heights and of alphas in files and types of their own."""
        path = self.folder / "gathered.vrt"
        dataset = gdal.GetDriverByName("VRT").Create(str(path), self.cols, self.rows, 0)
        self.set_place(dataset)
        for index in range(1, self.band + 1):
            add_source(dataset, TYPES[self.type][0], self.path.name, index)
        self.describe(dataset.GetRasterBand(self.band))
        for index, (kind, empty) in enumerate(self.alphas, 1):
            name = self.folder / f"alpha{index}.tif"
            alpha = gdal.GetDriverByName("GTiff").Create(str(name), self.cols, self.rows, 1, TYPES[kind][0])
            alpha.GetRasterBand(1).WriteArray(self.alpha(empty).astype(TYPES[kind][1]))
            add_source(dataset, TYPES[kind][0], name.name, 1).SetColorInterpretation(gdal.GCI_AlphaBand)
        return path

    def draw_view(self):
        """A VRT of the raster: whole, a part, larger than it, of another type, scaled."""
        path = self.folder / "dem.vrt"
        kind, given = self.chance.randrange(5), {}
        if kind == 1:
            col, row = self.chance.randrange(self.cols), self.chance.randrange(self.rows)
            cols, rows = self.chance.randint(1, self.cols - col), self.chance.randint(1, self.rows - row)
            given["srcWin"] = [col, row, cols, rows]
        if kind == 2:
            given["srcWin"] = [-1, -1, self.cols + 2, self.rows + 2]
        if kind == 3:
            given["outputType"] = TYPES[self.chance.choice(list(TYPES)[:7])][0]
        if kind == 4:
            given["scaleParams"] = [[0, 100, 0, self.chance.choice((50, 200, 10))]]
        gdal.Translate(str(path), str(self.path), format="VRT", **given)
        return path


def add_source(dataset, kind, name, index):
    """Adds a band to a VRT: a band of a file beside it."""
    dataset.AddBand(kind)
    band = dataset.GetRasterBand(dataset.RasterCount)
    band.SetMetadataItem("source_0", f'<SimpleSource><SourceFilename relativeToVRT="1">{name}</SourceFilename>'
                         f"<SourceBand>{index}</SourceBand></SimpleSource>", "new_vrt_sources")
    return band
