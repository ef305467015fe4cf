"""The commands that messages print: each is run, and what it makes is compared with what is right, cell by cell."""
import os
import re
import shlex
import subprocess
import unittest

import numpy as np
from osgeo import gdal, osr

from fixtures import PLACED, TOP, UTM, Case, by_hand, hills, make_raster, read

# Heights of a plane, which bilinear interpolation and averages give exactly: at the first cell, and per cell.
HEIGHT, RIGHT, DOWN = 700.0, 2.0, -1.0
PAGES = ("README.md", "docs/recipes.md", "docs/gis.md", "docs/relief.1", "gis/relief-gis.1")


def plane(rows, cols, dtype=np.float32):
    """Heights of the plane."""
    row, col = np.mgrid[0:rows, 0:cols]
    return (HEIGHT + RIGHT * col + DOWN * row).astype(dtype)


def add_mask(path, kind, valid):
    """Copies a raster and gives it a mask or an alpha band, which is the last one or the first one; its new name."""
    dataset = gdal.Open(str(path))
    band = dataset.GetRasterBand(1)
    shown, target = valid.astype(np.uint8) * 255, f"{path}.{kind}.tif"
    if kind == "mask":
        gdal.SetConfigOption("GDAL_TIFF_INTERNAL_MASK", "YES")
        made = gdal.GetDriverByName("GTiff").CreateCopy(target, dataset)
        made.CreateMaskBand(gdal.GMF_PER_DATASET)
        made.GetRasterBand(1).GetMaskBand().WriteArray(shown)
        return f"{path.name}.{kind}.tif"
    made = gdal.GetDriverByName("GTiff").Create(target, dataset.RasterXSize, dataset.RasterYSize, 2, band.DataType)
    made.SetGeoTransform(dataset.GetGeoTransform())
    made.SetProjection(dataset.GetProjection())
    alpha, heights = (1, 2) if kind == "alpha_first" else (2, 1)
    made.GetRasterBand(alpha).SetColorInterpretation(gdal.GCI_AlphaBand)
    made.GetRasterBand(alpha).WriteArray(shown)
    made.GetRasterBand(heights).WriteArray(dataset.ReadAsArray())
    if band.GetNoDataValue() is not None:
        made.GetRasterBand(heights).SetNoDataValue(band.GetNoDataValue())
    return f"{path.name}.{kind}.tif"


def reference_of(words):
    reference = osr.SpatialReference()
    reference.SetFromUserInput(words)
    reference.SetAxisMappingStrategy(osr.OAMS_TRADITIONAL_GIS_ORDER)
    return reference


def cells_of(made, placed, source, target):
    """Where the centres of a raster's cells lie in the cells of another: columns and rows, as fractions."""
    west, across, turn, north, tilt, down = made.GetGeoTransform()
    row, col = np.mgrid[0:made.RasterYSize, 0:made.RasterXSize] + 0.5
    x, y = west + col * across + row * turn, north + col * tilt + row * down
    if source != target:
        change = osr.CoordinateTransformation(reference_of(target), reference_of(source))
        found = np.array(change.TransformPoints(np.stack([x.ravel(), y.ravel()], 1).tolist()))
        x, y = found[:, 0].reshape(x.shape), found[:, 1].reshape(y.shape)
    west, across, turn, north, tilt, down = placed
    area = across * down - turn * tilt
    x, y = x - west, y - north
    return (x * down - y * turn) / area, (y * across - x * tilt) / area


class CureCase(Case):
    """Rasters that are refused with a command."""

    def cure(self, *words, name="dem.tif", status=2, mark=": "):
        """Runs the command with which a run is refused; the name of the raster that it makes."""
        found, lines = self.run_command("fill", name, "out.tif", *words)
        self.assertEqual(found, status, lines)
        return self.run_printed(lines.strip().split(mark)[-1])

    def run_printed(self, command):
        """Runs a printed command; the name of the file that it makes or changes."""
        self.assertEqual("gdalwarp" in command, "-dstnodata" in command)
        subprocess.run(command, shell=True, cwd=self.folder, check=True, stdout=subprocess.DEVNULL)
        return shlex.split(command)[-1]

    def check_plane(self, name, placed, source, target=None, valid=None, tolerance=0.45):
        """Checks a made raster of the plane: heights, that nothing outside is land, and that nothing inside is lost.

        Args:
            placed, source: geotransform and projection of the plane's raster.
            target: the projection of the made raster.
            valid: where the plane's raster has data.
            tolerance: of heights inside the data; gdalwarp places cells within an eighth of one.
        """
        made = gdal.Open(str(self.folder / name))
        col, row = cells_of(made, placed, source, target or source)
        shape = (valid if valid is not None else np.ones((60, 50))).shape
        valid = np.ones(shape, bool) if valid is None else valid
        inside = self.reach(valid, col, row, np.all)
        outside = ~self.reach(valid, col, row, np.any)
        found = made.GetRasterBand(1).ReadAsArray()
        self.make("basins", name, "basins.tif", "--voids", "drain")
        land = read(self.folder / "basins.tif") != -9999
        self.assertFalse(np.any(land & outside))
        self.assertTrue(np.all(land[inside]))
        right = HEIGHT + RIGHT * (col - 0.5) + DOWN * (row - 0.5)
        self.assertLess(np.abs(found - right)[inside].max(), tolerance)
        # In the outer half of a border cell, interpolation has one side alone.
        self.assertLess(np.abs(found - right)[land].max(), 3.5)
        self.assertGreater(np.count_nonzero(inside), 1000)
        self.check_map(name)

    def reach(self, valid, col, row, how):
        """Whether all, or any, of the 25 cells around places have data: interpolation reaches no further."""
        around = np.pad(valid, 5)
        top, left = (np.clip(np.floor(it).astype(int), -3, most + 2) for it, most in zip((row, col), valid.shape))
        near = [around[top + 5 + down, left + 5 + right] for down in range(-2, 3) for right in range(-2, 3)]
        return how(near, axis=0)

    def check_map(self, name):
        """Compares the filled heights with those of `relief` run by hand."""
        self.make("fill", name, "fill.tif", "--voids", "drain", "--decimals", "2")
        gdal.Translate(str(self.folder / "by_hand.tif"), str(self.folder / name), bandList=[1], maskBand="none")
        expected = by_hand(["fill"], self.folder / "by_hand.tif", 2).astype(float)
        found = read(self.folder / "fill.tif")
        land = read(self.folder / "basins.tif") != -9999
        np.testing.assert_allclose(found[land], expected[land], atol=0.002)


class Projected(CureCase):
    """Degrees, and cells that are not square on the ground."""

    DEGREES = (6.5, 0.0004, 0.0, 47.5, 0.0, -0.0004)

    def raster(self, array, nodata=None):
        make_raster(self.folder / "dem.tif", array, nodata, placed=self.DEGREES, projection="EPSG:4326")

    def check_degrees(self, valid, name="dem.tif", *words):
        made = self.cure(*words, name=name, mark="project it first: ")
        self.check_plane(made, self.DEGREES, "EPSG:4326", UTM, valid)

    def test_degrees_without_nodata(self):
        for dtype in (np.float32, np.int16, np.uint16, np.float64):
            self.raster(plane(60, 50, dtype))
            self.check_degrees(np.ones((60, 50), bool))

    def test_degrees_beside_nodata_and_masks(self):
        part = np.ones((60, 50), bool)
        part[:20, :15] = False
        both = part.copy()
        both[-15:, -12:] = False
        self.raster(np.where(part, plane(60, 50), -1), -1.0)
        self.check_degrees(part)
        for kind in ("alpha", "mask"):
            # The cells below the mask have heights, as in a raster that was cut out.
            self.check_degrees(both, add_mask(self.folder / "dem.tif", kind, both | ~part))
        self.check_degrees(both, add_mask(self.folder / "dem.tif", "alpha_first", both | ~part), "--band", "2")
        self.raster(plane(60, 50))
        for kind in ("alpha", "mask"):
            self.check_degrees(part, add_mask(self.folder / "dem.tif", kind, part))

    @unittest.skipIf(hasattr(gdal, "GDT_Int8"), "this GDAL reads bytes with a sign right")
    def test_bytes_with_a_sign_have_no_command(self):
        driver = gdal.GetDriverByName("GTiff")
        dataset = driver.Create(str(self.folder / "dem.tif"), 9, 9, 1, gdal.GDT_Byte, ["PIXELTYPE=SIGNEDBYTE"])
        dataset.SetGeoTransform(self.DEGREES)
        dataset.SetProjection(reference_of("EPSG:4326").ExportToWkt())
        del dataset
        self.refuse(2, "project it first: write it with a type of 16 bits", "fill", "dem.tif", "out.tif")

    def test_several_masks_have_no_command(self):
        self.raster(plane(60, 50))
        name = add_mask(self.folder / "dem.tif", "alpha", np.ones((60, 50), bool))
        dataset = gdal.Open(str(self.folder / name), gdal.GA_Update)
        dataset.CreateMaskBand(gdal.GMF_PER_DATASET)
        del dataset
        self.refuse(2, "give it one NODATA value in place of its masks and alpha bands", "fill", name, "out.tif")

    def test_degrees_of_hills_have_no_land_outside(self):
        words = "-q -srcwin 0 0 118 120 -a_srs EPSG:4326 -a_ullr 6.5 47.5 6.53 47.47 -a_nodata none"
        subprocess.run(["gdal_translate", *words.split(), str(TOP / "examples" / "hills.asc"), "deg.tif"],
                       cwd=self.folder, check=True)
        made = self.cure(name="deg.tif", mark="project it first: ")
        self.make("basins", made, "basins.tif")
        numbers = read(self.folder / "basins.tif")
        dataset = gdal.Open(str(self.folder / made))
        col, row = cells_of(dataset, (6.5, 0.03 / 118, 0, 47.5, 0, -0.03 / 120), "EPSG:4326", UTM)
        inside = (col > 0) & (col < 118) & (row > 0) & (row < 120)
        self.assertGreater(np.count_nonzero(~inside), 500)
        np.testing.assert_array_equal(numbers != -9999, inside)

    def test_a_name_with_a_space_that_is_there_already(self):
        make_raster(self.folder / "my dem.tif", plane(60, 50), placed=self.DEGREES, projection="EPSG:4326")
        make_raster(self.folder / "metres.tif", plane(9, 9))
        made = self.cure(name="my dem.tif", mark="project it first: ")
        self.assertEqual(made, "metres_2.tif")
        self.check_plane(made, self.DEGREES, "EPSG:4326", UTM)

    def test_not_square_on_the_ground(self):
        for projection in ("EPSG:4087", "EPSG:6933", "ESRI:54009"):
            change = osr.CoordinateTransformation(reference_of("EPSG:4326"), reference_of(projection))
            x, y, _ = change.TransformPoint(9.0, 47.8)
            placed = (round(x), 30.0, 0.0, round(y), 0.0, -30.0)
            make_raster(self.folder / "dem.tif", plane(60, 50), placed=placed, projection=projection)
            self.check_plane(self.cure(mark=", first: "), placed, projection, UTM)

    def test_a_projection_that_the_user_gives(self):
        metres = 1001875.0, 30.0, 0.0, 5321000.0, 0.0, -30.0
        for projection, placed in (("EPSG:4326", self.DEGREES), ("EPSG:4087", metres)):
            make_raster(self.folder / "dem.tif", plane(60, 50), placed=placed, projection=None)
            self.check_plane(self.cure("--projection", projection, mark=" first: "), placed, projection, UTM)

    def test_a_projection_twice(self):
        make_raster(self.folder / "dem.tif", plane(60, 50), projection="EPSG:25832")
        made = self.cure("--projection", "EPSG:25833", status=1, mark="project it first: ")
        self.check_plane(made, PLACED, "EPSG:25832", "EPSG:25833")


class Laid(CureCase):
    """Turned rasters, rasters upside down, oblong cells, too many cells."""

    def test_turned(self):
        placed = (500000.0, 30.0, 9.0, 5200000.0, 9.0, -30.0)
        for dtype in (np.float32, np.uint16):
            make_raster(self.folder / "dem.tif", plane(60, 50, dtype), placed=placed)
            self.check_plane(self.cure(mark="straight first: "), placed, UTM)

    def test_upside_down(self):
        random = np.random.default_rng(4)
        for flip in ((1, 1), (-1, -1), (-1, 1)):
            for dtype in (np.uint8, np.int16, np.uint16, np.int32, np.float32, np.float64):
                rows, cols = random.integers(3, 70, 2)
                side = float(random.choice([30, 0.5, 1 / 3, 0.1, 27.25]))
                west, south = np.round(random.uniform(1, 900000, 2), 3)
                array = (hills(rows, cols) / 2).astype(dtype)
                placed = (west, flip[0] * side, 0.0, south, 0.0, flip[1] * side)
                make_raster(self.folder / "dem.tif", array, placed=placed)
                right = array[::-1 if flip[1] > 0 else 1, ::-1 if flip[0] < 0 else 1]
                made = self.cure(mark="over first: ")
                found = gdal.Open(str(self.folder / made))
                np.testing.assert_array_equal(found.ReadAsArray(), right)
                x, across, _, y, _, down = found.GetGeoTransform()
                np.testing.assert_allclose((across, -down), (side, side), rtol=1e-9)
                wide, high = cols * side, rows * side
                corner = west - (wide if flip[0] < 0 else 0), south + (high if flip[1] > 0 else 0)
                np.testing.assert_allclose((x, y), corner)
                self.make("basins", made, "basins.tif", "--decimals", "1")
                self.assertNotIn(-9999, read(self.folder / "basins.tif"))

    def test_oblong(self):
        for across, down, dtype in ((30.0, -20.0, np.float32), (20.0, -30.0, np.int16), (30.5, -21.0, np.float32)):
            placed = (500000.0, across, 0.0, 5200000.0, 0.0, down)
            make_raster(self.folder / "dem.tif", plane(60, 51, dtype), placed=placed)
            self.check_plane(self.cure(mark="so first: "), placed, UTM, valid=np.ones((60, 51), bool))

    def test_too_many_cells(self):
        for cols in (4097, 8193):
            make_raster(self.folder / "dem.tif", plane(70, cols))
            made = self.cure(mark="cells larger: ")
            times = -(-cols // 4096)
            found = read(self.folder / made)
            whole = 70 // times, cols // times
            blocks = plane(70, cols)[:whole[0] * times, :whole[1] * times].astype(float)
            means = blocks.reshape(whole[0], times, whole[1], times).mean(axis=(1, 3))
            np.testing.assert_allclose(found[:whole[0], :whole[1]], means, atol=0.01)
            self.make("basins", made, "basins.tif")
            land = found[read(self.folder / "basins.tif") != -9999]
            self.assertGreater(land.min(), 500)


class Scaled(CureCase):
    """Factors and offsets of bands."""

    def test_too_many_decimals(self):
        units = np.rint(hills() * 8).astype(np.int32)
        units[:3, :4] = 30000
        # The height of the NODATA value, as a number, is that of land.
        units[9, 9] = 8 * (30000 - 100)
        make_raster(self.folder / "dem.tif", units, 30000, scale=0.12500000000000003, offset=100.0)
        text = "with 17 decimals, and 6 is the most: give --decimals N to round them"
        lines = self.refuse(2, text, "fill", "dem.tif", "out.tif")
        made = self.run_printed(lines.strip().split("make them floats: ")[1])
        right = units * 0.125 + 100
        for name, words in ((made, []), ("dem.tif", ["--decimals", "2"])):
            self.make("basins", name, "basins.tif", *words)
            land = units != 30000
            np.testing.assert_array_equal(read(self.folder / "basins.tif") != -9999, land)
            self.make("depth", name, "depth.tif", *words)
            self.make("fill", name, "fill.tif", *words)
            found = read(self.folder / "fill.tif") - read(self.folder / "depth.tif")
            np.testing.assert_allclose(found[land], right[land], atol=0.0051)

    def test_floats_with_a_factor(self):
        array = (hills() / 2).astype(np.float32)
        array[:3, :4] = -1
        make_raster(self.folder / "dem.tif", array, -1.0, scale=2.0, offset=7.0)
        made = self.cure(mark="work them out first: ")
        found = read(self.folder / made)
        np.testing.assert_allclose(found[array != -1], array[array != -1] * 2.0 + 7, atol=1e-9)
        self.make("basins", made, "basins.tif")
        np.testing.assert_array_equal(read(self.folder / "basins.tif") == -9999, array == -1)


class Doubtful(CureCase):
    """Heights that may mean no data: a rim of 0, a second NODATA value, beside masks and factors."""

    def told(self, name="dem.tif"):
        """The command of the question about a raster's heights."""
        return self.make("fill", name, "out.tif", "--voids", "drain").split("if it does, ")[1].split("\n")[0]

    def test_a_rim_of_zeros(self):
        make_raster(self.folder / "f.tif", hills(60, 60).astype(np.float32))
        words = "-q -t_srs EPSG:25835 -tr 30 30 f.tif dem.tif"
        subprocess.run(["gdalwarp", *words.split()], cwd=self.folder, check=True)
        zeros = np.count_nonzero(read(self.folder / "dem.tif") == 0)
        lines = self.make("fill", "dem.tif", "out.tif")
        self.assertRegex(lines, rf"{zeros:,} cells have the height 0, [\d,]+ of them where the data ends, which often")
        self.run_printed(self.told())
        self.assertNotIn("the height 0", self.make("basins", "dem.tif", "basins.tif"))
        np.testing.assert_array_equal(read(self.folder / "basins.tif") == -9999, read(self.folder / "dem.tif") == 0)

    def test_zeros_inside_the_land_and_few_at_its_rim(self):
        array = np.rint(hills()).astype(np.int16)
        array[10:20, 10:20] = 0
        array[0, :7] = 0
        make_raster(self.folder / "dem.tif", array)
        self.assertEqual(self.make("fill", "dem.tif", "out.tif"), "")

    def test_a_second_value_beside_all_else(self):
        array = np.rint(hills()).astype(np.int16)
        lost = np.zeros(array.shape, bool)
        array[:3, :4], array[-2:, :5] = -1, -9999
        array[12, 12] = 0
        lost[:3, :4] = lost[-2:, :5] = lost[:, -3:] = True
        for kind in ("alpha", "mask", None):
            make_raster(self.folder / "dem.tif", array, -1, scale=0.5, offset=3.0, unit="ft")
            name = "dem.tif" if kind is None else self.masked_as(kind)
            made = self.run_printed(self.told(name))
            self.make("basins", made, "basins.tif")
            expected = lost if kind else np.isin(array, (-1, -9999))
            np.testing.assert_array_equal(read(self.folder / "basins.tif") == -9999, expected)
            self.make("fill", made, "one.tif")
            dataset = gdal.Open(str(self.folder / "one.tif"))
            self.assertEqual(dataset.GetRasterBand(1).GetUnitType(), "ft")
            # The north row falls from the first to the last cell but for pits: the edge keeps its height.
            found = dataset.ReadAsArray()
            edge = ~expected[0]
            np.testing.assert_allclose(found[0, edge], array[0, edge] * 0.5 + 3)

    def masked_as(self, kind):
        """The raster with its last columns taken out, and its factor."""
        valid = np.ones(read(self.folder / "dem.tif").shape, bool)
        valid[:, -3:] = False
        name = add_mask(self.folder / "dem.tif", kind, valid)
        dataset = gdal.Open(str(self.folder / name), gdal.GA_Update)
        band = dataset.GetRasterBand(1)
        band.SetScale(0.5)
        band.SetOffset(3.0)
        band.SetUnitType("ft")
        band.SetNoDataValue(-1)
        return name


class Pages(CureCase):
    """The lines of pages."""

    def test_each_warp_gives_cells_outside_a_nodata_value(self):
        lines = [line for page in PAGES for line in re.sub(r"\\\n", " ", (TOP / page).read_text()).splitlines()
                 if re.match(r"^ *gdalwarp ", line)]
        self.assertGreater(len(lines), 5)
        for line in lines:
            self.assertRegex(line, "-dstnodata (-9999|nan)", line)

    def test_the_recipe_for_masks(self):
        line = re.search(r"`(gdalwarp .* masked\.tif dem\.tif)`", (TOP / "docs/recipes.md").read_text())
        valid = np.ones((60, 50), bool)
        valid[:20, :15] = False
        for kind in ("alpha", "mask"):
            make_raster(self.folder / "plain.tif", plane(60, 50))
            os.replace(self.folder / add_mask(self.folder / "plain.tif", kind, valid), self.folder / "masked.tif")
            self.run_printed(line[1])
            array = read(self.folder / "dem.tif")
            np.testing.assert_array_equal((array if array.ndim == 2 else array[0]) == -9999, ~valid)
            (self.folder / "dem.tif").unlink()

    def test_the_recipe_for_degrees(self):
        placed = Projected.DEGREES
        make_raster(self.folder / "degrees.tif", plane(60, 50), placed=placed, projection="EPSG:4326")
        line = re.search(r"^gdalwarp .* degrees\.tif metres\.tif$", (TOP / "docs/recipes.md").read_text(), re.MULTILINE)
        self.check_plane(self.run_printed(line[0]), placed, "EPSG:4326", UTM)


if __name__ == "__main__":
    unittest.main()
