"""What the tests share: rasters made with GDAL, the command, and `relief` run by hand."""
import contextlib
import io
import json
import os
import pathlib
import shutil
import subprocess
import sys
import tempfile
import unittest
import unittest.mock

import numpy as np
from osgeo import gdal, ogr, osr

HERE = pathlib.Path(__file__).resolve().parent
TOP = HERE.parent.parent
GIS = TOP / "gis"
sys.path.insert(0, str(GIS))
from relief_gis.command import main  # noqa: E402

RELIEF = str(pathlib.Path(os.environ.get("RELIEF") or TOP / "relief").resolve())
UTM = "EPSG:32632"
PLACED = (500000.0, 30.0, 0.0, 5200000.0, 0.0, -30.0)
FLOAT_NODATA = -3.4028234663852886e38
TYPES = {"uint8": gdal.GDT_Byte, "int16": gdal.GDT_Int16, "uint16": gdal.GDT_UInt16, "int32": gdal.GDT_Int32,
         "float32": gdal.GDT_Float32, "float64": gdal.GDT_Float64}
if hasattr(gdal, "GDT_Int64"):
    TYPES["int64"] = gdal.GDT_Int64
gdal.UseExceptions()
ogr.UseExceptions()
osr.UseExceptions()


def hills(rows=30, cols=40, seed=1, decimals=2):
    """Rough ground with pits, as float64 with so many decimals."""
    random = np.random.default_rng(seed)
    row, col = np.mgrid[0:rows, 0:cols]
    ground = 300 + 40 * np.sin(row / 5.0) * np.cos(col / 7.0) - 2.0 * row + random.random((rows, cols)) * 9
    return np.round(ground, decimals)


def make_raster(path, array, nodata=None, placed=PLACED, projection=UTM, bands=1, **more):
    """Writes a GeoTIFF; `mask` sets its mask, `metadata` its texts, `scale` and `unit` those of its band."""
    gdal.SetConfigOption("GDAL_TIFF_INTERNAL_MASK", "YES")
    rows, cols = array.shape
    dataset = gdal.GetDriverByName("GTiff").Create(str(path), cols, rows, bands, TYPES[array.dtype.name])
    if placed is not None:
        dataset.SetGeoTransform(placed)
    if projection:
        reference = osr.SpatialReference()
        reference.SetFromUserInput(projection)
        dataset.SetProjection(reference.ExportToWkt())
    dataset.SetMetadata(more.get("metadata", {}))
    band = dataset.GetRasterBand(bands)
    if nodata is not None:
        band.SetNoDataValue(nodata)
    if "scale" in more:
        band.SetScale(more["scale"])
        band.SetOffset(more.get("offset", 0.0))
    if "unit" in more:
        band.SetUnitType(more["unit"])
    band.WriteArray(array)
    if "mask" in more:
        dataset.CreateMaskBand(gdal.GMF_PER_DATASET)
        band.GetMaskBand().WriteArray(np.where(more["mask"], 255, 0).astype(np.uint8))
    del band, dataset
    return path


def make_points(path, points, driver="GPKG", projection=UTM, fields=()):
    """Writes points (x, y, values of the fields) as a vector file."""
    dataset = gdal.GetDriverByName(driver).Create(str(path), 0, 0, 0, gdal.GDT_Unknown)
    reference = None
    if projection:
        reference = osr.SpatialReference()
        reference.SetFromUserInput(projection)
        reference.SetAxisMappingStrategy(osr.OAMS_TRADITIONAL_GIS_ORDER)
    layer = dataset.CreateLayer("places", reference, ogr.wkbPoint)
    for name in fields:
        layer.CreateField(ogr.FieldDefn(name, ogr.OFTReal))
    for x, y, *values in points:
        feature = ogr.Feature(layer.GetLayerDefn())
        for name, value in zip(fields, values):
            feature.SetField(name, value)
        point = ogr.Geometry(ogr.wkbPoint)
        point.AddPoint_2D(x, y)
        feature.SetGeometry(point)
        layer.CreateFeature(feature)
    del layer, dataset
    return path


def centre(row, col, placed=PLACED):
    """The coordinates of a cell's centre."""
    return placed[0] + (col + 0.5) * placed[1], placed[3] + (row + 0.5) * placed[5]


def at(row, col):
    """The words of a place by coordinates."""
    return "--at", "{},{}".format(*centre(row, col))


def read(path, band=1):
    """A band as an array, in its own type."""
    dataset = gdal.Open(str(path))
    return dataset.GetRasterBand(band).ReadAsArray()


def nodata_of(path):
    """The NODATA value of the first band."""
    dataset = gdal.Open(str(path))
    return dataset.GetRasterBand(1).GetNoDataValue()


def info(path):
    """What `gdalinfo -json` says."""
    done = subprocess.run(["gdalinfo", "-json", str(path)], capture_output=True, text=True, check=True)
    return json.loads(done.stdout)


def by_hand(words, raster, decimals=0):
    """The words of a map that `relief` makes of a raster by GDAL's grid text: (rows, cols) of str."""
    with tempfile.TemporaryDirectory() as folder:
        text = os.path.join(folder, "dem.asc")
        digits = ["-co", f"DECIMAL_PRECISION={decimals}"] if decimals else []
        subprocess.run(["gdal_translate", "-q", "-of", "AAIGrid", *digits, str(raster), text], check=True,
                       capture_output=True)
        with open(text, "rb") as file:
            done = subprocess.run([RELIEF, words[0], "--scale", str(decimals), *words[1:]], stdin=file,
                                  capture_output=True, text=True, check=True)
    return np.array([line.split() for line in done.stdout.splitlines()[6:]])


class Case(unittest.TestCase):
    """A test with a folder of its own, in which the command runs."""

    def setUp(self):
        self.folder = pathlib.Path(tempfile.mkdtemp())
        self.addCleanup(shutil.rmtree, self.folder)

    def run_command(self, *words, program=RELIEF):
        """Runs the command's `main` within this process, in the test's folder; its status and lines."""
        lines = io.StringIO()
        before = os.getcwd()
        os.chdir(self.folder)
        try:
            with contextlib.redirect_stderr(lines), unittest.mock.patch.dict(os.environ, RELIEF=program):
                status = main([str(word) for word in words])
        except SystemExit as end:
            status = end.code
        finally:
            os.chdir(before)
        return status, lines.getvalue()

    def make(self, *words, **more):
        """Runs the command, which has to succeed; its lines."""
        status, lines = self.run_command(*words, **more)
        self.assertEqual(status, 0, lines)
        return lines

    def refuse(self, status, text, *words, **more):
        """Runs the command, which has to end with a status, a last line that has a text, and no file more."""
        before = sorted(os.listdir(self.folder))
        found, lines = self.run_command(*words, **more)
        self.assertEqual(found, status, lines)
        self.assertIn(text, lines.splitlines()[-1])
        self.assertEqual(sorted(os.listdir(self.folder)), before)
        return lines


def environment(program=RELIEF, **more):
    """The variables of a run: the package below gis/, and the program."""
    return {**os.environ, "PYTHONPATH": str(GIS), "RELIEF": program, **more}
