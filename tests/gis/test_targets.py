"""What belongs to the user is never replaced: files that are read, write-protected files, styles, other layers."""
import os
import unittest
import zipfile

import numpy as np
from osgeo import gdal

from fixtures import Case, at, centre, hills, make_points, make_raster, read
from relief_gis.datasets import files_of


class Sources(Case):
    """A file of the raster's dataset as target, by whatever name: refused, and as it was."""

    def setUp(self):
        super().setUp()
        make_raster(self.folder / "dem.tif", hills().astype(np.float32))
        self.bytes = (self.folder / "dem.tif").read_bytes()

    def refuse_target(self, source, target="dem.tif", words="is a file of"):
        self.refuse(1, f"{target} {words}", "fill", source, target)
        self.assertEqual((self.folder / "dem.tif").read_bytes(), self.bytes)

    def build(self, name, source, folder=None):
        """Makes a virtual dataset by GDAL in the test's folder."""
        before = os.getcwd()
        os.chdir(folder or self.folder)
        try:
            gdal.BuildVRT(str(name), [str(source)]).FlushCache()
        finally:
            os.chdir(before)

    def test_itself_and_its_links(self):
        self.refuse_target("dem.tif", words="is the raster that is read")
        (self.folder / "soft.tif").symlink_to("dem.tif")
        (self.folder / "hard.tif").hardlink_to(self.folder / "dem.tif")
        for name in ("soft.tif", "hard.tif"):
            self.refuse_target("dem.tif", name, "is the raster that is read")
            self.refuse_target(name, "dem.tif", "is the raster that is read")

    def test_virtual_datasets_at_any_depth(self):
        self.build("one.vrt", "dem.tif")
        self.build("two.vrt", "one.vrt")
        (self.folder / "below").mkdir()
        self.build("three.vrt", "../two.vrt", self.folder / "below")
        for name in ("one.vrt", "two.vrt", "below/three.vrt"):
            self.refuse_target(name)
        (self.folder / "hard.tif").hardlink_to(self.folder / "dem.tif")
        self.refuse_target("below/three.vrt", "hard.tif")

    def test_a_warped_virtual_dataset(self):
        gdal.Warp(str(self.folder / "warped.vrt"), str(self.folder / "dem.tif"), format="VRT")
        self.refuse_target("warped.vrt")

    def test_names_that_hold_another(self):
        self.refuse_target("GTIFF_DIR:1:dem.tif")
        self.refuse_target("vrt://dem.tif?bands=1")
        size = len(self.bytes)
        self.refuse_target(f"/vsisubfile/0_{size},dem.tif")
        self.build("named.vrt", "GTIFF_DIR:1:dem.tif")
        self.refuse_target("named.vrt")
        self.refuse_target((self.folder / "named.vrt").read_text())

    def test_an_archive(self):
        with zipfile.ZipFile(self.folder / "zipped.tif", "w") as archive:
            archive.write(self.folder / "dem.tif", "dem.tif")
        before = (self.folder / "zipped.tif").read_bytes()
        name = f"/vsizip/{{{self.folder / 'zipped.tif'}}}/dem.tif"
        self.refuse(1, "zipped.tif is a file of", "fill", name, "zipped.tif")
        self.assertEqual((self.folder / "zipped.tif").read_bytes(), before)

    def test_a_file_of_that_name_elsewhere_is_free(self):
        (self.folder / "below").mkdir()
        self.build("one.vrt", "../dem.tif", self.folder / "below")
        for _ in range(2):
            self.make("fill", "below/one.vrt", "below/dem.tif")

    def test_the_files_of_a_dataset(self):
        make_raster(self.folder / "dem.asc.tif", hills().astype(np.float32))
        gdal.Translate(str(self.folder / "dem.asc"), str(self.folder / "dem.tif"), format="AAIGrid")
        found = {os.path.basename(path) for path in files_of([str(self.folder / "dem.asc")]).values()}
        self.assertTrue({"dem.asc", "dem.prj"} <= found, found)
        self.assertEqual(files_of(["none.tif", "/vsistdin/", "PG:dbname=none"]), {})


class Layers(Case):
    """Layers of points, and the gauges that are written."""

    def setUp(self):
        super().setUp()
        make_raster(self.folder / "dem.tif", hills().astype(np.float32))
        make_points(self.folder / "gauges.gpkg", [centre(10, 20)])
        self.snap = ["--snap", "2", "--snapped"]

    def refuse_gauges(self, text, *words):
        before = (self.folder / "gauges.gpkg").read_bytes()
        self.refuse(1, text, "catchments", "dem.tif", "out.tif", *words)
        self.assertEqual((self.folder / "gauges.gpkg").read_bytes(), before)

    def test_a_layer_that_is_read(self):
        is_read = "gauges.gpkg is a layer of points that is read"
        self.refuse_gauges(is_read, "--points", "gauges.gpkg", *self.snap, "gauges.gpkg")
        self.refuse_gauges(is_read, "--points", "gauges.gpkg|layername=places", *self.snap, "gauges.gpkg")
        self.refuse_gauges(is_read, *at(10, 20), "--sinks", "gauges.gpkg", *self.snap, "gauges.gpkg")
        (self.folder / "link.gpkg").symlink_to("gauges.gpkg")
        self.refuse_gauges("link.gpkg is a layer", "--points", "gauges.gpkg", *self.snap, "link.gpkg")

    def test_a_virtual_layer(self):
        (self.folder / "gauges.vrt").write_text(
            '<OGRVRTDataSource><OGRVRTLayer name="places">'
            '<SrcDataSource relativeToVRT="1">gauges.gpkg</SrcDataSource>'
            "</OGRVRTLayer></OGRVRTDataSource>")
        self.refuse_gauges("gauges.gpkg is a file of gauges.vrt", "--points", "gauges.vrt", *self.snap, "gauges.gpkg")

    def test_a_raster_in_a_geopackage(self):
        gdal.Translate(str(self.folder / "dem.gpkg"), str(self.folder / "dem.tif"), format="GPKG",
                       outputType=gdal.GDT_Byte)
        self.refuse(1, "dem.gpkg is the raster that is read", "catchments", "dem.gpkg", "out.tif", *at(10, 20),
                    *self.snap, "dem.gpkg")
        self.refuse(1, "dem.gpkg has other layers, which would be lost", "catchments", "dem.tif", "out.tif",
                    *at(10, 20), *self.snap, "dem.gpkg")

    def test_one_layer_of_the_users(self):
        self.refuse_gauges("gauges.gpkg has other layers, which would be lost", *at(10, 20), *self.snap, "gauges.gpkg")

    def test_other_layers(self):
        dataset = gdal.OpenEx(str(self.folder / "gauges.gpkg"), gdal.OF_UPDATE)
        dataset.CreateLayer("more")
        del dataset
        self.refuse_gauges("gauges.gpkg has other layers, which would be lost", *at(10, 20), *self.snap, "gauges.gpkg")

    def test_an_older_output_is_replaced(self):
        for words in (at(10, 20), at(20, 30)):
            self.make("catchments", "dem.tif", "out.tif", *words, *self.snap, "moved.gpkg")
        moved = gdal.OpenEx(str(self.folder / "moved.gpkg"))
        self.assertEqual(moved.GetLayer(0).GetFeatureCount(), 1)

    def test_one_that_is_open_elsewhere(self):
        (self.folder / "gauges.gpkg-wal").write_bytes(b"pages")
        self.refuse(4, "gauges.gpkg is open in another program", "catchments", "dem.tif", "out.tif", *at(10, 20),
                    *self.snap, "gauges.gpkg")


class Old(Case):
    """Files that lie where a map is written."""

    def setUp(self):
        super().setUp()
        make_raster(self.folder / "dem.tif", hills().astype(np.float32))

    def test_write_protected(self):
        make_raster(self.folder / "out.tif", hills().astype(np.float32))
        (self.folder / "out.tif.ovr").write_text("overviews")
        for name in ("out.tif.ovr", "out.tif"):
            (self.folder / name).chmod(0o444)
            self.refuse(4, f"{name} is write-protected", "fill", "dem.tif", "out.tif")
            (self.folder / name).chmod(0o644)
        self.make("fill", "dem.tif", "out.tif")
        (self.folder / "a b.tif").touch(0o444)
        self.refuse(4, "chmod u+w 'a b.tif'", "fill", "dem.tif", "a b.tif")

    def test_no_raster(self):
        (self.folder / "out.tif").write_text("a letter")
        self.refuse(1, "out.tif is there and is no raster", "fill", "dem.tif", "out.tif")
        self.assertEqual((self.folder / "out.tif").read_text(), "a letter")
        # As mktemp makes one.
        (self.folder / "out.tif").write_text("")
        self.make("fill", "dem.tif", "out.tif")

    def test_no_file(self):
        os.mkfifo(self.folder / "pipe.tif")
        (self.folder / "null.tif").symlink_to("/dev/null")
        for name in ("pipe.tif", "null.tif"):
            self.refuse(4, f"{name} cannot be written: it is no file", "fill", "dem.tif", name)

    def test_one_that_is_cut_off_is_replaced(self):
        whole = (self.folder / "dem.tif").read_bytes()
        (self.folder / "out.tif").write_bytes(whole[:200])
        self.make("fill", "dem.tif", "out.tif")
        self.assertEqual(read(self.folder / "out.tif").shape, hills().shape)

    def test_styles(self):
        self.assertEqual(self.make("flow", "dem.tif", "out.tif"), "")
        first = (self.folder / "out.qml").read_text()
        self.assertEqual(self.make("accumulate", "dem.tif", "out.tif"), "")
        self.assertNotEqual((self.folder / "out.qml").read_text(), first)
        # Filled heights have no style, and an older map's goes.
        self.assertEqual(self.make("fill", "dem.tif", "out.tif"), "")
        self.assertFalse((self.folder / "out.qml").exists())

    def test_a_style_of_the_user_stays(self):
        for style, mode in (("<qgis version='3.22'/>", 0o644), (self.style(), 0o444)):
            (self.folder / "out.qml").write_text(style)
            (self.folder / "out.qml").chmod(mode)
            for name in ("flow", "fill"):
                self.assertIn("out.qml is no style of relief-gis, or write-protected, and was left alone",
                              self.make(name, "dem.tif", "out.tif"))
                self.assertEqual((self.folder / "out.qml").read_text(), style)
            (self.folder / "out.qml").chmod(0o644)

    def style(self):
        """A style of the command."""
        self.make("flow", "dem.tif", "other.tif")
        return (self.folder / "other.qml").read_text()


if __name__ == "__main__":
    unittest.main()
