"""Whole upstream areas of gauges as polygons, against the judge's flow paths and the program's accumulation."""
import random
import unittest
from fractions import Fraction

import numpy as np
from osgeo import gdal, ogr

import judge
from fixtures import Case, at, centre, hills, make_points, make_raster, read

NODATA = -9999


class Polygons(Case):
    def areas(self, *words):
        """The features of the layer of areas that a run writes: fields, outline, and the cells that it covers."""
        self.make("catchments", "dem.tif", "out.tif", "--voids", "drain", *words, "--polygons", "areas.gpkg")
        source = ogr.Open(str(self.folder / "areas.gpkg"))
        layer = source.GetLayerByName("catchments")
        return [({**feature.items()}, feature.GetGeometryRef().Clone(), self.covered(feature)) for feature in layer]

    def covered(self, feature):
        """The cells of which the centres lie in the polygon of a feature, by GDAL."""
        dem = gdal.Open(str(self.folder / "dem.tif"))
        raster = gdal.GetDriverByName("MEM").Create("", dem.RasterXSize, dem.RasterYSize, 1, gdal.GDT_Byte)
        raster.SetGeoTransform(dem.GetGeoTransform())
        raster.SetProjection(dem.GetProjection())
        source = ogr.GetDriverByName("Memory").CreateDataSource("")
        reference = feature.GetGeometryRef().GetSpatialReference()
        layer = source.CreateLayer("one", reference, ogr.wkbMultiPolygon)
        layer.CreateFeature(feature.Clone())
        gdal.RasterizeLayer(raster, [1], layer, burn_values=[1])
        return {(int(row), int(col)) for row, col in np.argwhere(raster.ReadAsArray() == 1)}

    def test_random_rasters(self):
        chance = random.Random(11)
        for number in range(40):
            rows, cols = chance.randint(3, 14), chance.randint(3, 14)
            array = np.array([[chance.randint(0, 6) if chance.randrange(15) else NODATA for _ in range(cols)]
                              for _ in range(rows)])
            land = {(int(row), int(col)): int(array[row, col]) for row, col in np.argwhere(array != NODATA)}
            if len(land) < 3:
                continue
            make_raster(self.folder / "dem.tif", array.astype(np.int16), NODATA)
            gauges = [chance.choice(sorted(land)) for _ in range(chance.randint(1, 5))]
            sinks = [chance.choice(sorted(land))] if chance.randrange(3) == 0 else []
            words = [word for gauge in gauges for word in at(*gauge)]
            words += [word for sink in sinks for word in ("--sink-at", at(*sink)[1])]
            found = self.areas(*words)
            self.assertEqual(len(found), len(gauges))
            drainage = judge.Drainage(land, sinks)
            for at_number, ((fields, outline, covered), gauge) in enumerate(zip(found, gauges), 1):
                self.check(drainage, gauges, at_number, gauge, fields, outline, covered)

    def check(self, drainage, gauges, number, gauge, fields, outline, covered):
        land = drainage.land
        upstream = {cell for cell in land if gauge in drainage.path(cell)}
        self.assertEqual(covered, upstream)
        self.assertTrue(outline.IsValid())
        self.assertEqual(outline.Area(), 900 * len(upstream))
        self.assertEqual((fields["number"], fields["cells"], fields["area"], fields["area_km2"]),
                         (number, len(upstream), 900 * len(upstream), len(upstream) * 900 / 1e6))
        self.assertEqual(fields["cells"], drainage.accumulation()[gauge] + 1)
        first = drainage.catchments(gauges)
        own = [cell for cell in land if first[cell] == number]
        self.assertEqual(fields["own_cells"], len(own))
        lower = [gauges.index(cell) + 1 for cell in drainage.path(gauge)[1:] if cell in gauges]
        self.assertEqual(fields["below"], lower[0] if lower else None)
        heights = [land[cell] for cell in upstream]
        self.assertEqual((fields["mean"], fields["least"], fields["greatest"]),
                         (float(Fraction(sum(heights), len(heights))), min(heights), max(heights)))
        spoiled = drainage.below_rim()
        self.assertEqual(fields["uncertain"], sum(spoiled[cell] for cell in upstream))
        rim = [cell for cell in upstream if len(drainage.near[cell]) < 8 and cell not in gauges]
        self.assertEqual(fields["edge_cells"], len(rim))

    def test_as_accumulate(self):
        heights = hills(60, 50)
        make_raster(self.folder / "dem.tif", heights.astype(np.float32))
        self.make("accumulate", "dem.tif", "counts.tif")
        counts = read(self.folder / "counts.tif")
        order = np.argsort(counts, axis=None)[::-37]
        places = [tuple(map(int, np.unravel_index(place, counts.shape))) for place in order]
        make_points(self.folder / "gauges.gpkg", [centre(*place) for place in places[:20]])
        found = self.areas("--points", "gauges.gpkg")
        self.assertEqual([fields["cells"] for fields, *_ in found], [counts[place] + 1 for place in places[:20]])
        for fields, _, covered in found:
            self.assertAlmostEqual(fields["mean"], np.mean([heights[cell] for cell in covered]), places=6)
            self.assertEqual(fields["least"], min(float(heights[cell]) for cell in covered))

    def test_feet_and_no_projection(self):
        # The unit of EPSG:2263 is the US survey foot of 1200 / 3937 m.
        make_raster(self.folder / "dem.tif", hills().astype(np.float32), placed=(1e6, 30, 0, 2e5, 0, -30),
                    projection="EPSG:2263")
        fields = self.areas("--at", "1000600,199700")[0][0]
        self.assertAlmostEqual(fields["area_km2"], fields["cells"] * (30 * 1200 / 3937)**2 / 1e6, places=12)
        make_raster(self.folder / "dem.tif", hills().astype(np.float32), projection="")
        self.assertIsNone(self.areas(*at(10, 20), "--no-projection")[0][0]["area_km2"])

    def test_refused(self):
        make_raster(self.folder / "dem.tif", hills().astype(np.float32))
        make_points(self.folder / "gauges.gpkg", [centre(10, 20)])
        self.refuse(1, "a.shp would be a GeoPackage", "catchments", "dem.tif", "out.tif", *at(10, 20), "--polygons",
                    "a.shp")
        self.refuse(1, "gauges.gpkg is a layer of points that is read", "catchments", "dem.tif", "out.tif", "--points",
                    "gauges.gpkg", "--polygons", "gauges.gpkg")


if __name__ == "__main__":
    unittest.main()
