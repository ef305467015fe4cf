"""The functions on DataArrays: dims, coordinates and attributes, and rows that begin in the south."""
import os
import types
import unittest
import unittest.mock

import numpy as np

import fixtures
import relief_gis

try:
    import xarray
except ImportError:
    xarray = None

FALLING = np.array([[9, 9, 9, 9], [5, 6, 5, 5], [4, 1, 4, 4], [2, 3, 2, 3]])
NORTH_UP = {"y": [90.0, 60.0, 30.0, 0.0], "x": [0.0, 30.0, 60.0, 90.0]}


class StandIn:
    """What a DataArray has, for machines without xarray."""

    def __init__(self, values, dims=("y", "x"), coords=None, attrs=None, name=None):
        self.values, self.dims, self.attrs, self.name, self.encoding = values, dims, dict(attrs or {}), name, {}
        self.coords = {key: it if hasattr(it, "values") else types.SimpleNamespace(values=np.asarray(it), attrs={})
                       for key, it in (coords or {}).items()}

    @property
    def shape(self):
        return self.values.shape

    def copy(self, data):
        """A copy with other values."""
        made = StandIn(data, self.dims, self.coords, self.attrs, self.name)
        made.encoding = dict(self.encoding)
        return made


class OfStandIns(unittest.TestCase):
    kind = StandIn

    @staticmethod
    def coordinate(values, **attrs):
        return types.SimpleNamespace(values=np.asarray(values), attrs=attrs)

    def setUp(self):
        patch = unittest.mock.patch.dict(os.environ, RELIEF=fixtures.RELIEF)
        patch.start()
        self.addCleanup(patch.stop)

    def made(self, values=FALLING, encoding=None, **more):
        found = self.kind(np.array(values), **{"dims": ("y", "x"), "coords": NORTH_UP, **more})
        found.encoding = encoding or {}
        return found

    def refuse(self, told, **more):
        with self.assertRaisesRegex(relief_gis.InputError, told):
            relief_gis.fill(self.made(**more))

    def test_dims_coordinates_and_attributes_of_filled_heights(self):
        attrs = {"units": "m", "long_name": "height", "grid_mapping": "crs", "actual_range": [1, 9],
                 "STATISTICS_MEAN": 5}
        given = self.made(FALLING.astype("int16"), attrs=attrs, name="dem", encoding={"dtype": "int16"})
        found = relief_gis.fill(given)
        self.assertIs(type(found), self.kind)
        self.assertEqual((tuple(found.dims), found.name, found.values.dtype), (("y", "x"), "dem", np.int16))
        for name in ("y", "x"):
            self.assertEqual(list(found.coords[name].values), NORTH_UP[name])
        self.assertEqual(found.attrs, {"units": "m", "long_name": "height", "grid_mapping": "crs"})
        self.assertEqual(found.encoding, {"dtype": "int16"})
        # The pit of 1 spills at 2.
        self.assertEqual(found.values.tolist(), [[9, 9, 9, 9], [5, 6, 5, 5], [4, 2, 4, 4], [2, 3, 2, 3]])
        self.assertEqual((given.values.tolist(), given.attrs), (FALLING.tolist(), attrs))

    def test_attributes_of_other_maps(self):
        given = self.made(attrs={"units": "m", "_FillValue": 5, "grid_mapping": "crs"}, name="dem",
                          encoding={"dtype": "float32", "scale_factor": 1, "grid_mapping": "crs"})
        for name, nodata in (("flow", 255), ("accumulate", -9999), ("basins", -9999)):
            found = getattr(relief_gis, name)(given)
            self.assertEqual(found.attrs, {"grid_mapping": "crs", "_FillValue": nodata})
            self.assertEqual((found.name, found.encoding), (name, {"grid_mapping": "crs"}))
            np.testing.assert_array_equal(found.values == nodata, FALLING == 5)

    def test_rows_from_the_south(self):
        """On a slope to the north water goes north, whichever row comes first."""
        slope = np.array([[9, 9, 9], [5, 5, 5], [1, 1, 1]])
        north = {"y": [0, 30, 60], "x": [0, 30, 60]}
        self.assertEqual(relief_gis.flow(slope)[1, 1], 4)
        self.assertEqual(relief_gis.flow(self.made(slope, coords=north)).values[1, 1], 64)
        west = {"y": [60, 30, 0], "x": [60, 30, 0]}
        self.assertEqual(relief_gis.flow(self.made(slope.T, coords=west)).values[1, 1], 16)
        self.assertEqual(relief_gis.flow(self.made(slope.T, coords={**west, "x": [0, 30, 60]})).values[1, 1], 1)

    def test_turned_maps_are_turned_back(self):
        turned = {name: values[::-1] for name, values in NORTH_UP.items()}
        heights = np.random.default_rng(5).integers(0, 9, (4, 4))
        places = {"sinks": [(1, 2)]}
        for name, words, others in (("fill", {"sinks": [(1, 2)]}, {"sinks": [(2, 1)]}),
                                    ("flow", places, {"sinks": [(2, 1)]}), ("accumulate", {}, {}), ("basins", {}, {}),
                                    ("catchments", {"gauges": [(0, 3), (1, 1)]}, {"gauges": [(3, 0), (2, 2)]}),
                                    ("view", {"observers": [(0, 1, 2)]}, {"observers": [(3, 2, 2)]})):
            expected = getattr(relief_gis, name)(heights, **words)
            found = getattr(relief_gis, name)(self.made(heights[::-1, ::-1], coords=turned), **others)
            np.testing.assert_array_equal(found.values, expected[::-1, ::-1], name)
            self.assertEqual(list(found.coords["y"].values), turned["y"])

    def test_places_outside_keep_their_names(self):
        turned = {**NORTH_UP, "y": NORTH_UP["y"][::-1]}
        with self.assertRaisesRegex(relief_gis.ReliefError, r"sinks\[1\]: the sink lies outside"):
            relief_gis.fill(self.made(coords=turned), sinks=[(0, 1), (4, 0)])

    def test_values_without_data(self):
        for attrs in ({"_FillValue": 5}, {"nodata": 5}, {"missing_value": np.float32(5)}, {"nodatavals": (5.0,)},
                      {"missing_value": np.array([5])}, {"_FillValue": np.nan, "nodata": 5}, {"nodatavals": (None, 5)}):
            found = relief_gis.accumulate(self.made(attrs=attrs))
            np.testing.assert_array_equal(found.values == -9999, FALLING == 5, str(attrs))
            found = relief_gis.accumulate(self.made(attrs=attrs), nodata=9)
            np.testing.assert_array_equal(found.values == -9999, FALLING == 9, str(attrs))
        found = relief_gis.accumulate(self.made(encoding={"_FillValue": 5}))
        np.testing.assert_array_equal(found.values == -9999, FALLING == 5)
        # A number of the file: -5 as a height.
        found = relief_gis.accumulate(self.made(encoding={"_FillValue": 5, "add_offset": -10}))
        self.assertFalse(np.any(found.values == -9999))
        found = relief_gis.fill(self.made(np.where(FALLING == 5, np.nan, FALLING)))
        np.testing.assert_array_equal(np.isnan(found.values), FALLING == 5)
        self.refuse("the attribute nodata='none' is no number: give nodata=", attrs={"nodata": "none"})

    def test_numbers_of_a_file_are_no_heights(self):
        self.refuse("mask_and_scale=True", attrs={"scale_factor": 0.1})
        self.refuse("mask_and_scale=True", attrs={"add_offset": 100})
        self.refuse("mask_and_scale=True", attrs={"scales": (0.5,), "offsets": (0.0,)})
        relief_gis.fill(self.made(attrs={"scale_factor": 1.0, "add_offset": 0.0, "scales": (1.0,), "offsets": (0.0,)}))

    def test_dims_and_coordinates_that_are_none(self):
        self.refuse(r'transpose\("y", "x"\)', dims=("x", "y"))
        self.refuse("rows come first", dims=("northing", "y"), coords={})
        self.refuse("are not square", coords={**NORTH_UP, "x": [0, 20, 40, 60]})
        self.refuse("the coordinate x is not evenly spaced", coords={**NORTH_UP, "x": [0, 30, 61, 90]})
        for bad in ([0, 0, 0, 0], [0, 30, 0, 30], [0, 30, 90, 60]):
            self.refuse("the coordinate y is not evenly spaced", coords={**NORTH_UP, "y": bad})
        for bad in ([0, 30, np.nan, 90], [0, 30, 60, np.inf], list("abcd")):
            self.refuse("the coordinate x is no list of lengths", coords={**NORTH_UP, "x": bad})
        self.refuse("isel", values=FALLING[None], dims=("band", "y", "x"), coords={})

    def test_degrees(self):
        self.refuse("the coordinate lat is in degrees", dims=("lat", "lon"), coords={})
        self.refuse("the coordinate y is in degrees",
                    coords={**NORTH_UP, "y": self.coordinate(NORTH_UP["y"], units="degrees_north")})
        for attrs in ({"crs_wkt": 'GEOGCS["WGS 84",..]'}, {"spatial_ref": 'GEOGCRS["WGS 84",..]'},
                      {"grid_mapping_name": "latitude_longitude"}):
            self.refuse("the projection is in degrees", coords={**NORTH_UP, "spatial_ref": self.coordinate(0, **attrs)})
        projected = self.coordinate(0, crs_wkt='PROJCS["UTM",GEOGCS["WGS 84",..]]')
        relief_gis.fill(self.made(coords={**NORTH_UP, "spatial_ref": projected}))

    def test_no_coordinates_and_one_row(self):
        self.assertEqual(relief_gis.fill(self.made(coords={})).values[2, 1], 2)
        found = relief_gis.fill(self.made(FALLING[:1], coords={"y": [5.0], "x": NORTH_UP["x"]}))
        self.assertEqual(found.values.tolist(), [[9, 9, 9, 9]])

    def test_coordinates_that_float32_rounds(self):
        rows = np.float32(5200000) + np.arange(4, dtype=np.float32)[::-1] * np.float32(10.1)
        relief_gis.fill(self.made(coords={"y": rows, "x": [0, 10.1, 20.2, 30.3]}))


@unittest.skipIf(xarray is None, "no xarray: package python3-xarray")
class OfXarray(OfStandIns):
    if xarray is not None:
        kind = xarray.DataArray

    @staticmethod
    def coordinate(values, **attrs):
        values = np.asarray(values)
        return xarray.Variable(("y",) if values.ndim else (), values, attrs)

    def test_a_dataset_is_no_grid(self):
        with self.assertRaisesRegex(relief_gis.InputError, "choose one"):
            relief_gis.fill(self.made().to_dataset(name="dem"))

    def test_maps_fit_together(self):
        """xarray's own arithmetic joins a map with its heights by the coordinates."""
        south = self.made(FALLING[::-1].astype(float), coords={**NORTH_UP, "y": NORTH_UP["y"][::-1]})
        depth = relief_gis.fill(south) - south
        self.assertEqual(float(depth.sel(y=30, x=30)), 1)
        self.assertEqual(float(depth.sum()), 1)


if __name__ == "__main__":
    unittest.main()
