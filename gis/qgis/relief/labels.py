"""The labels of the dialogues, and messages in their words.

The package's messages name the command's options: VOCABULARY has what a user of QGIS sees in place of each.
"""
from __future__ import annotations

VOIDS = ["refuse them", "let water drain off there", "fill them by interpolation"]
HOLES = "Holes inside the land"
DECIMALS = "Decimals of heights that are kept"
THREADS = "Threads"
EXTENT = "Extent to read"
BAND = "Band"
SNAP = "Move gauges to the greatest accumulation within (cells)"
EYE = "Height of the eyes above the ground"
EYE_FIELD = "Field with the height of each eye"
TARGET = "Height of the targets above the ground"
RADIUS = "Radius"
UNCERTAIN = "Uncertain cells, downstream of where the data ends"
THRESHOLD = "Streams drain more cells than"
EACH = "A band for each observer"
VISIBILITY = "Who sees whom"
CURVATURE = "Let the earth curve"
REFRACTION = "Share of the curvature that refraction takes away"
TARGET_FIELD = "Field with the height of each target"
RADIUS_FIELD = "Field with the radius of each"
NAME_FIELD = "Field with the name of each"
AROUND = "Read only what has the catchment of this place"
POLYGONS = "Whole upstream areas"
LINES = "Streams as lines"
LEAST = "Basins of fewer cells are none"
OTHER_BAND = "Band of the other map"
CODES = "Codes of its directions"
COMPARED = ["filled heights", "directions", "accumulation", "basins"]
THRESHOLD_AREA = "Streams drain more hectares than (in place of cells)"
TOGETHER = {"fill": "Filled heights", "depth": "Depth", "flow": "Directions", "accumulate": "Accumulation",
            "area": "Area", "streams": "Streams", "basins": "Basins", "catchments": "Catchments"}
SKIP = "Leave out points that lie where there is no data"
PROPERTIES = "the layer's properties"

VOCABULARY = (
    (r"--voids fill", f"'{HOLES}: {VOIDS[2]}'"),
    (r"--voids drain", f"'{HOLES}: {VOIDS[1]}'"),
    (r"give it by --projection EPSG:NUMBER, or --no-projection.*", f"set it in {PROPERTIES}"),
    (r"leave --projection out", f"set it in {PROPERTIES}"),
    (r"--window COL,ROW,COLS,ROWS or --bounds WEST,SOUTH,EAST,NORTH", f"'{EXTENT}'"),
    (r"--bounds lie (.*): give WEST,SOUTH,EAST,NORTH in its projection", rf"'{EXTENT}' lies \1"),
    (r"--window \d\S*", f"'{EXTENT}'"),
    (r"have that of one place read by --around X,Y", f"name one place by '{AROUND}'"),
    (r"--curvature takes", f"'{CURVATURE}' takes"),
    (r"the raster has no projection: give --projection", f"the raster has no projection: set it in {PROPERTIES}"),
    (r"give --codes \S+", f"choose others for '{CODES}'"),
    (r"give a smaller --radius", f"give a smaller '{RADIUS}'"),
    (r"give --radius\b", f"give '{RADIUS}'"),
    (r"--at X,Y or --points LAYER", "a layer of points or a click"),
    (r"--eye or --eye-field", f"'{EYE}' or '{EYE_FIELD}'"),
    (r"leave it out by --skip", f"choose '{SKIP}'"),
    (r"--skip\b", f"'{SKIP}'"),
    (r"--band\b", f"'{BAND}'"),
    (r"--decimals (\d|N)", rf"'{DECIMALS}' \1"),
    (r"fewer --decimals", f"fewer '{DECIMALS}'"),
    (r"fewer --workers", f"fewer '{THREADS}'"),
    (r"give a larger --tile", f"cut a part out by '{EXTENT}'"),
    (r"take a larger window", f"take a larger '{EXTENT}'"),
    (r"gdal_edit\.py -a_nodata (\S+) .*", rf"name \1 as 'Additional no data value' in {PROPERTIES}, Transparency"),
)
