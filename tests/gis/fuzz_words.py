"""Random words of a command for a random raster, with the points that they name."""
from osgeo import gdal

import fuzz_layers
import fuzz_rasters

MAPS = ("fill", "depth", "flow", "accumulate", "area", "streams", "basins", "catchments", "view", "rise")
DEGREES_OF = {32632: 4326, 3857: 4326, 25833: 4258, 3035: 4258}


class Case(fuzz_rasters.Raster):
    """A raster in a folder, and the words of a command that maps it."""

    def __init__(self, folder, chance):
        super().__init__(folder, chance)
        self.draw_words()
        self.draw_output()
        self.words = self.joined_words()

    def joined_words(self):
        """The words of the command."""
        return [self.map, str(self.source), str(self.output), *self.options]

    @property
    def targets(self):
        """The maps that are written."""
        return [self.output]

    def draw_words(self):
        """The words of the command."""
        self.map = self.chance.choice(MAPS)
        self.options, self.written = [], []
        self.draw_reading()
        if self.map == "streams":
            self.draw_threshold()
        if self.map == "basins" and self.is_rare(3):
            self.draw_least()
        if self.map in ("view", "rise"):
            self.draw_view_points()
        elif self.map == "catchments":
            self.draw_gauges()
        elif self.is_rare(3):
            self.draw_points("--at", "--points")
        if self.is_rare(20) and any(word.startswith(("--at", "--points")) for word in self.options):
            self.options += ["--skip"]
        if self.is_rare(6) and self.map not in ("fill", "depth", "view", "rise"):
            self.draw_uncertain()
        self.draw_running()

    def draw_threshold(self):
        """The threshold of streams."""
        self.options += ["--threshold", str(self.chance.choice((0, 1, 1, 2, 5, 20, -5 if self.is_rare(5) else 3,
                                                                "0.3ha", "900m2", "1e-5km2")))]

    def draw_least(self):
        """The least size of basins."""
        self.options += ["--least", str(self.chance.choice((0, 1, 2, 5, 30)))]

    def draw_uncertain(self):
        """Where the cells below the data's edge are written."""
        self.written += ["uncertain.tif", "uncertain.qml"]
        self.options += ["--uncertain", str(self.folder / "uncertain.tif")]

    def draw_running(self):
        """Workers and tiles."""
        if self.is_rare(8):
            self.options += ["--workers", str(self.chance.randint(1, 3))]
        if self.is_rare(4):
            self.options += ["--tile", str(self.chance.randint(1, 9))]

    def draw_output(self):
        """Where the map is written: mostly a new file, or an older map; rarely what belongs to the user."""
        self.output = self.folder / self.chance.choice(("out.tif", "out.tif", "Höhe 1.tif", "out.tiff"))
        if self.is_rare(3):
            self.write_old_map()
        if self.is_rare(60):
            self.output.with_suffix(".qml").write_bytes(b"<qgis>a style of the user</qgis>\n")
        if self.is_rare(50):
            self.output = self.chance.choice([self.folder / "out.png", *sorted(self.folder.glob("*.tif*"))])

    def write_old_map(self):
        """Writes an older file of the output's name: a map, rarely a text, rarely write-protected."""
        if self.is_rare(30):
            self.output.write_text("a text\n")
        else:
            gdal.GetDriverByName("GTiff").Create(str(self.output), 2, 3)
        self.output.chmod(0o444 if self.is_rare(30) else 0o644)

    def draw_reading(self):
        """How the raster is read: band, decimals, voids, projection, window or bounds."""
        if self.band > 1 or self.is_rare(10):
            self.options += ["--band", str(self.band + len(self.alphas) if self.is_rare(25) else self.band)]
        if self.is_rare(3):
            self.options += ["--decimals", str(self.chance.choice((0, 1, 2, 3, 6, 7 if self.is_rare(4) else 4)))]
        if not self.is_rare(3):
            self.options += ["--voids", self.chance.choice(("drain", "drain", "drain", "refuse", "fill"))]
        if not self.has_projection and not self.is_rare(8):
            self.options += self.chance.choice((["--no-projection"], ["--projection", f"EPSG:{self.code}"]))
        elif self.is_rare(100):
            self.options += ["--no-projection"]
        kind = self.chance.randrange(12)
        if kind == 0:
            col, row = self.chance.randrange(self.cols), self.chance.randrange(self.rows)
            cols, rows = self.chance.randint(1, self.cols - col), self.chance.randint(1, self.rows - row)
            self.options += ["--window", f"{col},{row},{cols},{rows + self.is_rare(8)}"]
            self.land = [cell for cell in self.land if row <= cell[0] < row + rows and col <= cell[1] < col + cols]
        if kind == 1:
            self.options += [f"--bounds={self.draw_bounds()}"]

    def draw_bounds(self):
        """Bounds on borders of cells, inside cells, or partly outside."""
        part = 0 if not self.is_rare(3) else self.chance.choice((0.25, 0.5, 0.9))
        least = -2 if self.is_rare(5) else 0
        left = self.chance.randint(least, self.cols - 1)
        top = self.chance.randint(least, self.rows - 1)
        right = self.chance.randint(left + 1, self.cols - least)
        bottom = self.chance.randint(top + 1, self.rows - least)
        return ",".join(repr(value) for value in (
            self.west + (left + part) * self.side, self.north - bottom * self.side,
            self.west + right * self.side, self.north - (top + part) * self.side))

    def draw_point(self, is_inside=False):
        """A point: mostly of a cell with data, its centre, a corner, a border, or anywhere in it."""
        row, col = self.chance.randrange(self.rows), self.chance.randrange(self.cols)
        if self.land and not self.is_rare(20):
            row, col = self.chance.choice(self.land)
        if self.is_rare(40):
            row, col = self.chance.choice(((-1, col), (self.rows, col), (row, -1), (row, self.cols)))
        down, right = self.chance.choice(((0.5, 0.5), (0.5, 0.5), (0, 0), (0, 0.5), (0.5, 0), (0.25, 0.875)))
        if is_inside:
            down, right = self.chance.choice(((0.5, 0.5), (0.25, 0.75)))
        return self.west + (col + right) * self.side, self.north - (row + down) * self.side

    def draw_points(self, at, layer):
        """Words of points: coordinates, a layer, rarely both."""
        kind = self.chance.randrange(6)
        if kind != 0:
            for _ in range(self.chance.choice((1, 1, 1, 2, 3))):
                x, y = self.draw_point()
                self.options += [f"{at}={x!r},{y!r}"]
        if kind < 2:
            self.options += [layer, self.write_layer(layer[2:])]
            if self.is_rare(8):
                self.options += [layer, self.write_layer(f"more_{layer[2:]}")]

    def write_layer(self, name):
        """A layer of points: a table or a GeoPackage, in the projection of the raster or another one."""
        points = [self.draw_point(is_inside=True) for _ in range(self.chance.choice((1, 1, 2, 3)))]
        values = {name: [self.chance.choice(choices) for _ in points] for name, choices in (
            ("height", (0, 2, 12.5, 1.7, 20)), ("top", (0, 0, 1, 2.5, 30)),
            ("reach", [self.side * part for part in (1, 2, 3.5, 8)]))}
        if not self.is_rare(2):
            path = self.folder / f"{name}.gpkg"
            fuzz_layers.write_package(path, self.draw_system(), self.code, points, values)
            return f"{path}|layername=places" if self.is_rare(3) else str(path)
        path = self.folder / f"{name}.csv"
        if self.is_rare(6) and self.code in DEGREES_OF:
            points = fuzz_layers.moved(self.code, 4326, points)
            fuzz_layers.write_table(path, self.chance.choice(("lon,lat", "Longitude,Latitude")), points, values, ",")
            return str(path)
        points = [self.draw_point() for _ in points]
        if self.is_rare(25):
            points[0] = ("", points[0][1])
        pair = self.chance.choice(("x,y", "x,y", "X,Y", "Easting,Northing", "Rechtswert,Hochwert", "e,n",
                                   "Coord X,Coord-Y"))
        fuzz_layers.write_table(path, pair, points, values, self.chance.choice(",,;"))
        return str(path)

    def draw_system(self):
        """The code of a layer's projection: that of the raster, or the degrees of its datum."""
        return DEGREES_OF[self.code] if self.code in DEGREES_OF and self.is_rare(2) else self.code

    def draw_gauges(self):
        """Words of gauges, of sinks beside them, and of moving."""
        self.draw_points("--at", "--points")
        if self.is_rare(4):
            self.draw_points("--sink-at", "--sinks")
        if self.is_rare(3):
            self.options += ["--snap", str(self.chance.randint(0, 3))]
            if self.is_rare(3):
                self.written.append("points.gpkg" if self.is_rare(10) else "moved.gpkg")
                self.options += ["--snapped", str(self.folder / self.written[-1])]

    def has_option(self, option):
        """Whether a map of observers has an option: a rise has no targets."""
        return self.map == "view" or not option.startswith("--target") or self.is_rare(60)

    def draw_view_points(self):
        """Words of observers, eyes, targets and radii."""
        self.draw_points("--at", "--points")
        given = sum(word.startswith("--at=") for word in self.options)
        has_field = "--points" in self.options and self.is_rare(2)
        if has_field:
            self.options += ["--eye-field", "height"]
        if "--points" in self.options:
            fields = (("--target-field", "top"), ("--radius-field", "reach"))
            self.options += [word for name, field in fields if self.has_option(name) and self.is_rare(4)
                             for word in (name, field)]
        if self.is_rare(4):
            self.options += ["--curvature", *self.chance.choice(([], ["--refraction", "0"], ["--refraction=0.2"]))]
        elif self.is_rare(40):
            self.options += ["--refraction", "0.1"]
        heights = ("0", "2", "3", "20", "0.5", "1.25", "1000000")
        reach = [str(self.side * part) for part in (1, 2.5, 3, 8)]
        for option, texts, is_needed in (("--eye", heights, not has_field), ("--target", heights, False),
                                         ("--radius", [*reach, "90", "3", "0.25", "0.1km", "60m"], False)):
            if not self.has_option(option):
                continue
            count = given if given > 1 and self.is_rare(3) else 1
            count += self.is_rare(40)
            if is_needed or self.is_rare(2 if not has_field else 3):
                for _ in range(count):
                    self.options += [option, self.chance.choice(texts[:4] if self.is_rare(2) else texts)]
