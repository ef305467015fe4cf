"""Random arrays of twelve types and all layouts through the Python functions, beside the judge's maps."""
import collections
import random
from fractions import Fraction

import numpy

import judge

KINDS = (numpy.int8, numpy.uint8, numpy.int16, numpy.uint16, numpy.int32, numpy.uint32, numpy.int64, numpy.uint64,
         numpy.float16, numpy.float32, numpy.float64, numpy.longdouble)
LAYOUTS = ("C", "Fortran", "strided", "reversed", "masked", "read-only", "swapped")
MAPS = ("fill", "flow", "accumulate", "basins", "catchments", "view", "depth", "area", "streams")
NO_COUNT, NO_CODE = -9999, 255


class Refused(Exception):
    """The call has to be refused."""


class Unknown(Exception):
    """The pages do not tell what the call has to give."""


class Call:
    """A function's name, its array and its other arguments."""

    def __init__(self, chance):
        self.chance = chance
        self.rows, self.cols = (chance.randint(1, 20 if chance.randrange(8) == 0 else 9) for _ in range(2))
        self.kind, self.layout = chance.choice(KINDS), chance.choice(LAYOUTS)
        plain = self.draw_heights()
        self.nodata = self.draw_nodata(plain)
        self.heights = self.laid_out(plain)
        self.map = chance.choice(MAPS)
        self.is_together = self.map != "view" and chance.randrange(4) == 0
        self.scale = chance.choice((None, 6, 7, -1, 1.5) if chance.randrange(12) == 0 else (None, 0, 1, 2))
        self.arguments = {"nodata": self.nodata, "scale": self.scale}
        if chance.randrange(4) == 0:
            self.arguments["workers"] = chance.randint(1, 3)
        self.draw_places()

    def draw_heights(self):
        """Heights in rows: flats, rough ground, the ends of the type, halves of a unit."""
        is_float = numpy.issubdtype(self.kind, numpy.floating)
        width = self.chance.choice((2, 4, 60))
        draws = [[self.chance.randint(-width, width) for _ in range(self.cols)] for _ in range(self.rows)]
        if is_float:
            part = self.chance.choice((1, 8, 7, 200, 3))
            plain = numpy.array(draws, self.kind) / self.kind(part) + self.kind(self.chance.choice((0, 0, 1535, 0.005)))
            if self.chance.randrange(3) == 0:
                plain[self.some()] = numpy.nan
            return plain.astype(self.kind)
        ends = numpy.iinfo(self.kind)
        shift = self.chance.choice((0, 0, ends.max - width, ends.min + width))
        return numpy.array([[min(max(cell + shift, ends.min), ends.max) for cell in row] for row in draws], self.kind)

    def some(self):
        """Some cells, mostly few."""
        one_in = self.chance.choice((3, 10, 30))
        return numpy.array([[self.chance.randrange(one_in) == 0 for _ in range(self.cols)] for _ in range(self.rows)])

    def draw_nodata(self, plain):
        """A value that means no data, in some cells; or one that the type cannot have."""
        kind = self.chance.randrange(6)
        if kind < 2:
            return None
        if kind == 2:
            value = plain.flat[0]
            return value if self.chance.randrange(2) else value.item()
        if kind == 3:
            return self.chance.choice((float("nan"), 0.3, 300, -200, 246, 10 ** 20))
        value = self.chance.choice((0, 7, -9 if plain.dtype.kind != "u" else 99))
        plain[self.some()] = value
        return self.chance.choice((value, float(value)))

    def laid_out(self, plain):
        """The same heights in memory of some layout."""
        if self.layout == "Fortran":
            return numpy.asfortranarray(plain)
        if self.layout == "strided":
            wide = numpy.repeat(numpy.repeat(plain, 2, 0), 3, 1)
            wide[1::2], wide[:, 1::3] = 1, 2
            return wide[::2, ::3]
        if self.layout == "reversed":
            return plain[::-1, ::-1].copy()[::-1, ::-1]
        if self.layout == "masked":
            return numpy.ma.MaskedArray(plain, self.some() if self.chance.randrange(4) else numpy.ma.nomask)
        if self.layout == "read-only":
            plain.flags.writeable = False
        if self.layout == "swapped" and self.kind is not numpy.longdouble:
            return plain.astype(plain.dtype.newbyteorder())
        return plain

    def draw_places(self):
        """Sinks, gauges or observers."""
        if self.map != "view" and self.chance.randrange(3) == 0:
            self.arguments["sinks"] = [self.draw_place() for _ in range(self.chance.randint(1, 3))]
        if self.map == "area":
            self.arguments["cell"] = self.chance.choice((1, 30, 0.5, "0.1", 1 / 3, self.chance.choice((0, 7, 7, 7))))
        if self.map == "streams":
            self.arguments["threshold"] = self.chance.choice((0, 1, 5, 30, -1 if self.chance.randrange(8) == 0 else 2))
        if self.map == "catchments":
            self.arguments["gauges"] = [self.draw_place() for _ in range(self.chance.randint(1, 4))]
        if self.map == "view":
            self.arguments["observers"] = [(*self.draw_place(), self.chance.choice((0, 1, 3, 0.5, 1.7, 20, 0.07)))
                                           for _ in range(self.chance.randint(1, 3))]
            self.arguments["target"] = self.chance.choice((0, 0, 2, 0.5))
            self.arguments["radius"] = self.chance.choice((None, None, 1, 3, 0 if self.chance.randrange(8) == 0 else 5))
            if self.chance.randrange(3) == 0:
                self.arguments.update(curvature=True, cell=self.chance.choice((1, 30, 0.5)),
                                      refraction=self.chance.choice((0, 0.13, "0.2", 1)),
                                      earth=self.chance.choice((6378137, 50, 1000)))
        if self.map == "basins" and self.chance.randrange(3) == 0:
            self.arguments["least"] = self.chance.choice((0, 1, 3, 12))

    def draw_place(self):
        """A cell, rarely outside or no cell at all."""
        row, col = self.chance.randrange(self.rows), self.chance.randrange(self.cols)
        if self.chance.randrange(60) == 0:
            return self.chance.choice(((-1, col), (row, self.cols), (row + 0.5, col), (row, 1.7)))
        return (row, col) if self.chance.randrange(4) else (numpy.int64(row), numpy.int32(col))

    def __repr__(self):
        kind = numpy.dtype(self.kind).name
        name = f"maps with {self.map}" if self.is_together else self.map
        return f"{name}, {kind} {self.layout} of {self.rows} by {self.cols}, {self.arguments}"


def expected(call):
    """Land in units, decimals and map of a call; raises Refused where there is none."""
    is_float = call.heights.dtype.kind == "f"
    decimals = (2 if is_float else 0) if call.scale is None else call.scale
    if decimals not in range(7):
        raise Refused("scale")
    land = {}
    masked = numpy.ma.getmaskarray(call.heights)
    for row, col in numpy.ndindex(call.heights.shape):
        value = numpy.ma.getdata(call.heights)[row, col]
        exact = None if value != value else Fraction(*value.as_integer_ratio()) if is_float else Fraction(int(value))
        if masked[row, col] or exact is None or is_nodata(call, exact):
            continue
        units = round(exact * 10 ** decimals)
        if abs(units) > judge.HIGHEST:
            raise Refused("too high")
        land[row, col] = units
    return land, decimals, expected_map(call, land, decimals)


def is_nodata(call, exact):
    """Whether a height equals the value that means no data, of floats as their type has it."""
    nodata = call.nodata
    if nodata is None or nodata != nodata:
        return False
    if call.heights.dtype.kind != "f":
        return exact == (Fraction(nodata) if isinstance(nodata, float) else int(nodata))
    with numpy.errstate(over="ignore"):
        nodata = call.kind(nodata)
    return bool(numpy.isfinite(nodata)) and exact == Fraction(*nodata.as_integer_ratio())


def expected_map(call, land, decimals):
    """The map of a call."""
    places = [(*place, 0)[:3] for name in ("sinks", "gauges", "observers") for place in call.arguments.get(name, ())]
    if any((row, col) not in land for row, col, _ in places):
        raise Refused("a place")
    if call.map == "view":
        radius = call.arguments["radius"]
        if radius is not None and radius < 1:
            raise Refused("radius")
        target = in_units(call.arguments["target"], decimals)
        found = [((row, col), in_units(eye, decimals), target, radius) for row, col, eye in call.arguments["observers"]]
        return curved_view(call.arguments, land, found, decimals) if "curvature" in call.arguments \
            else judge.view(land, found)
    drainage = judge.Drainage(land, [tuple(map(int, sink)) for sink in call.arguments.get("sinks", ())])
    if call.map == "catchments":
        return drainage.catchments([tuple(map(int, gauge)) for gauge in call.arguments["gauges"]])
    if call.map in ("fill", "depth"):
        found = drainage.filled if call.map == "fill" else drainage.depth()
        return {cell: Fraction(units, 10 ** decimals) for cell, units in found.items()}
    if call.map == "area":
        side = Fraction(str(call.arguments["cell"])).limit_denominator(1000)
        if side <= 0:
            raise Refused("no side")
        return {cell: (count + 1) * side ** 2 for cell, count in drainage.accumulation().items()}
    if call.map == "streams":
        if call.arguments["threshold"] < 0:
            raise Refused("below 0")
        return {cell: int(count > call.arguments["threshold"]) for cell, count in drainage.accumulation().items()}
    if "least" in call.arguments:
        basins = drainage.basins()
        sizes = collections.Counter(basins.values())
        return {cell: basin if sizes[basin] >= call.arguments["least"] else 0 for cell, basin in basins.items()}
    return {"flow": lambda: drainage.codes, "accumulate": drainage.accumulation, "basins": drainage.basins}[call.map]()


def curved_view(arguments, land, observers, decimals):
    """How many observers see each cell, where ground drops with the square of its distance from each."""
    side, refraction = (Fraction(str(arguments[name])) for name in ("cell", "refraction"))
    drop = (1 - refraction) * side ** 2 / (2 * arguments["earth"]) * 10 ** decimals
    counts = dict.fromkeys(land, 0)
    for place, eye, above, radius in observers:
        factor = judge.finer_units(decimals, max(eye, above))
        if max(map(abs, land.values()), default=0) * factor > 10 ** 14:
            raise Unknown("heights past what the finer units may have")
        lowered = {}
        for (row, col), height in land.items():
            units = drop * factor * ((row - place[0]) ** 2 + (col - place[1]) ** 2)
            if abs(units % 1 - Fraction(1, 2)) < Fraction(1, 10 ** 6):
                raise Unknown("a drop of half a unit")
            lowered[row, col] = height * factor - round(units)
        for cell, seen in judge.view(lowered, [(place, eye * factor, above * factor, radius)]).items():
            counts[cell] += seen
    return counts


def in_units(height, decimals):
    """An eye or a target in units."""
    units = Fraction(repr(height)) * 10 ** decimals
    if units.denominator != 1 or not 0 <= units <= judge.HIGHEST_EYE:
        raise Refused("an eye")
    return int(units)


def outcome(seed, number):
    """Outcome, call and reason of a random call."""
    import relief_gis
    call = Call(random.Random(f"array {seed} {number}"))
    before = (numpy.ma.getdata(call.heights).tobytes(), numpy.ma.getmaskarray(call.heights).tobytes())
    try:
        result = made(relief_gis, call)
    except relief_gis.GisError as refusal:
        result = refusal
    except BaseException as fault:
        return "wrong", call, f"raised {fault!r}"
    if before != (numpy.ma.getdata(call.heights).tobytes(), numpy.ma.getmaskarray(call.heights).tobytes()):
        return "wrong", call, "the array was changed"
    try:
        land, decimals, values = expected(call)
    except Unknown as reason:
        return "unjudged", call, str(reason)
    except Refused as reason:
        is_refused = isinstance(result, relief_gis.GisError)
        return "refused" if is_refused else "wrong", call, f"{reason} is not refused"
    if isinstance(result, relief_gis.GisError):
        return ("refused in doubt" if not land else "wrong"), call, f"refused: {result!r}"
    reason = difference(call, land, decimals, values, result)
    return "wrong" if reason else "mapped", call, reason


def made(package, call):
    """The map of a call, by its own function or among others."""
    if not call.is_together:
        return getattr(package, call.map)(call.heights, **call.arguments)
    names = {call.map, call.chance.choice(("fill", "flow", "accumulate", "basins"))}
    return getattr(package.maps(call.heights, sorted(names), **call.arguments), call.map)


def difference(call, land, decimals, values, result):
    """How a result differs from the map; none where it does not."""
    is_own = call.map in ("fill", "depth") and call.heights.dtype.kind != "f" and decimals == 0
    kind = {"fill": call.kind if is_own else numpy.float64, "depth": numpy.int64 if is_own else numpy.float64,
            "area": numpy.float64, "flow": numpy.uint8, "streams": numpy.uint8}.get(call.map, numpy.int32)
    if result.shape != call.heights.shape or result.dtype.newbyteorder("=") != numpy.dtype(kind).newbyteorder("="):
        return f"{result.dtype} of {result.shape}"
    if isinstance(result, numpy.ma.MaskedArray) != isinstance(call.heights, numpy.ma.MaskedArray):
        return f"a {type(result).__name__} for a {type(call.heights).__name__}"
    masked, given = numpy.ma.getmaskarray(result), numpy.ma.getmaskarray(call.heights)
    for cell in numpy.ndindex(call.heights.shape):
        written, height = numpy.ma.getdata(result)[cell].item(), numpy.ma.getdata(call.heights)[cell]
        if cell in land:
            if masked[cell] or written != (int(values[cell]) if is_own else float(values[cell])):
                return f"{written}, masked {masked[cell]}, for {float(values[cell])} at {cell}"
        elif given[cell] and not masked[cell]:
            return f"no mask at {cell}"
        elif not masked[cell] and not is_empty(call, written, height):
            return f"{written} for no data at {cell}"
    return ""


def is_empty(call, written, height):
    """Whether a value stands for no data in a map."""
    if call.map == "fill":
        return written == numpy.float64(height) or written != written and height != height
    return written == (NO_CODE if call.map in ("flow", "streams") else NO_COUNT)
