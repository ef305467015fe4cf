"""The maps by a plain reading of docs/rules.md, for small grids.

It shares no line with `relief` and `relief_gis`, which it judges. A land is a dict from (row, column) to the height of
each data cell, in whole units; a place that is no key has no data. All is computed in whole numbers.
"""
import heapq

WAYS = {1: (0, 1), 2: (1, 1), 4: (1, 0), 8: (1, -1), 16: (0, -1), 32: (-1, -1), 64: (-1, 0), 128: (-1, 1)}
HIGHEST = 10 ** 15
HIGHEST_EYE = 10 ** 6
FARTHEST = 8192
# The greatest height of a target, in units.
HIGHEST_TARGET = 10 ** 6


class Drainage:
    """Filled heights and directions of a land with its sinks."""

    def __init__(self, land, sinks=()):
        self.land = land
        self.near = {cell: neighbours(land, cell) for cell in land}
        self.ends = {cell for cell in land if len(self.near[cell]) < 8} | set(sinks)
        self.filled = least_crests(land, self.near, self.ends)
        self.steps = fewest_moves(self.filled, self.near, self.ends)
        self.codes = {cell: self.direction(cell) for cell in land}

    def direction(self, cell):
        """The code of the way that the water of a cell takes; 0 at an outlet."""
        level = self.filled[cell]
        lower = [(-weight(code, level - self.filled[place]), code)
                 for code, place in self.near[cell].items() if self.filled[place] < level]
        if lower:
            return min(lower)[1]
        if cell in self.ends:
            return 0
        return min(code for code, place in self.near[cell].items()
                   if self.filled[place] == level and self.steps[place] == self.steps[cell] - 1)

    def path(self, cell):
        """The flow path of a cell, itself first and an outlet last."""
        cells = [cell]
        while self.codes[cells[-1]]:
            cells.append(self.near[cells[-1]][self.codes[cells[-1]]])
        return cells

    def accumulation(self):
        """How many other cells' flow paths hold each cell."""
        counts = dict.fromkeys(self.land, -1)
        for cell in self.land:
            for below in self.path(cell):
                counts[below] += 1
        return counts

    def below_rim(self):
        """1 at each cell that a flow path from where the data ends crosses, 0 at the others."""
        below = {below for cell in self.land if len(self.near[cell]) < 8 for below in self.path(cell)}
        return {cell: int(cell in below) for cell in self.land}

    def basins(self):
        """The number of the outlet that ends each cell's flow path; outlets are numbered from 1 in row order."""
        outlets = sorted(cell for cell, code in self.codes.items() if code == 0)
        numbers = {outlet: number for number, outlet in enumerate(outlets, 1)}
        return {cell: numbers[self.path(cell)[-1]] for cell in self.land}

    def catchments(self, gauges):
        """The place in the list, from 1, of the first gauge that each cell's flow path meets; 0 without one."""
        numbers = {gauge: number for number, gauge in reversed(list(enumerate(gauges, 1)))}
        return {cell: next((numbers[below] for below in self.path(cell) if below in numbers), 0) for cell in self.land}

    def depth(self):
        """The filled height of each cell less its height."""
        return {cell: self.filled[cell] - self.land[cell] for cell in self.land}


def neighbours(land, cell):
    """The code and place of each neighbour of a cell."""
    places = {code: (cell[0] + down, cell[1] + right) for code, (down, right) in WAYS.items()}
    return {code: place for code, place in places.items() if place in land}


def least_crests(land, near, ends):
    """The filled height of each cell: the least crest of the paths from it to an end cell, found from below."""
    levels = {}
    queue = [(land[cell], cell) for cell in ends]
    heapq.heapify(queue)
    while queue:
        crest, cell = heapq.heappop(queue)
        if cell not in levels:
            levels[cell] = crest
            for place in near[cell].values():
                heapq.heappush(queue, (max(crest, land[place]), place))
    return levels


def fewest_moves(levels, near, ends):
    """The steps of each cell: the moves over equal filled heights to a cell that drains at once."""
    steps = {cell: 0 for cell in levels
             if cell in ends or any(levels[place] < levels[cell] for place in near[cell].values())}
    queue = list(steps)
    for cell in queue:
        for place in near[cell].values():
            if place not in steps and levels[place] == levels[cell]:
                steps[place] = steps[cell] + 1
                queue.append(place)
    return steps


def weight(code, drop):
    """Twice the square of drop over distance."""
    return drop * drop * (2 if code in (1, 4, 16, 64) else 1)


def view(land, observers):
    """How many of the observers (cell, eye, target height, radius or None) see each cell."""
    return {cell: sum(is_seen(land, cell, *observer) for observer in observers) for cell in land}


def rise(land, observers):
    """The least target height, 0 to a million, at which an observer (cell, eye, radius or None) sees each cell.

    Cells that none sees, however high, are left out.
    """
    found = {}
    for cell in land:
        heights = [least_seen(lambda above: is_seen(land, cell, observer, eye, above, radius))
                   for observer, eye, radius in observers]
        if min(heights, default=HIGHEST_TARGET + 1) <= HIGHEST_TARGET:
            found[cell] = min(heights)
    return found


def least_seen(sees):
    """The least height at which a target is seen, which stays seen as it is raised; more than the highest: none."""
    hidden, seen = -1, HIGHEST_TARGET + 1
    while seen - hidden > 1:
        middle = (hidden + seen) // 2
        hidden, seen = (hidden, middle) if sees(middle) else (middle, seen)
    return seen


def finer_units(decimals, given, most=6):
    """How many finer units make one where the ground curves: they have so many decimals at most, or fewer.

    The greatest of an eye and a target has at most a million of them.
    """
    factor = 1
    while decimals < most and given * factor * 10 <= HIGHEST_EYE:
        decimals, factor = decimals + 1, factor * 10
    return factor


def is_seen(land, target, observer, eye, above, radius):
    """Whether an observer sees a target, both with data."""
    rows, cols = target[0] - observer[0], target[1] - observer[1]
    if rows ** 2 + cols ** 2 > (FARTHEST if radius is None else radius) ** 2:
        return False
    low, high = land[observer] + eye, land[target] + above
    return not (is_hidden(lambda along, across: land.get((observer[0] + across, observer[1] + along)), cols, rows,
                          low, high)
                or is_hidden(lambda along, across: land.get((observer[0] + along, observer[1] + across)), rows, cols,
                             low, high))


def is_hidden(height, along, across, low, high):
    """Whether the ground blocks the line at one of the columns (or rows) of centres between its two ends.

    `height` has the height beside the observer by cells along and across; None where there is no data.
    """
    length, sign = abs(along), 1 if along > 0 else -1
    for step in range(1, length):
        whole, part = divmod(step * across, length)
        beside = [(height(sign * step, whole), length - part)]
        if part:
            beside.append((height(sign * step, whole + 1), part))
        if all(ground is not None for ground, _ in beside) \
                and sum(ground * nearness for ground, nearness in beside) > low * (length - step) + high * step:
            return True
    return False


def holes(land, rows, cols):
    """How many cells without data lie in 8-connected regions of them that do not touch the border."""
    empty = {(row, col) for row in range(rows) for col in range(cols)} - set(land)
    queue = [cell for cell in empty if cell[0] in (0, rows - 1) or cell[1] in (0, cols - 1)]
    outside = set(queue)
    for cell in queue:
        for place in neighbours(empty, cell).values():
            if place not in outside:
                outside.add(place)
                queue.append(place)
    return len(empty) - len(outside)
