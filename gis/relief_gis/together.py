"""Maps of one land that are made together: by one run of the program, each as it is made alone."""
from __future__ import annotations

from contextlib import ExitStack
from dataclasses import dataclass, field
from functools import partial
from typing import TYPE_CHECKING, Callable, Dict, List, Optional, Sequence, Set

import numpy as np

from . import edges
from .ahead import Ahead
from .draft import Draft, save_drafts
from .grid_text import TakeRows
from .heights import Heights
from .making import SOURCES, Place, Request, Use
from .points import write_points
from .program import Program
from .raster import Terrain
from .requests import Gauges, made, requests_of
from .small_basins import without_small
from .units import plain

if TYPE_CHECKING:
    from .job import Caller, Job

Say = Callable[[str], None]


def sources_of(jobs: Sequence[Job]) -> List[str]:
    """The maps of the program from which those of jobs come."""
    return list(dict.fromkeys(SOURCES[job.map] for job in jobs))


def chief_of(jobs: Sequence[Job]) -> Job:
    """The job that has the gauges, or the first one."""
    return next((job for job in jobs if job.map == "catchments"), jobs[0])


def run_together(terrain: Terrain, heights: Heights, jobs: Sequence[Job], program: Program, ahead: Ahead) -> None:
    """Makes the maps of jobs of a terrain, of which the values may be left out and the check may still be at work."""
    caller = ahead.caller
    requests, gauges = requests_of(chief_of(jobs), terrain.frame, heights, program, caller)
    with ExitStack() as stack:
        drafts = [stack.enter_context(Draft(job, terrain, heights, SOURCES[job.map], program.version)) for job in jobs]
        run = _Run(drafts, requests, terrain, heights, program, caller)
        found = run.made()
        ahead.finish()
        for draft in drafts:
            run.end(draft, found, gauges)
        caller.check()
        save_drafts(drafts, caller.say)


@dataclass
class _Run:
    """What a run has: the maps as far as they are written, requests of the job with gauges or of the first, the land.

    Attributes:
        counts: those of the gauges.
        below: the cells downstream of where the data ends, once they are known; told: lines that count them.
    """

    drafts: Sequence[Draft]
    requests: Sequence[Request]
    terrain: Terrain
    heights: Heights
    program: Program
    caller: Caller
    counts: Optional[edges.GaugeCounts] = None
    below: Optional[np.ndarray] = None
    told: Set[str] = field(default_factory=set)

    @property
    def gauges(self) -> Sequence[Place]:
        """The gauges, where there are some."""
        return self.requests[0].places if self.requests[0].map == "catchments" else ()

    @property
    def sinks(self) -> Sequence[Place]:
        """The sinks of maps of drainage."""
        return self.requests[0].sinks if self.requests[0].map == "catchments" else self.requests[0].places

    def has_more(self, job: Job) -> bool:
        """Whether what is told or written of a job takes directions."""
        is_told = self.terrain.is_part and job.map in edges.TOLD_MAPS
        return is_told or any((job.uncertain, job.polygons, job.lines))

    def needs_units(self, names: Sequence[str]) -> bool:
        """Whether heights are needed again once the program has them to make some maps."""
        return len(self.requests) > 1 or any(
            draft.needs_all or draft.job.map == "depth" or draft.job.polygons is not None
            or (self.has_more(draft.job) and "flow" not in names) for draft in self.drafts)

    def made(self) -> Dict[str, np.ndarray]:
        """What the program wrote for its maps, by their names, where it has to be kept."""
        names = sources_of([draft.job for draft in self.drafts])
        takes_codes = any(self.has_more(draft.job) for draft in self.drafts)
        if takes_codes and "flow" not in names and (len(names) > 1 or self.program.has_map("maps")):
            names.append("flow")
        self.heights.is_read_once = not self.needs_units(names)
        uses = [self._use(name, takes_codes) for name in names]
        if len(uses) == 1:
            return {names[0]: made(self.requests, self.heights, self.program, self.caller, uses[0].on_rows,
                                   uses[0].keeps)}
        first = self.requests[0]
        request = Request("maps", self.gauges, self.sinks, names, workers=first.workers, tile=first.tile)
        return dict(zip(names, self.caller.make_together(request, self.heights, self.program, uses)))

    def _use(self, name: str, takes_codes: bool) -> Use:
        """What becomes of a map of the program: its rows go to all drafts that come from it."""
        drafts = [draft for draft in self.drafts if SOURCES[draft.job.map] == name]
        keeps = any(draft.needs_all or self.has_more(draft.job) for draft in drafts)
        takers: List[TakeRows] = [draft.put for draft in drafts]
        if name == "catchments":
            self.counts = edges.GaugeCounts(self.gauges, self.heights.valid)
            takers.append(self.counts.put)
        return Use(name, _each(takers), keeps or (takes_codes and name == "flow"))

    def end(self, draft: Draft, found: Dict[str, np.ndarray], gauges: Optional[Gauges]) -> None:
        """Ends a map, tells of it, and adds what else is written of it."""
        job, say, frame = draft.job, self.caller.say, self.terrain.frame
        array = found[SOURCES[job.map]]
        if job.least is not None:
            array = found["basins"] = without_small(array, job.least, say)
        draft.end(array)
        self._tell_sizes(job)
        if job.snapped is not None and gauges is not None:
            draft.also[job.snapped] = partial(write_points, places=gauges[0], counts=gauges[1], frame=frame)
        if self.has_more(job):
            self._add_what_lies_below(draft, array, found)

    def _tell_sizes(self, job: Job) -> None:
        """Says how large each gauge's catchment is, and what the threshold of streams is as an area."""
        if job.map == "streams":
            threshold = _cells(job)
            self.caller.say(f"streams: more than {threshold:,} other cells, "
                            f"{plain(threshold * self.terrain.frame.cell**2)} square units, drain through them")
        if self.counts is not None and job.map == "catchments":
            for line in self.counts.lines():
                self.caller.say(line)

    def _add_what_lies_below(self, draft: Draft, array: np.ndarray, found: Dict[str, np.ndarray]) -> None:
        """Tells and adds what takes directions: the cells downstream of where the data ends, and areas of gauges."""
        job, frame = draft.job, self.terrain.frame
        if "flow" not in found:
            request = Request("flow", self.sinks, workers=job.workers, tile=job.tile)
            found["flow"] = self.caller.make(request, self.heights, self.program)
        codes = found["flow"]
        if self.below is None:
            self.below = edges.uncertain_cells(codes, self.heights.valid)
        if job.uncertain is not None or (self.terrain.is_part and job.map in edges.TOLD_MAPS):
            line = edges.line_of(job.map, self.below, array, frame.cell**2)
            # Accumulations and streams have the same line.
            if line not in self.told:
                self.caller.say(line)
            self.told.add(line)
        if job.uncertain is not None:
            draft.add_uncertain(job.uncertain, self.below)
        if job.polygons is not None:
            from .catchment_areas import Basis, write_areas

            basis = Basis(self.gauges, array, codes, self.below, self.heights, frame)
            draft.also[job.polygons] = partial(write_areas, basis=basis)
        if job.lines is not None:
            from .stream_lines import write_lines

            draft.also[job.lines] = partial(write_lines, counts=array, codes=codes, threshold=_cells(job), frame=frame)


def _each(takers: Sequence[TakeRows]) -> TakeRows:
    """Gives rows to each of some takers."""
    def put(rows: np.ndarray, row: int) -> None:
        for take in takers:
            take(rows, row)

    return put


def _cells(job: Job) -> int:
    """The threshold of streams in cells, which an area has become."""
    return job.threshold if isinstance(job.threshold, int) else 0
