"""A run that goes ahead while a check of its land is still at work beside it."""
from __future__ import annotations

from concurrent.futures import Future, ThreadPoolExecutor
from dataclasses import replace
from types import TracebackType
from typing import TYPE_CHECKING, Callable, List, Optional, Tuple, Type

from .errors import Cancelled, GisError
from .program import Progress

if TYPE_CHECKING:
    from .job import Caller

Say = Callable[[str], None]
# What a check says, and its error or None.
Said = Tuple[List[str], Optional[BaseException]]


class Ahead:
    """A run beside checks in a thread: what they say and refuse comes first, in place of what the run does.

    The program ends as soon as a check has refused.

    Args:
        check: is called once, with what takes its lines.
        caller: of the run.
    """

    def __init__(self, check: Callable[[Say], object], caller: Caller) -> None:
        self._caller = caller
        self._checks: "List[Future[Said]]" = []
        self._later: List[str] = []
        self._is_told = False
        self._pool = ThreadPoolExecutor(1)
        self.then(check)

    def then(self, check: Callable[[Say], object]) -> None:
        """Has another check run when those before have ended; what it says counts where none of them refuses."""
        # The task keeps what the check was, a raster maybe, no longer than it runs.
        self._checks.append(self._pool.submit(_lines_of, check))

    @property
    def caller(self) -> Caller:
        """The run's caller, whose lines and progress come after those of the check."""
        progress = None if self._caller.progress is None else self._report
        return replace(self._caller, say=self._say, progress=progress, is_cancelled=self._is_cancelled)

    def _say(self, line: str) -> None:
        if self._is_told:
            self._caller.say(line)
        else:
            self._later.append(line)

    def _report(self, step: Progress) -> None:
        self.finish()
        if self._caller.progress is not None:
            self._caller.progress(step)

    def _is_cancelled(self) -> bool:
        """Whether the caller asks for the end; raises what the check refused."""
        if all(check.done() for check in self._checks):
            self.finish()
        return self._caller.is_cancelled is not None and self._caller.is_cancelled()

    def finish(self) -> None:
        """Waits for the checks, and says their lines and those that were held back, or raises the first error."""
        if self._is_told:
            return
        found = [check.result() for check in self._checks]
        self._is_told = True
        for lines, error in found:
            for line in lines:
                self._caller.say(line)
            if error is not None:
                raise error
        for line in self._later:
            self._caller.say(line)

    def __enter__(self) -> Ahead:
        return self

    def __exit__(self, kind: Optional[Type[BaseException]], error: Optional[BaseException],
                 trace: Optional[TracebackType]) -> None:
        self._pool.shutdown()
        # Of two refusals the check's is the first.
        if isinstance(error, GisError) and not isinstance(error, Cancelled):
            self.finish()


def _lines_of(check: Callable[[Say], object]) -> Said:
    """The lines that a check says, and its error."""
    lines: List[str] = []
    try:
        check(lines.append)
    except BaseException as error:
        return lines, error
    return lines, None
