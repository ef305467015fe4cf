"""The program `relief`: where it is, what it offers, and a run of it."""
from __future__ import annotations

import contextlib
import fcntl
import functools
import os
import queue
import re
import select
import shutil
import subprocess
import threading
import time
from concurrent.futures import FIRST_COMPLETED, Future, ThreadPoolExecutor, wait
from dataclasses import dataclass
from typing import IO, Callable, Iterator, List, Optional, Sequence, Set, Tuple

import numpy as np

from .errors import Cancelled, DeviceError, MissingError, ReliefError
from .grid_text import PIECE, TakeRows, Wanted, offset_of, read_grids, write_grid
from .heights import Heights

FAULT = re.compile(r"relief: (?:(\d+) )?(\S.*?)(?: (\d+))?")
STAGE = re.compile(r"relief: stage (\d+): (\d{1,3}) %")
LINE_ENDS = re.compile(r"[\r\n]+")
# What the program writes to a terminal before it writes a line anew.
CLEARED = "\x1b[K"
# The numbers of faults whose detail is the place of a sink.
SINK_FAULTS = range(46, 49)
SECONDS_BETWEEN_LOOKS = 0.1
# What a pipe is to hold, in bytes: through the system's 64 KiB both ends mostly wait for each other. Python names the
# request from 3.10 on.
PIPE_BYTES, LEAST_PIPE_BYTES = 1 << 20, 1 << 16
F_SETPIPE_SZ = 1031
# Of a program that is as fast as this, less than a pipe goes through it while it is left alone.
BYTES_A_SECOND = 2 << 30
# After so many milliseconds without a byte those that came are used.
SILENCE = 3
VARIABLE = "RELIEF"


@dataclass(frozen=True)
class Progress:
    """How far a run of the program is: its map, the stage from 1, and the share of the stage that is done, 0 to 1.

    How many stages there will be is not known before the run ends.
    """

    map: str
    stage: int
    share: float


Report = Callable[[Progress], None]
Question = Callable[[], bool]


@dataclass(frozen=True)
class Program:
    """An installed `relief`: its path, version, and text of help."""

    path: str
    version: str
    help: str

    @classmethod
    def find(cls, path: Optional[str] = None) -> Program:
        """Finds `relief`: at a path, at that of the variable RELIEF, or on the search path.

        Raises:
            MissingError: there is none, or what is there is another program.
        """
        wanted = path or os.environ.get(VARIABLE) or "relief"
        found = shutil.which(wanted)
        if found is None:
            raise MissingError(f"there is no program {wanted}: install the package relief, or set {VARIABLE} to its "
                               "path")
        version = _output_of(found, "--version").strip()
        if not re.fullmatch(r"relief \d+\.\d+\.\d+", version):
            raise MissingError(f"{found} is not the relief that makes maps: set {VARIABLE} to its path")
        # A run takes it, and what is read before takes longer.
        threading.Thread(target=_guard, daemon=True).start()
        return cls(found, version.split()[1], _output_of(found, "--help"))

    def has_map(self, name: str) -> bool:
        """Whether this version has a map."""
        return re.search(rf"^ +{name} ", self.help, re.MULTILINE) is not None

    @property
    def has_progress(self) -> bool:
        """Whether this version has the option --progress, which came with the map catchments."""
        return self.has_map("catchments")

    def require(self, name: str) -> None:
        """Raises MissingError where this version lacks a map."""
        if not self.has_map(name):
            raise MissingError(f"relief {self.version} has no {name}: install a newer relief")

    def run(self, words: Sequence[str], units: np.ndarray, valid: Optional[np.ndarray],
            subjects: Sequence[str] = (), sinks: Sequence[str] = (), on_progress: Optional[Report] = None,
            is_cancelled: Optional[Question] = None, by_percent: bool = False,
            dtype: "np.typing.DTypeLike" = np.int64, on_rows: Optional[TakeRows] = None,
            keeps: bool = True) -> np.ndarray:
        """Makes a map of heights: `run_together` for one map.

        Args:
            units: (rows, cols) integers, heights in units.
            valid: (rows, cols) bool, where there is data; None: everywhere.
            dtype: an integer type that has all numbers of the map.
            on_rows: called on another thread with strips of the map, and their first rows, as soon as they are read.
            keeps: whether the map is kept; else what is returned has no rows.
        """
        heights = Heights.of_units(units, np.ones(units.shape, bool) if valid is None else valid, 0)
        wanted = [Wanted(np.dtype(dtype), on_rows, keeps, offset_of(heights) if words[0] == "fill" else 0)]
        return self.run_together(words, heights, wanted, subjects, sinks, on_progress, is_cancelled, by_percent)[0]

    def run_together(self, words: Sequence[str], heights: Heights, wanted: Sequence[Wanted],
                     subjects: Sequence[str] = (), sinks: Sequence[str] = (), on_progress: Optional[Report] = None,
                     is_cancelled: Optional[Question] = None, by_percent: bool = False) -> List[np.ndarray]:
        """Makes maps of heights by one run.

        Args:
            words: the map, its options and places; or `maps`, its options and several of them.
            heights: those of which rows are not yet worked out are so while the program reads.
            wanted: what becomes of each map, in the order in which the program writes them.
            subjects: the names of the places among the words, for the text of a refusal.
            sinks: the names of the sinks that are given by options, likewise.
            on_progress: called at most once for each tenth of each stage, where the program reports how far it is.
            is_cancelled: asked ten times a second; the run ends when it says so.
            by_percent: call on_progress at each percent, where a tenth of a second has passed, and not at tenths.

        Returns:
            each map (rows, cols) as the program wrote it.

        Raises:
            ReliefError: the program refused.
            InputError: what the program wrote is cut off, or no map.
            DeviceError: the program could not be started.
            Cancelled: the caller asked for the end.
        """
        if on_progress is not None and self.has_progress:
            words = [words[0], "--progress", *words[1:]]
        steps: queue.SimpleQueue[Progress] = queue.SimpleQueue()

        def report() -> None:
            """Tells the caller on the thread that called: feedback of QGIS wants that."""
            while not steps.empty():
                step = steps.get()
                if on_progress is not None:
                    on_progress(step)
            if is_cancelled is not None and is_cancelled():
                raise Cancelled("cancelled")

        process, errors = self._start(words, by_percent and on_progress is not None)
        # The threads end with the program, which closes its ends of the pipes.
        with process, errors, ThreadPoolExecutor(3) as pool:
            try:
                listening = pool.submit(_listen, words[0], errors.fileno(), steps)
                feeding = pool.submit(_feed, heights, process.stdin)
                reading = pool.submit(_collect, process.stdout, wanted, heights.shape)
                _wait({listening, feeding, reading}, report)
                status = process.wait()
            except BaseException:
                process.kill()
                raise
        report()
        feeding.result()
        if status != 0:
            raise _refusal(status, listening.result(), subjects, sinks or subjects)
        return reading.result()

    def _start(self, words: Sequence[str], on_terminal: bool) -> Tuple["subprocess.Popen[bytes]", IO[bytes]]:
        """Starts the program; its process, with pipes in and out, and where its errors are read."""
        ours, errors = _errors_of(on_terminal)
        try:
            process = subprocess.Popen([*_guard(), self.path, *words], stdin=subprocess.PIPE,
                                       stdout=subprocess.PIPE, stderr=errors)
        except OSError as error:
            os.close(ours)
            raise DeviceError(f"{self.path} could not be started: {error.strerror}") from error
        finally:
            os.close(errors)
        return process, open(ours, "rb", 0)


class _Pipe:
    """Our end of a pipe, which moves much at a time: a program reads and writes little, and each end would wake the other
    for each page.

    Where a pipe is full, or has less than is wanted, it is left alone for a moment.
    """

    def __init__(self, file: IO[bytes]) -> None:
        self._file = file
        size = LEAST_PIPE_BYTES
        # Where the system does not allow it a pipe holds less.
        with contextlib.suppress(OSError):
            size = fcntl.fcntl(file, F_SETPIPE_SZ, PIPE_BYTES)
        self._pause = size / BYTES_A_SECOND
        self._poll = select.poll()
        self._poll.register(file, select.POLLIN)
        if file.writable():
            os.set_blocking(file.fileno(), False)

    def write(self, data: bytes) -> None:
        """Writes all bytes of an array or of a text."""
        rest = memoryview(data).cast("B")
        while rest:
            try:
                rest = rest[os.write(self._file.fileno(), rest):]
            except BlockingIOError:
                time.sleep(self._pause)

    def readline(self, most: int) -> bytes:
        """A line, of at most so many bytes."""
        return self._file.readline(most)

    def readinto(self, piece: memoryview) -> int:
        """Fills a piece; how many bytes it has, fewer where no more come for a while, and none at the end."""
        filled = 0
        while count := self._file.readinto1(piece[filled:]):
            filled += count
            if filled == len(piece):
                break
            time.sleep(self._pause)
            # A program that ends frees its memory before its pipes are closed.
            if not self._poll.poll(SILENCE):
                break
        return filled


def _feed(heights: Heights, file: IO[bytes]) -> None:
    """Writes heights to the program, which reads all of them, or refuses and says why."""
    try:
        with file:
            write_grid(heights, _Pipe(file))
    except BrokenPipeError:
        pass
    if heights.is_read_once:
        heights.drop_units()


def _collect(file: IO[bytes], wanted: Sequence[Wanted], shape: Tuple[int, ...]) -> List[np.ndarray]:
    """Reads the maps that the program writes; to the end in any case, so that the program ends too."""
    try:
        return read_grids(_Pipe(file), wanted, shape)
    finally:
        while file.read(PIECE):
            pass


def _listen(name: str, errors: int, steps: "queue.SimpleQueue[Progress]") -> List[str]:
    """Puts a map's progress into a queue until the program's errors end; returns their other lines."""
    lines: List[str] = []
    for line in _lines_of(errors):
        stage = STAGE.fullmatch(line)
        if stage is None:
            lines.append(line)
        else:
            steps.put(Progress(name, int(stage[1]), min(int(stage[2]), 100) / 100))
    return lines


def _wait(pending: "Set[Future]", report: Callable[[], None]) -> None:
    """Waits for the end of all threads and reports meanwhile; ends with the error of the report."""
    while pending:
        _, pending = wait(pending, SECONDS_BETWEEN_LOOKS, FIRST_COMPLETED)
        report()


def _errors_of(is_terminal: bool) -> Tuple[int, int]:
    """Where the program's errors are read, and where it writes them: on a terminal it reports each percent."""
    if is_terminal:
        try:
            return os.openpty()
        except OSError:
            # Where the system has no terminal left, each tenth does.
            pass
    return os.pipe()


def _lines_of(errors: int) -> Iterator[str]:
    """The lines that come from a pipe or a terminal until its other end is closed, without empty ones."""
    text = ""
    while True:
        try:
            part = os.read(errors, 4096)
        except OSError:
            # So a terminal ends.
            part = b""
        if not part:
            break
        *lines, text = LINE_ENDS.split((text + part.decode(errors="replace")).replace(CLEARED, ""))
        # A terminal's line ends where the next one begins.
        if STAGE.fullmatch(text):
            lines, text = [*lines, text], ""
        yield from filter(None, lines)
    if text:
        yield text


@functools.lru_cache(maxsize=None)
def _guard() -> Tuple[str, ...]:
    """Words before a command with which it ends when the thread that started it does, however that ended.

    So no run goes on where the caller was killed. That thread waits for the program, so it ends no run too early. Code
    of our own between fork and exec is not safe where there are other threads, as in QGIS.
    """
    words = "setpriv", "--pdeathsig", "KILL"
    try:
        done = subprocess.run([*words, "true"], stdin=subprocess.DEVNULL, capture_output=True)
    except OSError:
        return ()
    return words if done.returncode == 0 else ()


def _output_of(path: str, word: str) -> str:
    try:
        done = subprocess.run([path, word], stdin=subprocess.DEVNULL, capture_output=True, text=True, timeout=60,
                              errors="replace")
    except (OSError, subprocess.TimeoutExpired) as error:
        raise MissingError(f"{path} {word} failed: {error}") from error
    return done.stdout


def _refusal(status: int, lines: Sequence[str], subjects: Sequence[str], sinks: Sequence[str]) -> ReliefError:
    """The error that a program's lines and status stand for."""
    if status < 0:
        return ReliefError(None, f"ended by signal {-status}", None, 3)
    fault = next(filter(None, map(FAULT.fullmatch, lines)), None)
    if fault is None:
        return ReliefError(None, lines[0] if lines else f"status {status}", None, status)
    number = int(fault[1]) if fault[1] else None
    place = int(fault[3]) if fault[3] else None
    named = sinks if number in SINK_FAULTS else subjects
    is_named = number is not None and number >= 41 and place is not None and place < len(named)
    return ReliefError(number, fault[2], place, status, named[place] if is_named and place is not None else "")
