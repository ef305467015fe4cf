"""Runs cases of the fuzz in this process, and compares what was written with the judge's verdict."""
import contextlib
import hashlib
import io
import pathlib
import random
import shutil
import tempfile
import traceback

from osgeo import gdal, ogr, osr

import fuzz_arrays
import fuzz_compare
import fuzz_together
import fuzz_words
import judge_scene
import judge_together
import judge_words

# One raster in so many is mapped by several maps at once.
TOGETHER = 7


@contextlib.contextmanager
def plain_gdal():
    """GDAL without exceptions and lines of its own, as the judge and the cases use it."""
    modules = [module for module in (gdal, ogr, osr) if module.GetUseExceptions()]
    for module in modules:
        module.DontUseExceptions()
    gdal.PushErrorHandler("CPLQuietErrorHandler")
    try:
        yield
    finally:
        gdal.PopErrorHandler()
        for module in modules:
            module.UseExceptions()


def run_command(words):
    """Status and lines of relief-gis."""
    from relief_gis.command import main
    lines = io.StringIO()
    with contextlib.redirect_stderr(lines), contextlib.redirect_stdout(lines):
        try:
            status = main(words)
        except SystemExit as end:
            status = end.code
        except BaseException:
            status = traceback.format_exc()
    return status, lines.getvalue()


def marks(folder):
    """A mark of the bytes of each file in a folder."""
    return {path.name: hashlib.md5(path.read_bytes()).hexdigest() for path in sorted(folder.iterdir())}


def try_case(case):
    """Outcome and line of a case, which is a function with a seed and a number."""
    function, seed, number = case
    try:
        return function(seed, number)
    except BaseException:
        return "wrong", f"{function.__name__} {number}: {traceback.format_exc()}"


def try_raster(seed, number):
    """Outcome and line of a random raster."""
    folder = tempfile.mkdtemp(prefix="fuzz")
    try:
        words, status, lines, outcome, reason = raster_outcome(pathlib.Path(folder), seed, number)
    finally:
        shutil.rmtree(folder)
    words = " ".join(words).replace(folder + "/", "")
    return outcome, f"raster {number}: {reason}: status {status}: {words}: {' | '.join(lines.splitlines())[-400:]}"


def show_raster(seed, number):
    """Prints all about a random raster, and keeps its files."""
    folder = pathlib.Path(tempfile.mkdtemp(prefix=f"fuzz{number}-"))
    words, status, lines, outcome, reason = raster_outcome(folder, seed, number)
    print("relief-gis", *words)
    print(lines, end="")
    print(f"status {status}; {outcome}: {reason}")
    return 1 if outcome == "wrong" else 0


def raster_outcome(folder, seed, number):
    """Words, status and lines of a run, and what the judge says of it."""
    with plain_gdal():
        kind = fuzz_together.Case if number % TOGETHER == 0 else fuzz_words.Case
        case = kind(folder, random.Random(f"{seed} {number}"))
        wanted, verdict = expected(case.words)
    before = marks(folder)
    status, lines = run_command(case.words)
    after = marks(folder)
    reason = harm(case, status, before, after)
    if reason:
        return case.words, status, lines, "wrong", reason
    with plain_gdal():
        outcome, reason = judged(case, status, lines, wanted, verdict)
    return case.words, status, lines, outcome, reason


def expected(words):
    """What has to become of a command, and why, or scene and maps."""
    judged_by = judge_together.verdicts if words[0] == "maps" else judge_words.verdict
    try:
        return "mapped", judged_by(words)
    except judge_scene.Refused as reason:
        return "refused", str(reason)
    except judge_scene.Unknown as reason:
        return "unjudged", str(reason)


def harm(case, status, before, after):
    """What a run did to files that are not its own."""
    if status not in (0, 1, 2, 3, 4):
        return "neither a map nor a refusal"
    changed = {name for name in after if before.get(name) != after[name]} | before.keys() - after.keys()
    if status and changed:
        return f"a refusal changed {changed}"
    styles = {path.with_suffix(".qml").name for path in case.targets}
    if changed - {*(path.name for path in case.targets), *case.written, *styles} or styles & changed & before.keys():
        return f"files changed: {changed}"
    return ""


def judged(case, status, lines, wanted, verdict):
    """What the judge says of a run that did no harm: an outcome and a reason."""
    if wanted == "refused":
        return ("refused", verdict) if status else ("wrong", f"not refused: {verdict}")
    if wanted == "unjudged":
        return wanted, verdict
    scenes = [scene for _, scene, _ in verdict.values()] if case.words[0] == "maps" else [verdict[0]]
    if status:
        doubts = [doubt for scene in scenes for doubt in scene.doubts]
        doubts += ["a style of the user"] * any(path.with_suffix(".qml").exists() for path in case.targets)
        return ("refused in doubt", str(doubts)) if doubts else ("wrong", "refused")
    difference = fuzz_together.difference(case, verdict, lines) if case.words[0] == "maps" \
        else fuzz_compare.difference(case, *verdict, lines)
    return ("wrong", difference) if difference else ("mapped", "")


def try_array(seed, number):
    """Outcome and line of a random array."""
    outcome, call, reason = fuzz_arrays.outcome(seed, number)
    return outcome, f"array {number}: {reason}: {call}"


def show_array(seed, number):
    """Prints all about a random array."""
    outcome, call, reason = fuzz_arrays.outcome(seed, number)
    print(call)
    print(repr(call.heights))
    print(f"{outcome}: {reason}")
    return 1 if outcome == "wrong" else 0
