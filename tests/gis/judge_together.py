"""What relief-gis has to write for the words of `maps`, by a plain reading of docs/gis.md: each map as if made alone.

It shares no line with `relief_gis`.
"""
import judge_words
from judge_scene import Refused, Unknown

NAMES = ("fill", "depth", "flow", "accumulate", "area", "streams", "basins", "catchments")
OWN = {"threshold": "streams", "least": "basins", "snap": "catchments", "snapped": "catchments", "at": "catchments",
       "points": "catchments"}
RENAMED = {"sink-at": "at", "sinks": "points"}


def verdicts(words):
    """The words of each map by itself, what is read for it, and its maps as `judge_words.verdict` has them.

    Raises Refused where one of the maps would be, and else Unknown where the pages do not tell of one.
    """
    given = pairs(words[2:])
    outputs = {name: text for name, text in given if name in NAMES}
    if not outputs or len(outputs) < sum(name in NAMES for name, _ in given):
        raise Refused("no map, or one twice")
    if len(set(outputs.values())) < len(outputs):
        raise Refused("a file that is written twice")
    if any(OWN.get(name, name) not in outputs for name, _ in given if name in OWN):
        raise Refused("an option of a map that is not wanted")
    uncertain = next((name for name in ordered(outputs) if name not in judge_words.NOT_BELOW), None)
    if uncertain is None and any(name == "uncertain" for name, _ in given):
        raise Refused("no map has uncertain cells")
    found, unknown = {}, None
    for name in outputs:
        single = [name, words[1], outputs[name], *single_options(name, given, uncertain)]
        try:
            found[name] = (single, *judge_words.verdict(single))
        except Unknown as reason:
            unknown = reason
    if unknown is not None:
        raise unknown
    return found


def ordered(outputs):
    """The maps in the order in which they are made."""
    return sorted(outputs, key=("fill", "flow", "accumulate", "basins", "catchments", "depth", "area", "streams").index)


def pairs(words):
    """Options and their texts; None of one without."""
    found, queue = [], list(words)
    while queue:
        name, _, text = queue.pop(0)[2:].partition("=")
        if (name in judge_words.VALUED or name in NAMES) and not text:
            text = queue.pop(0)
        found.append((name, text))
    return found


def single_options(name, given, uncertain):
    """The options of one map by its own command."""
    options = []
    for option, text in given:
        if option in NAMES or OWN.get(option, name) != name or (option == "uncertain" and name != uncertain):
            continue
        option = option if name == "catchments" else RENAMED.get(option, option)
        options += [f"--{option}", text] if text else [f"--{option}"]
    return options
