#!/usr/bin/env python3
"""Compares the goals that refused must-fail edits with those that the edits name in a line `goal: NAME`.

    rt must-fail flow | tools/edit_goals.py [--write]

It reads what `rt must-fail` or `rt ci` printed. The status is 1 where a tried edit that names a goal was refused by
another one, or not by a goal. With --write, each refused edit that names none gets the line.
"""
import pathlib
import re
import sys

TOP = pathlib.Path(__file__).resolve().parent.parent
TRIED = re.compile(r"must-fail (\w+)/([\w.-]+\.edit): (.*)")
REFUSED_BY = re.compile(r"refused, as it must be: .*?(?:\(`([^`]+)`\)|error: `([^`]+)`)")
NAMED = re.compile(r"^goal: (\S+)$", re.MULTILINE)


def tried_edits(said):
    """Gives for each tried edit its path, and the goal that refused it, or None."""
    for crate, name, outcome in TRIED.findall(said):
        refused = REFUSED_BY.match(outcome)
        yield TOP / "crates" / crate / "must-fail" / name, refused and (refused[1] or refused[2])


def wrong_goals(said):
    """Returns a line for each tried edit that names another goal than the one that refused it."""
    wrong = []
    for path, goal in tried_edits(said):
        named = NAMED.search(path.read_text())
        if named and named[1] != goal:
            wrong.append(f"{path.relative_to(TOP)}: names the goal {named[1]}, but was refused by {goal or 'none'}")
    return wrong


def name_goals(said):
    """Writes the goal that refused it into each tried edit that names none."""
    for path, goal in tried_edits(said):
        text = path.read_text()
        if goal and not NAMED.search(text):
            path.write_text(f"{text.rstrip()}\ngoal: {goal}\n")


def main():
    if sys.argv[1:] not in ([], ["--write"]):
        sys.exit(__doc__)
    said = sys.stdin.read()
    if sys.argv[1:]:
        name_goals(said)
    wrong = wrong_goals(said)
    print("\n".join(wrong), end="\n" if wrong else "")
    return 1 if wrong else 0


if __name__ == "__main__":
    sys.exit(main())
