"""What bash and zsh offer behind `relief-gis`: the maps, options and choices of its help, and files."""
import re
import shutil
import subprocess
import unittest

from fixtures import GIS, TOP, Case, environment
from relief_gis.parser import ABOUT, TASKS
from relief_gis.job import VOIDS

COMPLETION = TOP / "tools" / "completion"
BASH = """
source "$1"
COMP_WORDS=("${@:2}") COMP_CWORD=$(($# - 2))
_relief_gis "$2"
printf '%s\\n' "${COMPREPLY[@]}"
"""
# The offers of `_describe` as lines, with a tab before the words about them.
ZSH = """
_describe() { local it; for it in ${(P)2}; do print -r -- "${it/:/\t}"; done }
_files() { print -r -- FILES }
words=("${@:2}") CURRENT=$(($# - 1))
source "$1"
"""


class Completion(Case):
    def setUp(self):
        super().setUp()
        command = self.folder / "relief-gis"
        command.write_text(f'#!/bin/sh\nexec /usr/bin/python3 "{GIS}/relief-gis" "$@"\n')
        command.chmod(0o755)
        self.command = str(command)

    def listed(self, *words):
        """The options that help lists."""
        done = subprocess.run([self.command, *words, "--help"], capture_output=True, text=True, env=environment())
        return sorted(set(re.findall(r"^  (?:-h, )?(--[a-z-]+)", done.stdout, re.MULTILINE)))

    def check(self, offers):
        """Compares the offers of a shell, which a function gives for words."""
        self.assertEqual(offers(""), sorted([*ABOUT, *TASKS, "--help", "--version"]))
        for name in ("view", "streams"):
            wanted = self.listed(name)
            self.assertGreater(len(wanted), 12)
            self.assertEqual(offers(name, "--"), wanted)
        self.assertEqual(offers("view", "dem.tif", "--voids", ""), sorted(VOIDS))
        for words in (["fill", "d"], ["view", "--eye", ""], ["fill", "--skip", ""]):
            self.assertIn(offers(*words), ([""], ["FILES"]))

    def offers(self, *words):
        done = subprocess.run(list(map(str, words)), capture_output=True, text=True, env=environment())
        self.assertEqual(done.stderr, "")
        return sorted(line.split("\t")[0] for line in done.stdout.splitlines())

    def test_bash(self):
        self.check(lambda *words: self.offers("bash", "-c", BASH, "bash", COMPLETION / "relief-gis.bash", self.command,
                                              *words))
        # What a word begins is taken.
        self.assertEqual(self.offers("bash", "-c", BASH, "bash", COMPLETION / "relief-gis.bash", self.command, "view",
                                     "--ey"), ["--eye", "--eye-field"])

    @unittest.skipUnless(shutil.which("zsh"), "no zsh")
    def test_zsh(self):
        self.check(lambda *words: self.offers("zsh", "-f", "-c", ZSH, "zsh", COMPLETION / "_relief-gis", self.command,
                                              *words))

    def test_installed(self):
        for prefix, folder in (("/usr", "vendor-completions"), ("/usr/local", "site-functions")):
            root = self.folder / folder
            subprocess.run([GIS / "install", prefix, str(root)], check=True, stdout=subprocess.DEVNULL)
            share = root / prefix[1:] / "share"
            for path, source in (("bash-completion/completions/relief-gis", "relief-gis.bash"),
                                 (f"zsh/{folder}/_relief-gis", "_relief-gis")):
                self.assertEqual((share / path).read_text(), (COMPLETION / source).read_text())


if __name__ == "__main__":
    unittest.main()
