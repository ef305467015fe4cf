"""The commands of docs/gis.md, as they stand there: a test for each block, in one folder and in their order."""
import os
import pathlib
import re
import shutil
import subprocess
import tempfile
import unittest

from fixtures import GIS, RELIEF, TOP

PAGE = (TOP / "docs" / "gis.md").read_text()
BLOCK = re.compile(r"```sh\n(?P<commands>.*?)```\n(?:\n```text\n(?P<output>.*?)```\n)?", re.DOTALL)
TOOLS = ("qgis_process.bin", "gdalcompare.py", "gdallocationinfo")


class Page(unittest.TestCase):
    """The blocks of the page; `test_line_N` is the block whose commands begin behind line N."""

    maxDiff = None

    @classmethod
    def setUpClass(cls):
        """Makes a folder with the example, and programs on the path."""
        cls.folder = pathlib.Path(tempfile.mkdtemp())
        cls.addClassCleanup(shutil.rmtree, cls.folder)
        tools = cls.folder / "bin"
        tools.mkdir()
        (tools / "relief").symlink_to(RELIEF)
        (tools / "relief-gis").write_text(f'#!/bin/sh\nexec /usr/bin/python3 "{GIS}/relief-gis" "$@"\n')
        (tools / "relief-gis").chmod(0o755)
        subprocess.run([str(GIS / "plugin"), str(cls.folder / "plugins" / "relief")], check=True)
        shutil.copy(TOP / "examples" / "hills.asc", cls.folder)
        cls.environment = {**os.environ, "PATH": f"{tools}:/usr/bin:/bin:{os.environ['PATH']}", "PYTHONPATH": str(GIS),
                           "QGIS_PLUGINPATH": str(cls.folder / "plugins"), "LC_ALL": "C.UTF-8"}
        cls.environment.pop("RELIEF", None)

    def run_block(self, commands, output):
        for tool in TOOLS:
            if tool in commands and shutil.which(tool) is None:
                self.skipTest(f"no {tool}")
        done = subprocess.run(["bash", "-e", "-o", "pipefail", "-c", commands], cwd=self.folder, env=self.environment,
                              stdout=subprocess.PIPE, stderr=subprocess.STDOUT, text=True, timeout=300)
        self.assertEqual((done.returncode, done.stdout), (0, output or ""))


def add_block(block):
    """Adds the test of a block."""
    def test(self):
        self.run_block(block["commands"], block["output"])
    line = PAGE.count("\n", 0, block.start()) + 1
    setattr(Page, f"test_line_{line:04}", test)


for found in BLOCK.finditer(PAGE):
    add_block(found)


if __name__ == "__main__":
    unittest.main()
