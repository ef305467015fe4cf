"""A profile of QGIS for tests: a folder with the plugin, and programs run in it."""
import os
import pathlib
import shutil
import subprocess
import tempfile
import unittest

from fixtures import GIS, RELIEF

# Debian's wrapper `qgis_process` hands the program a word that it does not know.
QGIS = shutil.which("qgis_process.bin") or shutil.which("qgis_process")


class Profile:
    """A folder with the plugin, in which QGIS runs."""

    def __init__(self):
        self.folder = pathlib.Path(tempfile.mkdtemp())
        self.plugins = self.folder / "plugins"
        subprocess.run([str(GIS / "plugin"), str(self.plugins / "relief")], check=True)
        (self.folder / "run").mkdir(mode=0o700)

    @classmethod
    def of_module(cls):
        """A profile that is removed behind the tests of a module, which are left out where there is no QGIS."""
        if QGIS is None:
            raise unittest.SkipTest("no qgis_process: package qgis")
        profile = cls()
        unittest.addModuleCleanup(shutil.rmtree, profile.folder)
        return profile

    def run(self, *words, command=None):
        """Runs `qgis_process`, or another command, in the profile."""
        environment = {**os.environ, "HOME": str(self.folder), "XDG_RUNTIME_DIR": str(self.folder / "run"),
                       "QT_QPA_PLATFORM": "offscreen", "QGIS_PLUGINPATH": str(self.plugins), "RELIEF": RELIEF,
                       # QGIS takes its modules from the first python3: that has to be the distribution's.
                       "PATH": f"/usr/bin:/bin:{os.environ['PATH']}", "LC_ALL": "C.UTF-8"}
        environment.pop("PYTHONPATH", None)
        return subprocess.run([*(command or [QGIS]), *words], capture_output=True, text=True, timeout=300,
                              env=environment)
