"""What is installed: by pip without network, as a Debian package, and for QGIS's plugin manager."""
import os
import shutil
import subprocess
import sys
import unittest
import zipfile

from fixtures import GIS, RELIEF, TOP, Case, environment, hills, make_raster

MODULES = sorted(path.name for path in (GIS / "relief_gis").glob("*.py"))


def run(words, **more):
    return subprocess.run(words, capture_output=True, text=True, timeout=300, **more)


class Packages(Case):
    def clean(self, **more):
        """The variables of a run without the package of the repository."""
        return {name: value for name, value in environment(**more).items() if name != "PYTHONPATH"}

    def make_a_map(self, command):
        make_raster(self.folder / "dem.tif", hills().astype("float32"))
        done = run([*command, "fill", "dem.tif", "out.tif"], cwd=self.folder, env=self.clean())
        self.assertEqual((done.returncode, done.stderr), (0, ""))
        self.assertTrue((self.folder / "out.tif").exists())

    def test_pip_without_network(self):
        target = self.folder / "environment"
        done = run([sys.executable, "-m", "venv", "--system-site-packages", str(target)])
        if done.returncode != 0:
            self.skipTest("no venv: package python3-venv")
        done = run([str(target / "bin" / "pip"), "install", "--no-index", "--no-cache-dir", str(GIS)], env=self.clean())
        self.assertEqual(done.returncode, 0, done.stderr)
        self.make_a_map([str(target / "bin" / "relief-gis")])

    def test_installed_and_removed(self):
        prefix = str(self.folder / "usr")
        done = run([str(GIS / "install"), prefix])
        self.assertEqual(done.returncode, 0)
        modules = f"{prefix}/lib/python3/dist-packages"
        self.assertIn(f"find relief_gis with PYTHONPATH={modules}.", done.stdout)
        words = [sys.executable, "-c", "import relief_gis; print(relief_gis.__file__)"]
        found = run(words, cwd=self.folder, env={**self.clean(), "PYTHONPATH": modules}).stdout
        self.assertEqual(found, f"{modules}/relief_gis/__init__.py\n")
        self.make_a_map([f"{prefix}/bin/relief-gis"])
        self.assertEqual(run([str(GIS / "install"), "--remove", prefix]).returncode, 0)
        left = [name for _, _, names in os.walk(prefix) for name in names]
        self.assertEqual([name for name in left if not name.endswith(".pyc")], [])

    @unittest.skipUnless(shutil.which("dpkg-deb"), "no dpkg-deb")
    def test_debian_package(self):
        done = run([str(GIS / "package")], env={**self.clean(), "DEBFULLNAME": "A B", "DEBEMAIL": "a@example.org"})
        self.assertEqual(done.returncode, 0, done.stderr)
        package = TOP / done.stdout.strip()
        fields = run(["dpkg-deb", "-f", str(package)]).stdout
        for name in ("relief (>=", "python3-gdal", "python3-numpy", "Suggests: qgis"):
            self.assertIn(name, fields)
        run(["dpkg-deb", "-x", str(package), str(self.folder / "root")])
        modules = self.folder / "root" / "usr" / "lib" / "python3" / "dist-packages" / "relief_gis"
        self.assertEqual(sorted(path.name for path in modules.glob("*.py")), MODULES)
        if shutil.which("lintian"):
            self.assertEqual(run(["lintian", str(package)]).stdout, "")

    def test_plugin_archive(self):
        done = run([str(GIS / "qgis-plugin")])
        self.assertEqual(done.returncode, 0, done.stderr)
        with zipfile.ZipFile(TOP / done.stdout.strip()) as archive:
            names = archive.namelist()
        for name in ["metadata.txt", "help/fill.png", *(f"relief_gis/{module}" for module in MODULES)]:
            self.assertIn(f"relief/{name}", names)

    def test_versions_agree(self):
        version = run([RELIEF, "--version"]).stdout.split()[1]
        self.assertIn(f'__version__ = "{version}"', (GIS / "relief_gis" / "__init__.py").read_text())
        self.assertIn(f"version={version}\n", (GIS / "qgis" / "relief" / "metadata.txt").read_text())


if __name__ == "__main__":
    unittest.main()
