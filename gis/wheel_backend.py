"""Builds the wheel of relief_gis for pip with Python's own library alone (PEP 517)."""
import base64
import hashlib
import pathlib
import re
import zipfile

HERE = pathlib.Path(__file__).resolve().parent
NAME = "relief_gis"
WHEEL = "Wheel-Version: 1.0\nGenerator: wheel_backend\nRoot-Is-Purelib: true\nTag: py3-none-any\n"


def build_wheel(wheel_directory, config_settings=None, metadata_directory=None):
    """Writes the wheel into a folder; its name."""
    version = re.search(r'__version__ = "(.*)"', (HERE / NAME / "__init__.py").read_text())[1]
    information = f"{NAME}-{version}.dist-info"
    files = {f"{NAME}/{path.name}": path.read_bytes() for path in sorted((HERE / NAME).glob("*")) if path.is_file()}
    script = (HERE / "relief-gis").read_text()
    files[f"{NAME}-{version}.data/scripts/relief-gis"] = re.sub(r"^#!.*", "#!python", script).encode()
    files[f"{information}/METADATA"] = (f"Metadata-Version: 2.1\nName: relief-gis\nVersion: {version}\n"
                                        "Summary: Drainage and visibility maps of rasters and numpy arrays\n"
                                        "Requires-Python: >=3.9\n").encode()
    files[f"{information}/WHEEL"] = WHEEL.encode()
    record = "".join(f"{path},sha256={_digest(data)},{len(data)}\n" for path, data in files.items())
    files[f"{information}/RECORD"] = f"{record}{information}/RECORD,,\n".encode()
    name = f"{NAME}-{version}-py3-none-any.whl"
    with zipfile.ZipFile(pathlib.Path(wheel_directory) / name, "w", zipfile.ZIP_DEFLATED) as wheel:
        for path, data in files.items():
            entry = zipfile.ZipInfo(path)
            entry.external_attr = (0o100755 if "/scripts/" in path else 0o100644) << 16
            wheel.writestr(entry, data, zipfile.ZIP_DEFLATED)
    return name


def _digest(data):
    return base64.urlsafe_b64encode(hashlib.sha256(data).digest()).rstrip(b"=").decode()
