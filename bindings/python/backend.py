"""Builds the package for pip (PEP 517) with Python's own library: pip install --no-index bindings/python downloads nothing."""

import base64
import hashlib
import io
import pathlib
import tarfile
import zipfile

HERE = pathlib.Path(__file__).resolve().parent
VERSION = (HERE / "tezqulom" / "version.py").read_text(encoding="utf-8").split('"')[-2]
NAME = "tezqulom-" + VERSION
INFO = NAME + ".dist-info/"
METADATA = "Metadata-Version: 2.1\nName: tezqulom\nVersion: %s\nRequires-Python: >=3.11\n" % VERSION
WHEEL = "Wheel-Version: 1.0\nGenerator: tezqulom\nRoot-Is-Purelib: true\nTag: py3-none-any\n"
SCRIPTS = "[console_scripts]\ntezqulom = tezqulom.command:run\n"


def package():
    """The package's files, by their names in it."""
    return {"tezqulom/" + file.name: file.read_bytes() for file in sorted((HERE / "tezqulom").iterdir()) if file.name == "py.typed" or file.suffix == ".py"}


def build_wheel(wheel_directory, config_settings=None, metadata_directory=None):
    """A wheel; its name."""
    files = {**package(), INFO + "METADATA": METADATA.encode(), INFO + "WHEEL": WHEEL.encode(), INFO + "entry_points.txt": SCRIPTS.encode()}
    record = ""
    for name, octets in files.items():
        digest = base64.urlsafe_b64encode(hashlib.sha256(octets).digest()).decode().rstrip("=")
        record += "%s,sha256=%s,%d\n" % (name, digest, len(octets))
    wheel = NAME + "-py3-none-any.whl"
    with zipfile.ZipFile(pathlib.Path(wheel_directory, wheel), "w", zipfile.ZIP_DEFLATED) as archive:
        for name, octets in files.items():
            archive.writestr(name, octets)
        archive.writestr(INFO + "RECORD", record + INFO + "RECORD,,\n")
    return wheel


def build_sdist(sdist_directory, config_settings=None):
    """A source archive; its name."""
    files = {**package(), **{name: (HERE / name).read_bytes() for name in ("backend.py", "pyproject.toml")}, "PKG-INFO": METADATA.encode()}
    with tarfile.open(pathlib.Path(sdist_directory, NAME + ".tar.gz"), "w:gz") as archive:
        for name, octets in files.items():
            entry = tarfile.TarInfo("%s/%s" % (NAME, name))
            entry.size = len(octets)
            archive.addfile(entry, io.BytesIO(octets))
    return NAME + ".tar.gz"
