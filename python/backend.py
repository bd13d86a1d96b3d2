"""Builds the package with Python alone (PEP 517 and 660), so that `pip install ./python` needs no network and no other package.

It knows this package's pyproject.toml and no more: the lines of [project] that are a text, and the classifiers. The same sources give the
same bytes.
"""
import base64
import gzip
import hashlib
import os
import re
import tarfile
import zipfile

HERE = os.path.dirname(os.path.abspath(__file__))
WHEN = 1_577_836_800  # 2020-01-01, for each file
TAG = "py3-none-any"


def _project():
    """The lines of [project] by their names, and the classifiers."""
    with open(os.path.join(HERE, "pyproject.toml"), encoding="utf-8") as file:
        text = file.read().split("[project]", 1)[1]
    found = dict(re.findall(r'^([\w-]+) = "(.*)"$', text, re.MULTILINE))
    found["classifiers"] = re.findall(r'^    "(.*)",$', text, re.MULTILINE)
    return found


PROJECT = _project()
NAME = f"{PROJECT['name']}-{PROJECT['version']}"
INFO = f"{NAME}.dist-info"


def _sources():
    """The files of the package, by the names that they have in it."""
    found = {}
    for at, folders, names in os.walk(os.path.join(HERE, PROJECT["name"])):
        folders[:] = sorted(it for it in folders if it != "__pycache__")
        for name in sorted(names):
            path = os.path.join(at, name)
            with open(path, "rb") as file:
                found[os.path.relpath(path, HERE).replace(os.sep, "/")] = file.read()
    return found


def _metadata():
    with open(os.path.join(HERE, PROJECT["readme"]), encoding="utf-8") as file:
        readme = file.read()
    lines = ["Metadata-Version: 2.1", f"Name: {PROJECT['name']}", f"Version: {PROJECT['version']}", f"Summary: {PROJECT['description']}",
             *(f"Classifier: {it}" for it in PROJECT["classifiers"]), f"Requires-Python: {PROJECT['requires-python']}",
             "Description-Content-Type: text/markdown", "", readme]
    return "\n".join(lines).encode("utf-8")


def _info():
    wheel = f"Wheel-Version: 1.0\nGenerator: {PROJECT['name']}\nRoot-Is-Purelib: true\nTag: {TAG}\n"
    return {f"{INFO}/METADATA": _metadata(), f"{INFO}/WHEEL": wheel.encode()}


def _write_wheel(folder, files):
    """Writes a wheel of these files, and returns its name."""
    record = []
    name = f"{NAME}-{TAG}.whl"
    with zipfile.ZipFile(os.path.join(folder, name), "w", zipfile.ZIP_DEFLATED) as wheel:
        for path, data in sorted(files.items()):
            _add(wheel, path, data)
            digest = base64.urlsafe_b64encode(hashlib.sha256(data).digest()).rstrip(b"=").decode()
            record.append(f"{path},sha256={digest},{len(data)}\n")
        _add(wheel, f"{INFO}/RECORD", "".join([*record, f"{INFO}/RECORD,,\n"]).encode())
    return name


def _add(wheel, path, data):
    one = zipfile.ZipInfo(path, (2020, 1, 1, 0, 0, 0))
    one.external_attr = 0o644 << 16
    one.compress_type = zipfile.ZIP_DEFLATED
    wheel.writestr(one, data)


def build_wheel(wheel_directory, config_settings=None, metadata_directory=None):
    return _write_wheel(wheel_directory, {**_sources(), **_info()})


def build_editable(wheel_directory, config_settings=None, metadata_directory=None):
    """A wheel that names this folder, so that changes here count at once."""
    return _write_wheel(wheel_directory, {f"{PROJECT['name']}.pth": (HERE + "\n").encode(), **_info()})


def build_sdist(sdist_directory, config_settings=None):
    """The sources as they stand, but for the tests, which need the rest of the tree."""
    name = f"{NAME}.tar.gz"

    def plain(one):
        one.mtime, one.uid, one.gid, one.uname, one.gname = WHEN, 0, 0, "", ""
        return None if "__pycache__" in one.name else one
    path = os.path.join(sdist_directory, name)
    with open(path, "wb") as file, gzip.GzipFile("", "wb", 9, file, WHEN) as zipped, tarfile.open(fileobj=zipped, mode="w") as packed:
        for part in ("pyproject.toml", "backend.py", PROJECT["readme"], PROJECT["name"]):
            packed.add(os.path.join(HERE, part), f"{NAME}/{part}", filter=plain)
    return name


def _no_more(config_settings=None):
    return []


get_requires_for_build_wheel = get_requires_for_build_editable = get_requires_for_build_sdist = _no_more
