"""Builds the package for pip: a wheel with the library in it, made with nothing but Python.

pip calls the functions build_wheel and build_sdist. In a checkout the library is written first by tools/library, which
takes some minutes where it has to prove; `pip install -v` shows what it says. Where it cannot be written the package
is installed without, and says at its first call what to run.
"""
import base64
import hashlib
import io
import re
import subprocess
import sys
import sysconfig
import tarfile
import zipfile
from pathlib import Path

HERE = Path(__file__).resolve().parent
PACKAGE = HERE / "hinthevoun"
LIBRARY = "libhinthevoun.so"
VERSION = re.search(r'^__version__ = "(.*)"$', (PACKAGE / "__init__.py").read_text(), re.M)[1]
NAME = f"hinthevoun-{VERSION}"

METADATA = f"""Metadata-Version: 2.1
Name: hinthevoun
Version: {VERSION}
Summary: From the encoded paths of a scene to lines and boxes, by a proved library, and the command hinth
Requires-Python: >=3.9
"""


def library():
    """The bytes of the library of this checkout, or nothing."""
    root = HERE.parent
    if (root / "tools" / "library").is_file():
        done = subprocess.run([str(root / "tools" / "library")], stdout=sys.stderr, check=False)
        if done.returncode:
            print("the library could not be written, so the package is installed without", file=sys.stderr)
    place = root / "target" / "staticlib" / LIBRARY
    return place.read_bytes() if place.is_file() else None


def sources():
    """The files of the package, by their names in a wheel."""
    return {str(place.relative_to(HERE)): place.read_bytes() for place in sorted(PACKAGE.rglob("*.py"))}


def build_wheel(wheel_directory, config_settings=None, metadata_directory=None):
    """Writes the wheel and returns its name."""
    files, lent = sources(), library()
    platform = "any"
    if lent:
        files[f"hinthevoun/{LIBRARY}"] = lent
        platform = re.sub(r"[-.]", "_", sysconfig.get_platform())
    tag, info = f"py3-none-{platform}", f"{NAME}.dist-info"
    pure = "false" if lent else "true"
    files[f"{info}/METADATA"] = METADATA.encode()
    files[f"{info}/WHEEL"] = f"Wheel-Version: 1.0\nGenerator: hinthevoun\nRoot-Is-Purelib: {pure}\nTag: {tag}\n".encode()
    files[f"{info}/entry_points.txt"] = b"[console_scripts]\nhinth = hinthevoun.cli:main\n"
    files[f"{info}/RECORD"] = record_of(files, f"{info}/RECORD").encode()
    with zipfile.ZipFile(Path(wheel_directory, f"{NAME}-{tag}.whl"), "w", zipfile.ZIP_DEFLATED) as wheel:
        for name, data in files.items():
            wheel.writestr(name, data)
    return f"{NAME}-{tag}.whl"


def record_of(files, itself):
    """A row for each file: its name, its hash, its size."""
    def row(name, data):
        digest = base64.urlsafe_b64encode(hashlib.sha256(data).digest()).rstrip(b"=").decode()
        return f"{name},sha256={digest},{len(data)}\n"
    return "".join(row(*file) for file in files.items()) + f"{itself},,\n"


def build_sdist(sdist_directory, config_settings=None):
    """Writes the sources and returns the archive's name. The library is not in it: it is of one machine."""
    files = {**sources(), "PKG-INFO": METADATA.encode()}
    for name in ("pyproject.toml", "backend.py"):
        files[name] = (HERE / name).read_bytes()
    with tarfile.open(Path(sdist_directory, f"{NAME}.tar.gz"), "w:gz", format=tarfile.PAX_FORMAT) as archive:
        for name, data in files.items():
            entry = tarfile.TarInfo(f"{NAME}/{name}")
            entry.size = len(data)
            archive.addfile(entry, io.BytesIO(data))
    return f"{NAME}.tar.gz"
