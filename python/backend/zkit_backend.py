"""Makes the wheel of the package: the modules of zkit, and the library from dist. The same files give the same bytes.

usage: zkit_backend.py FOLDER

It prints the name of the wheel. `pip install` calls the functions of PEP 517 here. There is no source distribution: the
package is a folder of the repository, and takes the library and the licenses from it.
"""

from __future__ import annotations

import base64
import hashlib
import platform
import re
import sys
import zipfile
from pathlib import Path
from typing import NoReturn, Optional

HERE = Path(__file__).resolve().parent.parent
TOP = HERE.parent
LIBRARY = TOP / "dist/libzkit.so.1"
TAG = "py3-none-linux_x86_64"
LICENSES = ("LICENSE-APACHE", "LICENSE-MIT", "THIRD-PARTY.md")
# the earliest time that a zip archive can tell
TIME = (1980, 1, 1, 0, 0, 0)
METADATA = """\
Metadata-Version: 2.1
Name: zkit
Version: {version}
Summary: Plays and inspects Z-machine stories
License: MIT OR Apache-2.0
Requires-Python: >=3.9
Classifier: Operating System :: POSIX :: Linux
Classifier: Programming Language :: Python :: 3
Classifier: Typing :: Typed
Description-Content-Type: text/markdown

{description}"""
WHEEL = f"""\
Wheel-Version: 1.0
Generator: zkit_backend
Root-Is-Purelib: false
Tag: {TAG}
"""


class UnsupportedOperation(Exception):
    """What PEP 517 asks a backend to raise where it makes no source distribution."""


def refuse(words: str) -> NoReturn:
    """Ends in words: pip shows them."""
    sys.exit(f"zkit: {words}")


def check() -> None:
    """Ends in words if no wheel can be made here."""
    system = f"{sys.platform} on {platform.machine()}"
    if sys.platform != "linux" or platform.machine() not in ("x86_64", "AMD64") or sys.maxsize < 2**32:
        refuse(f"the library is for a 64-bit Python on Linux on x86-64; this is {system}")
    for path in (LIBRARY, *(TOP / name for name in LICENSES)):
        if not path.is_file():
            refuse(f"there is no {path}: build the package in a checkout of the repository")


def version() -> str:
    """The version of the package."""
    found = re.search(r'^__version__ = "(.*)"$', (HERE / "zkit/__init__.py").read_text("utf-8"), re.MULTILINE)
    if not found:
        refuse("zkit/__init__.py says no version")
    return found[1]


def contents() -> dict[str, bytes]:
    """The files of the wheel, in order."""
    number = version()
    info = f"zkit-{number}.dist-info"
    modules = sorted((HERE / "zkit").rglob("*.py"))
    files = {path.relative_to(HERE).as_posix(): path.read_bytes() for path in (*modules, HERE / "zkit/py.typed")}
    files[f"zkit/{LIBRARY.name}"] = LIBRARY.read_bytes()
    for name in LICENSES:
        files[f"{info}/licenses/{name}"] = (TOP / name).read_bytes()
    description = (HERE / "README.md").read_text("utf-8")
    files[f"{info}/METADATA"] = METADATA.format(version=number, description=description).encode()
    files[f"{info}/WHEEL"] = WHEEL.encode()
    files[f"{info}/RECORD"] = record(files, f"{info}/RECORD")
    return files


def record(files: dict[str, bytes], own: str) -> bytes:
    """The list of the files with their checksums."""
    lines = []
    for name, content in files.items():
        digest = base64.urlsafe_b64encode(hashlib.sha256(content).digest()).rstrip(b"=").decode()
        lines.append(f"{name},sha256={digest},{len(content)}\n")
    return "".join([*lines, f"{own},,\n"]).encode()


def build_wheel(
    wheel_directory: str,
    config_settings: Optional[dict[str, object]] = None,
    metadata_directory: Optional[str] = None,
) -> str:
    """Makes the wheel in a folder, and returns its name."""
    check()
    name = f"zkit-{version()}-{TAG}.whl"
    # nothing is compressed: programs that do so differ in their bytes
    with zipfile.ZipFile(Path(wheel_directory) / name, "w", zipfile.ZIP_STORED) as wheel:
        for path, content in contents().items():
            member = zipfile.ZipInfo(path, TIME)
            member.create_system = 3
            member.external_attr = 0o100644 << 16
            wheel.writestr(member, content)
    return name


def build_sdist(sdist_directory: str, config_settings: Optional[dict[str, object]] = None) -> NoReturn:
    """There is none."""
    raise UnsupportedOperation("zkit has no source distribution: build a wheel in a checkout of the repository")


def main() -> int:
    """Makes the wheel in the folder that the command line names."""
    if len(sys.argv) != 2 or sys.argv[1].startswith("-"):
        print(__doc__, file=sys.stderr)
        return 2
    try:
        Path(sys.argv[1]).mkdir(parents=True, exist_ok=True)
        print(build_wheel(sys.argv[1]))
    except OSError as error:
        refuse(f"{error.filename}: {error.strerror}")
    return 0


if __name__ == "__main__":
    sys.exit(main())
