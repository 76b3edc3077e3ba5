"""Builds the package's wheel: the files of `talusdish` and its library, zipped as the standard asks (PEP 427).

A build backend by PEP 517 that needs the standard library alone, so that `pip install ./python` needs nothing from
anywhere else. It compiles nothing: the library is what `c/build python/talusdish` has put into the package.
"""

import base64
import hashlib
import sysconfig
import zipfile
from pathlib import Path

ROOT = Path(__file__).resolve().parent.parent
LIBRARY = ROOT / "talusdish" / "libtalusdish.so"


def _project() -> "tuple[str, str, str]":
    """The project's name, version and summary, the only lines of pyproject.toml that a wheel repeats."""
    found = {}
    for line in (ROOT / "pyproject.toml").read_text(encoding="utf-8").splitlines():
        key, _, value = line.partition(" = ")
        if key in ("name", "version", "description"):
            found[key] = value.strip().strip('"')
    return found["name"], found["version"], found["description"]


def _platform() -> str:
    """This platform's tag: the library is machine code."""
    return sysconfig.get_platform().replace("-", "_").replace(".", "_")


def _files() -> "list[tuple[str, bytes]]":
    """What is installed, by its place in the wheel, and behind it the wheel's own description."""
    name, version, summary = _project()
    info = f"{name}-{version}.dist-info"
    package = ROOT / "talusdish"
    inside = sorted([*package.glob("*.py"), package / "py.typed", LIBRARY])
    readme = (ROOT / "README.md").read_text(encoding="utf-8")
    metadata = (
        f"Metadata-Version: 2.1\nName: {name}\nVersion: {version}\nSummary: {summary}\n"
        f"Requires-Python: >=3.9\nDescription-Content-Type: text/markdown\n\n{readme}"
    )
    wheel = f"Wheel-Version: 1.0\nGenerator: {name}\nRoot-Is-Purelib: false\nTag: py3-none-{_platform()}\n"
    return [
        *((f"talusdish/{it.name}", it.read_bytes()) for it in inside),
        (f"{info}/METADATA", metadata.encode()),
        (f"{info}/WHEEL", wheel.encode()),
    ]


def _record(path: str, content: bytes) -> str:
    digest = base64.urlsafe_b64encode(hashlib.sha256(content).digest()).rstrip(b"=").decode()
    return f"{path},sha256={digest},{len(content)}\n"


def build_wheel(wheel_directory, config_settings=None, metadata_directory=None) -> str:
    """Writes the wheel into a folder, and gives its name (PEP 517)."""
    if not LIBRARY.is_file():
        raise SystemExit(f"there is no {LIBRARY}: run c/build python/talusdish first")
    name, version, _ = _project()
    target = f"{name}-{version}-py3-none-{_platform()}.whl"
    record = f"{name}-{version}.dist-info/RECORD"
    with zipfile.ZipFile(Path(wheel_directory) / target, "w", zipfile.ZIP_DEFLATED) as wheel:
        lines = ""
        for path, content in _files():
            # (a time of its own would make each wheel another file)
            wheel.writestr(zipfile.ZipInfo(path, (1980, 1, 1, 0, 0, 0)), content, zipfile.ZIP_DEFLATED)
            lines += _record(path, content)
        wheel.writestr(zipfile.ZipInfo(record, (1980, 1, 1, 0, 0, 0)), f"{lines}{record},,\n", zipfile.ZIP_DEFLATED)
    return target


def build_sdist(sdist_directory, config_settings=None) -> str:
    """There is none: the sources of the library are the repository's."""
    raise SystemExit("talusdish has no source distribution: take the repository")
