"""Makes a wheel of the package for pip, by the standard library alone (PEP 517 and 660), so that no network is needed.

A wheel with the library is for machines of this kind alone; one without it is for any, and wants MECHDES_LIBRARY, also where it is
made. Where there is no library that can be loaded, none is made.
"""

import base64
import hashlib
import io
import pathlib
import sysconfig
import tarfile
import tomllib
import zipfile
from typing import Any, TypeAlias

HERE = pathlib.Path(__file__).resolve().parent
LIBRARY = HERE / "mechdes/libmechdes.so"
Settings: TypeAlias = dict[str, Any] | None


def _project() -> dict[str, Any]:
    return tomllib.loads((HERE / "pyproject.toml").read_text())["project"]


def _metadata(project: dict[str, Any]) -> bytes:
    """What pip is told of the package."""
    lines = ["Metadata-Version: 2.1", f"Name: {project['name']}", f"Version: {project['version']}"]
    lines += [f"Summary: {project['description']}", f"Requires-Python: {project['requires-python']}"]
    for extra, needs in project["optional-dependencies"].items():
        lines += [f"Provides-Extra: {extra}", *(f'Requires-Dist: {need}; extra == "{extra}"' for need in needs)]
    return "\n".join([*lines, ""]).encode()


def _entry_points(project: dict[str, Any]) -> bytes:
    """The commands that pip makes."""
    return "".join(["[console_scripts]\n", *(f"{name} = {call}\n" for name, call in project["scripts"].items())]).encode()


def _try_library() -> None:
    """Ends the installation where the library cannot be loaded, with the sentence that the first call would raise."""
    import mechdes

    try:
        mechdes.library()
    except mechdes.LibraryMissing as missing:
        raise SystemExit(str(missing)) from None


def _package() -> dict[str, bytes]:
    """The files of the package: its modules and their table, the mark that they have types, and the library where it was built."""
    files = [*sorted(HERE.glob("mechdes/**/*.py")), *HERE.glob("mechdes/**/*.json"), HERE / "mechdes/py.typed"]
    found = [*files, *([LIBRARY] if LIBRARY.exists() else [])]
    return {path.relative_to(HERE).as_posix(): path.read_bytes() for path in found}


def _entry(path: str) -> zipfile.ZipInfo:
    """A file of a wheel, with no time of its own, so that the same files make the same wheel."""
    entry = zipfile.ZipInfo(path)
    entry.compress_type = zipfile.ZIP_DEFLATED
    entry.external_attr = 0o644 << 16
    return entry


def _write_wheel(folder: str, files: dict[str, bytes], tag: str) -> str:
    """Writes a wheel of files, with what describes it, and gives its name."""
    project = _project()
    name = f"{project['name']}-{project['version']}"
    described = f"{name}.dist-info"
    pure = "true" if tag.endswith("any") else "false"
    files = dict(files)
    files[f"{described}/METADATA"] = _metadata(project)
    files[f"{described}/entry_points.txt"] = _entry_points(project)
    files[f"{described}/WHEEL"] = f"Wheel-Version: 1.0\nGenerator: mechdes\nRoot-Is-Purelib: {pure}\nTag: {tag}\n".encode()
    record = ""
    for path, data in files.items():
        digest = base64.urlsafe_b64encode(hashlib.sha256(data).digest()).rstrip(b"=").decode()
        record += f"{path},sha256={digest},{len(data)}\n"
    files[f"{described}/RECORD"] = f"{record}{described}/RECORD,,\n".encode()
    with zipfile.ZipFile(pathlib.Path(folder) / f"{name}-{tag}.whl", "w") as wheel:
        for path, data in files.items():
            wheel.writestr(_entry(path), data)
    return f"{name}-{tag}.whl"


def build_wheel(wheel_directory: str, config_settings: Settings = None, metadata_directory: str | None = None) -> str:
    """A wheel of the package. Raises `SystemExit` where there is no library."""
    _try_library()
    machine = sysconfig.get_platform().replace("-", "_").replace(".", "_") if LIBRARY.exists() else "any"
    return _write_wheel(wheel_directory, _package(), f"py3-none-{machine}")


def build_editable(wheel_directory: str, config_settings: Settings = None, metadata_directory: str | None = None) -> str:
    """A wheel that names this folder, for `pip install -e`."""
    return _write_wheel(wheel_directory, {"mechdes.pth": f"{HERE}\n".encode()}, "py3-none-any")


def build_sdist(sdist_directory: str, config_settings: Settings = None) -> str:
    """An archive of what a wheel is made from, without the library."""
    project = _project()
    name = f"{project['name']}-{project['version']}"
    files = {path: data for path, data in _package().items() if not path.endswith(".so")}
    files |= {path: (HERE / path).read_bytes() for path in ("pyproject.toml", "backend.py")}
    files["PKG-INFO"] = _metadata(project)
    with tarfile.open(pathlib.Path(sdist_directory) / f"{name}.tar.gz", "w:gz") as archive:
        for path, data in files.items():
            told = tarfile.TarInfo(f"{name}/{path}")
            told.size = len(data)
            archive.addfile(told, io.BytesIO(data))
    return f"{name}.tar.gz"
