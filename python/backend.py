"""Builds the package for pip: a wheel, by Python's own libraries.

Beside the modules stand the page, with what runs the module in it under Node, and the second checker. They are the
files of the repository; an archive of sources has copies.

With `--config-settings library=PATH` the wheel has that C library inside, for one platform, and needs no Node: such as
the one that c/build or tools/make/make-portable makes. tools/make/make-wheel does it.
"""
from __future__ import annotations

import base64
import hashlib
import io
import os
import posixpath
import re
import sys
import sysconfig
import tarfile
import zipfile
from platform import machine
from typing import Any, Optional

HERE = os.path.dirname(os.path.abspath(__file__))
PACKAGE = "coop"
WHEEL = "Wheel-Version: 1.0\nGenerator: coop\nRoot-Is-Purelib: {}\nTag: py3-none-{}\n"
OLDEST = (2, 17)  # glibc of manylinux2014, the oldest for which wheels are still made
FIRST_DAY = (1980, 1, 1, 0, 0, 0)  # the same bytes at each build


DATA = {
    "runtime": (
        "coop.mjs", "serve.mjs", "telling.mjs", "usage.txt", "package.json", "engine/host.js", "engine/inside.js",
        "engine/ports.js",
    ),
    "page": ("coop.html", "package.json", "src/palette.css", "src/picture.css"),
    "scripts": ("check-anew",),
    "examples": ("literature.jsonl",),
}
"""What a package has beside its modules, by the folders of the repository; and what TELLING imports."""
TELLING = "runtime/telling.mjs"
IMPORT = re.compile(r'^(?:import|\}) .*from "(\.[^"]+)";$', re.MULTILINE)


def field(key: str, file: str = "pyproject.toml") -> str:
    """A text of pyproject.toml, or of another file of this folder."""
    with open(os.path.join(HERE, file), encoding="utf-8") as source:
        found = re.search(rf'^{key} = "(.*)"$', source.read(), re.MULTILINE)
    assert found is not None, key
    return found[1]


def version() -> str:
    """The version of the project."""
    return field("VERSION", os.path.join(PACKAGE, "version.py"))


def stem() -> str:
    """How the files of this version are called."""
    return f"{field('name')}-{version()}"


def metadata() -> str:
    """What pip keeps of the package, and an index shows."""
    lines = [f"Name: {field('name')}", f"Version: {version()}", f"Summary: {field('description')}"]
    lines += [f"Author: {quoted('authors', 'name')}", f"License: {quoted('license', 'text')}"]
    lines += [f"Keywords: {','.join(keywords())}", f"Requires-Python: {field('requires-python')}"]
    with open(os.path.join(HERE, field("readme")), encoding="utf-8") as file:
        readme = file.read()
    return "\n".join(["Metadata-Version: 2.1", *lines, "Description-Content-Type: text/markdown", "", readme])


def keywords() -> list[str]:
    """The keywords of pyproject.toml."""
    return re.findall('"([^"]+)"', line_of("keywords"))


def quoted(key: str, part: str) -> str:
    """A text of pyproject.toml in braces, such as the name of the authors."""
    found = re.search(f'{part} = "([^"]+)"', line_of(key))
    assert found is not None, key
    return found[1]


def line_of(key: str) -> str:
    """What pyproject.toml has at a key, in its line."""
    with open(os.path.join(HERE, "pyproject.toml"), encoding="utf-8") as file:
        found = re.search(rf"^{key} = (.*)$", file.read(), re.MULTILINE)
    assert found is not None, key
    return found[1]


def path_of(part: str, name: str) -> str:
    """Where a file of DATA is: beside this folder in the repository, and in it in an archive of sources."""
    inside = os.path.join(HERE, part, name)
    return inside if os.path.exists(inside) else os.path.join(os.path.dirname(HERE), part, name)


def modules() -> list[str]:
    """The modules of the package."""
    top = os.path.join(HERE, PACKAGE)
    return [
        os.path.join(folder, name) if folder else name
        for folder in ("", "desk")
        for name in sorted(os.listdir(os.path.join(top, folder)))
        if name.endswith((".py", ".typed", ".json"))
    ]


def data() -> dict[str, list[str]]:
    """What a package has beside its modules, by the folders of the repository."""
    paths = [TELLING]
    for path in paths:
        part, name = path.split("/", 1)
        with open(path_of(part, name), encoding="utf-8") as file:
            others = {posixpath.normpath(f"{posixpath.dirname(path)}/{other}") for other in IMPORT.findall(file.read())}
        paths += sorted(others - set(paths))
    imported = [path.split("/", 1) for path in paths]
    return {
        part: [*names, *(name for other, name in imported if other == part and name not in names)]
        for part, names in DATA.items()
    }


def sources() -> dict[str, str]:
    """The files of the package, by their places in it."""
    found = {f"{PACKAGE}/{name}": os.path.join(HERE, PACKAGE, name) for name in modules()}
    for part, names in data().items():
        found.update((f"{PACKAGE}/{part}/{name}", path_of(part, name)) for name in names)
    return found


def contents(files: dict[str, str]) -> dict[str, bytes]:
    """The bytes of files, by the same places."""
    found = {}
    for place, path in files.items():
        with open(path, "rb") as file:
            found[place] = file.read()
    return found


def wheel_of(directory: str, files: dict[str, bytes], platform: str = "any") -> str:
    """Writes a wheel of these files for a platform, and gives its name."""
    info = f"{stem()}.dist-info"
    about = WHEEL.format("true" if platform == "any" else "false", platform)
    files = {**files, f"{info}/METADATA": metadata().encode(), f"{info}/WHEEL": about.encode()}
    record = [f"{name},sha256={sum_of(data)},{len(data)}\n" for name, data in files.items()]
    record.append(f"{info}/RECORD,,\n")
    name = f"{stem()}-py3-none-{platform}.whl"
    with zipfile.ZipFile(os.path.join(directory, name), "w") as archive:
        for path, data in {**files, f"{info}/RECORD": "".join(record).encode()}.items():
            archive.writestr(zipfile.ZipInfo(path, FIRST_DAY), data, zipfile.ZIP_DEFLATED)
    return name


def sum_of(data: bytes) -> str:
    """A sum as a record has it."""
    return base64.urlsafe_b64encode(hashlib.sha256(data).digest()).rstrip(b"=").decode()


# ---- The C library


class NoLibrary(Exception):
    """The file that is named is no library of this system."""


MAGIC = {"darwin": b"\xcf\xfa\xed\xfe", "win32": b"MZ"}
"""How a library begins; elsewhere by the letters ELF."""


def library_name() -> str:
    """How the package calls it on this system."""
    return {"darwin": "libcoop.dylib", "win32": "coop.dll"}.get(sys.platform, "libcoop.so")


def library_of(settings: Optional[dict[str, Any]]) -> Optional[bytes]:
    """The library that the settings name, if any."""
    path = (settings or {}).get("library")
    if path is None:
        return None
    with open(os.path.join(HERE, path), "rb") as file:
        data = file.read()
    if not data.startswith(MAGIC.get(sys.platform, b"\x7fELF")) or b"coop_run" not in data:
        raise NoLibrary(f"{path} isn't a library of coop for this system")
    return data


def platform_of(library: bytes) -> str:
    """The platform of a wheel with this library; on Linux with the oldest glibc that has all it needs."""
    platform = re.sub("[-.]", "_", sysconfig.get_platform()).replace("universal2", machine())
    if not platform.startswith("linux_") or b"libc.so.6" not in library:
        return platform
    found = [(int(one), int(two)) for one, two in re.findall(rb"\0GLIBC_(\d+)\.(\d+)", library)]
    return f"manylinux_{'_'.join(map(str, max([*found, OLDEST])))}_{platform[6:]}"


# ---- What pip calls


def build_wheel(directory: str, settings: Optional[dict[str, Any]] = None, prepared: Optional[str] = None) -> str:
    """A wheel of the package."""
    files, library = contents(sources()), library_of(settings)
    if library is None:
        return wheel_of(directory, files)
    return wheel_of(directory, {**files, f"{PACKAGE}/{library_name()}": library}, platform_of(library))


def build_editable(directory: str, settings: Any = None, prepared: Optional[str] = None) -> str:
    """A wheel that leads here."""
    return wheel_of(directory, {f"{PACKAGE}.pth": f"{HERE}\n".encode()})


def build_sdist(directory: str, settings: Any = None) -> str:
    """The sources as an archive, with the folders of DATA inside."""
    own = ("pyproject.toml", "backend.py", field("readme"))
    files = {name: os.path.join(HERE, name) for name in own}
    files.update((f"{PACKAGE}/{name}", os.path.join(HERE, PACKAGE, name)) for name in modules())
    for part, names in data().items():
        files.update((f"{part}/{name}", path_of(part, name)) for name in names)
    name = f"{stem()}.tar.gz"
    with tarfile.open(os.path.join(directory, name), "w:gz") as archive:
        for place, path in files.items():
            archive.add(path, f"{stem()}/{place}")
        about = metadata().encode()
        entry = tarfile.TarInfo(f"{stem()}/PKG-INFO")
        entry.size = len(about)
        archive.addfile(entry, io.BytesIO(about))
    return name
