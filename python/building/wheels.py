"""Makes wheels of this package with the program inside, by the standard library alone.

`pip` calls the functions of PEP 517 and PEP 660 below, as pyproject.toml says. The program is that
of dist/ in the repository, and so nothing has to be fetched for a build.
"""
from __future__ import annotations

import base64
import hashlib
import io
import os
import platform
import re
import tarfile
import zipfile
from pathlib import Path
from typing import Dict, List, Mapping, NamedTuple, Optional, Tuple

PYTHON = Path(__file__).resolve().parent.parent
# Where dist/, data/ and the licences lie: in the repository, or beside the package of an sdist.
TOPS = (PYTHON.parent, PYTHON)
PACKAGE = "countygroups"
LICENCES = ("LICENSE-MIT", "LICENSE-APACHE", "NOTICE")
NATIVE = "dist/countygroups-x86_64-linux"
# The same, linked with musl: it starts with any C library. A build of dist/ may not have it.
STATIC = "dist/countygroups-x86_64-linux-static"
FOR_ANY_LIBRARY = "manylinux_2_17_x86_64.musllinux_1_1_x86_64"
BY_NODE = ("dist/countygroups.mjs", "dist/countygroups.wasm")
DATA = ("data/nc2020/county_borders.txt", "data/nc2020/borders_source.txt")
ENTRY_POINTS = "[console_scripts]\ncountygroups = countygroups.command:main\n"
WHEEL = """Wheel-Version: 1.0
Generator: countygroups
Root-Is-Purelib: {is_pure}
{tags}"""
# The date of all files in an archive, so that the same files give the same bytes.
DATE = (1980, 1, 1, 0, 0, 0)
SECONDS_OF_DATE = 315532800
VERSION = re.compile(r'^VERSION = "([0-9.]+)"$', re.M)
PICTURE = re.compile(r"^!\[[^]]*\]\([^)]*\)\n\n", re.M)
LINK = re.compile(r"\[([^]]*)\]\((?!https?:)[^)]*\)")
GLIBC = re.compile(rb"GLIBC_2\.([0-9]+)")

Settings = Optional[Mapping[str, str]]


class Member(NamedTuple):
    """Is a file of an archive: its bytes, and whether it is a program."""

    content: bytes
    is_program: bool = False


Members = Dict[str, Member]


def file_of(name: str) -> Path:
    """Returns the path of a file of the repository.

    Raises `FileNotFoundError` if it isn't there.
    """
    for top in TOPS:
        if (top / name).is_file():
            return top / name
    raise FileNotFoundError(f"There is no {name} in the repository of this package.")


def is_static() -> bool:
    """Returns whether there is a program that starts with any C library."""
    return any((top / STATIC).is_file() for top in TOPS)


def version() -> str:
    """Returns the version of the package."""
    found = VERSION.search((PYTHON / PACKAGE / "version.py").read_text(encoding="utf-8"))
    assert found, "version.py has no version"
    return found[1]


def least_library() -> Tuple[int, int]:
    """Returns the least release of the C library of GNU with which the program of dist/ starts."""
    found = GLIBC.findall(file_of(NATIVE).read_bytes())
    return (2, max(int(number) for number in found))


def is_native(settings: Settings) -> bool:
    """Returns whether the program for Linux on x86-64 is to be inside, and not the WebAssembly.

    `settings` may say so by `program`: "native" or "wasm". Else it is if it runs on this machine.
    Raises `ValueError` for another word.
    """
    asked = (settings or {}).get("program", "")
    if asked not in ("", "native", "wasm"):
        raise ValueError(f"program is native or wasm, and not {asked}")
    if asked:
        return asked == "native"
    if (platform.system(), platform.machine()) != ("Linux", "x86_64"):
        return False
    if is_static():
        return True
    name, number = platform.libc_ver()
    parts = number.split(".")[:2]
    is_known = name == "glibc" and len(parts) == 2 and all(part.isdecimal() for part in parts)
    return is_known and tuple(int(part) for part in parts) >= least_library()


def tag_of(is_with_native: bool) -> str:
    """Returns the platforms of a wheel, with dots between."""
    if is_with_native and is_static():
        return FOR_ANY_LIBRARY
    return "manylinux_{}_{}_x86_64".format(*least_library()) if is_with_native else "any"


def metadata() -> str:
    """Returns the METADATA of the package: its fields, and README.md behind them.

    Pictures and links to files of the repository are left out, since an index page hasn't them.
    """
    fields = (PYTHON / "building" / "metadata.txt").read_text(encoding="utf-8")
    readme = (PYTHON / "README.md").read_text(encoding="utf-8")
    return fields.replace("{version}", version()) + LINK.sub(r"\1", PICTURE.sub("", readme))


def info_of(is_with_native: bool, tag: str) -> Members:
    """Returns the files of the folder that describes the package, but for RECORD."""
    tags = "".join(f"Tag: py3-none-{one}\n" for one in tag.split("."))
    words = {"is_pure": "false" if is_with_native else "true", "tags": tags}
    texts = {
        "METADATA": metadata(),
        "WHEEL": WHEEL.format(**words),
        "entry_points.txt": ENTRY_POINTS,
    }
    folder = f"{PACKAGE}-{version()}.dist-info"
    members = {f"{folder}/{name}": Member(text.encode()) for name, text in texts.items()}
    for name in LICENCES:
        members[f"{folder}/licenses/{name}"] = Member(file_of(name).read_bytes())
    return members


def package_of(is_with_native: bool) -> Members:
    """Returns the files of the package with its program and its data."""
    members: Members = {}
    for path in sorted((PYTHON / PACKAGE).glob("*")):
        if path.suffix == ".py" or path.name == "py.typed":
            members[f"{PACKAGE}/{path.name}"] = Member(path.read_bytes())
    if is_with_native:
        content = file_of(STATIC if is_static() else NATIVE).read_bytes()
        members[f"{PACKAGE}/bin/{Path(NATIVE).name}"] = Member(content, True)
    for name in () if is_with_native else BY_NODE:
        path = file_of(name)
        members[f"{PACKAGE}/bin/{path.name}"] = Member(path.read_bytes())
    for name in DATA:
        path = file_of(name)
        members[f"{PACKAGE}/data/{path.name}"] = Member(path.read_bytes())
    return members


def record_of(members: Members, name: str) -> Member:
    """Returns RECORD: each file with its sum and its length, and itself as `name` without them."""
    lines: List[str] = []
    for path, member in members.items():
        digest = base64.urlsafe_b64encode(hashlib.sha256(member.content).digest())
        lines.append(f"{path},sha256={digest.decode().rstrip('=')},{len(member.content)}\n")
    return Member("".join([*lines, f"{name},,\n"]).encode())


def write_wheel(folder: str, members: Members, tag: str) -> str:
    """Writes a wheel of `members` to `folder`, and returns its name."""
    record = f"{PACKAGE}-{version()}.dist-info/RECORD"
    whole = {**members, record: record_of(members, record)}
    name = f"{PACKAGE}-{version()}-py3-none-{tag}.whl"
    with zipfile.ZipFile(Path(folder) / name, "w", zipfile.ZIP_DEFLATED) as archive:
        for path, member in whole.items():
            info = zipfile.ZipInfo(path, DATE)
            info.compress_type = zipfile.ZIP_DEFLATED
            info.create_system = 3
            info.external_attr = (0o100755 if member.is_program else 0o100644) << 16
            archive.writestr(info, member.content)
    return name


def get_requires_for_build_wheel(config_settings: Settings = None) -> List[str]:
    """Returns what a build needs, which is nothing."""
    return []


def build_wheel(
    wheel_directory: str,
    config_settings: Settings = None,
    metadata_directory: Optional[str] = None,
) -> str:
    """Makes a wheel in `wheel_directory`, and returns its name.

    `config_settings` may have `program`: "native" for the program for Linux on x86-64, "wasm" for
    the one that Node runs on any system. Without it, what runs here is taken.
    """
    is_with_native = is_native(config_settings)
    tag = tag_of(is_with_native)
    members = {**package_of(is_with_native), **info_of(is_with_native, tag)}
    return write_wheel(wheel_directory, members, tag)


def build_editable(
    wheel_directory: str,
    config_settings: Settings = None,
    metadata_directory: Optional[str] = None,
) -> str:
    """Makes a wheel by which this folder itself is imported, with the program of dist/."""
    path = Member(f"{PYTHON}\n".encode())
    return write_wheel(wheel_directory, {f"{PACKAGE}.pth": path, **info_of(False, "any")}, "any")


def build_sdist(sdist_directory: str, config_settings: Settings = None) -> str:
    """Makes an archive of this folder with what wheels take of the repository."""
    name = f"{PACKAGE}-{version()}"
    paths = [path for path in sorted(PYTHON.rglob("*")) if is_source(path)]
    members = {str(path.relative_to(PYTHON)): path for path in paths}
    programs = (NATIVE, *([STATIC] if is_static() else []), *BY_NODE)
    members.update({one: file_of(one) for one in (*LICENCES, *programs, *DATA)})
    with tarfile.open(
        Path(sdist_directory) / f"{name}.tar.gz", "w:gz", format=tarfile.PAX_FORMAT
    ) as archive:
        for member, path in sorted(members.items()):
            add_to(archive, f"{name}/{member}", path.read_bytes(), os.access(path, os.X_OK))
        add_to(archive, f"{name}/PKG-INFO", metadata().encode(), False)
    return f"{name}.tar.gz"


def is_source(path: Path) -> bool:
    """Returns whether a file of this folder belongs to an sdist."""
    return path.is_file() and path.suffix in (
        ".py",
        ".md",
        ".toml",
        ".txt",
        ".typed",
        ".png",
        ".sh",
        ".mjs",
    )


def add_to(archive: tarfile.TarFile, name: str, content: bytes, is_program: bool) -> None:
    """Adds a file to an archive."""
    info = tarfile.TarInfo(name)
    info.size, info.mtime = len(content), SECONDS_OF_DATE
    info.mode = 0o755 if is_program else 0o644
    archive.addfile(info, io.BytesIO(content))
