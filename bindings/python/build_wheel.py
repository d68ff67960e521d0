"""Makes the wheel of the binding: compiles `src/*.c` over the library and packs the files.

pip calls `build_wheel`, `build_editable` and `build_sdist` as `pyproject.toml` says. What they need
is a C compiler, Python's headers, and the library, which `make lib` at the repository's top makes:

    JADVOLNI_INCLUDE   the folder of jadvolni.h, if not ../../include
    JADVOLNI_LIBRARY   the static library, if not ../../build/libjadvolni.a
    AUDITWHEEL_PLAT    the platform of the wheel's tag, if not that of this Python
    CC                 the compiler, if not cc
    CPPFLAGS, CFLAGS, LDFLAGS
                       further words for the compiler, which come after those of FLAGS
"""

from __future__ import annotations

import base64
import hashlib
import os
import re
import shlex
import subprocess
import sys
import sysconfig
import tempfile
import zipfile
from pathlib import Path
from typing import Optional

if sys.version_info < (3, 11):
    sys.exit(f"the binding needs Python 3.11 or later, and this is {sys.version.split()[0]}")

import tomllib

HERE = Path(__file__).resolve().parent
TOP = HERE.parent.parent
PROJECT = tomllib.loads((HERE / "pyproject.toml").read_text(encoding="utf-8"))["project"]
NAME, VERSION = PROJECT["name"], PROJECT["version"]
FLAGS = ["-std=c11", "-O3", "-Wall", "-Wextra", "-fPIC", "-fno-plt", "-shared",
         "-fvisibility=hidden"]
# The extension exports nothing of the library: else the calls of another one of that name, loaded
# before, would take the place of those that it was linked with. The loader refuses it on a
# processor before x86-64-v2.
LINK_FLAGS = ["-Wl,--exclude-libs,ALL", "-Wl,-z,x86-64-v2"]
MODULES = sorted(path.name for kind in ("*.py", "*.pyi", "py.typed")
                 for path in (HERE / "src" / NAME).glob(kind))
LINK = re.compile(r"\[([^]]*)\]\((?:\.\./\.\./([^)#]*))?[^)]*\)")


def tag() -> str:
    """The tag of the wheel: the stable ABI of 3.11 on a platform."""
    platform = os.environ.get("AUDITWHEEL_PLAT") or sysconfig.get_platform()
    return "cp311-abi3-" + platform.replace("-", "_").replace(".", "_")


def found(variable: str, default: Path) -> Path:
    """A path that the environment names, or the default, which has to be there."""
    path = Path(os.environ.get(variable) or default).resolve()
    if not path.exists():
        sys.exit(f"{path} isn't there: run `make lib` at the repository's top, or set {variable}")
    return path


def words(variable: str) -> list[str]:
    """The words of a variable of the environment, as a shell reads them."""
    return shlex.split(os.environ.get(variable, ""))


def compile_extension(folder: Path) -> Path:
    """Makes the extension in a folder, and answers its path."""
    target = folder / "_core.abi3.so"
    subprocess.run(command(target), check=True)
    return target


def command(target: Path) -> list[str]:
    """The call of the compiler that makes the extension."""
    include = found("JADVOLNI_INCLUDE", TOP / "include")
    library = found("JADVOLNI_LIBRARY", TOP / "build" / "libjadvolni.a")
    python = Path(sysconfig.get_paths()["include"])
    if not (python / "Python.h").exists():
        sys.exit(f"there is no {python / 'Python.h'}: install this Python's headers")
    headers = [f"-I{include}", f"-I{python}"]
    sources = sorted(str(path) for path in (HERE / "src").glob("*.c"))
    compiler = [*(words("CC") or ["cc"]), *FLAGS, *words("CPPFLAGS"), *words("CFLAGS"), *headers]
    return [*compiler, *sources, str(library), *LINK_FLAGS, *words("LDFLAGS"), "-o", str(target)]


def unlinked(link: re.Match[str]) -> str:
    """What the wheel's page has in place of a link, since the wheel lacks where it leads."""
    text, path = link.groups()
    if not path:
        return text
    where = f"`{path}` of the sources"
    return where if path.endswith(f"/{text}") else f"{text} ({where})"


def metadata() -> str:
    """The wheel's METADATA."""
    readme = LINK.sub(unlinked, (HERE / "README.md").read_text(encoding="utf-8"))
    head = f"Metadata-Version: 2.1\nName: {NAME}\nVersion: {VERSION}\n"
    about = f"Summary: {PROJECT['description']}\nLicense: {PROJECT['license']['text']}\n"
    needed = f"Requires-Python: {PROJECT['requires-python']}\n"
    return f"{head}{about}{needed}Description-Content-Type: text/markdown\n\n{readme}"


def line_of(name: str, content: bytes) -> str:
    """A file's line of the wheel's RECORD."""
    digest = base64.urlsafe_b64encode(hashlib.sha256(content).digest()).rstrip(b"=").decode()
    return f"{name},sha256={digest},{len(content)}\n"


def contents() -> dict[str, bytes]:
    """The module's files, by their names in the wheel."""
    files = {f"{NAME}/{name}": (HERE / "src" / NAME / name).read_bytes() for name in MODULES}
    with tempfile.TemporaryDirectory() as folder:
        extension = compile_extension(Path(folder))
        files[f"{NAME}/{extension.name}"] = extension.read_bytes()
    return files


def information() -> dict[str, bytes]:
    """What the wheel says of itself, but its RECORD."""
    info = f"{NAME}-{VERSION}.dist-info"
    wheel = f"Wheel-Version: 1.0\nGenerator: {NAME}\nRoot-Is-Purelib: false\nTag: {tag()}\n"
    files = {f"{info}/METADATA": metadata().encode(), f"{info}/WHEEL": wheel.encode()}
    for licence in sorted([*TOP.glob("LICENSE-*"), *TOP.glob("NOTICE*")]):
        files[f"{info}/{licence.name}"] = licence.read_bytes()
    return files


def packed(wheel_directory: str, files: dict[str, bytes]) -> str:
    """Writes a wheel with these files, all of one time, and answers its name."""
    files = {**files, **information()}
    record = f"{NAME}-{VERSION}.dist-info/RECORD"
    lines = "".join(line_of(name, content) for name, content in files.items())
    target = f"{NAME}-{VERSION}-{tag()}.whl"
    with zipfile.ZipFile(Path(wheel_directory) / target, "w", zipfile.ZIP_DEFLATED) as archive:
        for name, content in {**files, record: f"{lines}{record},,\n".encode()}.items():
            entry = zipfile.ZipInfo(name)
            entry.external_attr = 0o100644 << 16
            archive.writestr(entry, content, zipfile.ZIP_DEFLATED)
    return target


def build_wheel(
    wheel_directory: str,
    config_settings: object = None,
    metadata_directory: Optional[str] = None,
) -> str:
    """Writes the wheel, and answers its name."""
    return packed(wheel_directory, contents())


def build_editable(
    wheel_directory: str,
    config_settings: object = None,
    metadata_directory: Optional[str] = None,
) -> str:
    """Makes the extension beside the sources, and writes a wheel that only leads to them."""
    compile_extension(HERE / "src" / NAME)
    return packed(wheel_directory, {f"{NAME}.pth": f"{HERE / 'src'}\n".encode()})


def build_sdist(sdist_directory: str, config_settings: object = None) -> str:
    """There is none: the library is a part of the repository."""
    sys.exit("the binding is built from the repository, by `pip wheel bindings/python`")
