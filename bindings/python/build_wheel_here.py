# SPDX-License-Identifier: Apache-2.0
"""Makes the wheel and the source archive, with Python's own library alone.

A wheel has the package's files, the shared library and what names them; `library` says which library that is. The
source archive has no library, so a library has to be there if a wheel is built from the archive.
"""
import ast
import base64
import ctypes
import functools
import gzip
import hashlib
import io
import os
import re
import struct
import subprocess
import sys
import sysconfig
import tarfile
import zipfile
from pathlib import Path

HERE = Path(__file__).resolve().parent
FILES = ("__init__.py", "__init__.pyi", "_item.py", "_parser.py", "py.typed")
SOURCES = ("README.md", "pyproject.toml", "build_wheel_here.py", *(f"ciborium_ll/{name}" for name in FILES),
           "tests/test_item.py", "tests/test_package.py", "tests/test_parser.py", "tests/test_rows.py")
NAME = "libciborium_ll.so"

# The numbers of kinds of sections, and of the kind of an entry of the dynamic section, in the format ELF.
DYNAMIC, VERSIONS_NEEDED, NEEDED = 6, 0x6FFFFFFE, 1

# Older tags have these names, by the version of glibc.
OLD_TAGS = {(2, 5): "manylinux1", (2, 12): "manylinux2010", (2, 17): "manylinux2014"}


@functools.lru_cache(maxsize=None)
def project():
    """Returns the strings and the lists of strings of pyproject.toml, by table and key.

    Both are spelled as in Python, so a Python that has no module for TOML reads them. A table in braces has one key.
    """
    found, table = {}, None
    text = (HERE / "pyproject.toml").read_text("utf-8")
    lines = r'^\[([\w.-]+)\]$|^([\w-]+) = (?:\{ (\w+) = )?("[^"\n]*"|\[[^]]*\])(?: \})?$'
    for match in re.finditer(lines, text, re.MULTILINE):
        if match[1]:
            table = found.setdefault(match[1], {})
        else:
            value = ast.literal_eval(match[4])
            table[match[2]] = {match[3]: value} if match[3] else value
    return found


def version():
    return project()["project"]["version"]


def installed():
    """Returns the library that pkg-config finds with the calls of this version, if there is one."""
    major, minor, _ = version().split(".")
    name = f"ciborium_ll-{major}.{minor}" if major == "0" else f"ciborium_ll-{major}"
    try:
        said = subprocess.run(["pkg-config", "--variable=libdir", name], stdout=subprocess.PIPE,
                              stderr=subprocess.DEVNULL, universal_newlines=True, check=True)
    except (OSError, subprocess.CalledProcessError):
        return None
    return Path(said.stdout.strip(), NAME)


@functools.lru_cache(maxsize=None)
def library():
    """Returns the shared library: of CIBORIUM_LL_LIBRARY, of a release archive, of `make`, or an installed one."""
    named = os.environ.get("CIBORIUM_LL_LIBRARY")
    near = (HERE.parent / "lib" / NAME, HERE.parent / "out" / NAME)
    found = Path(named) if named else next((at for at in near if at.exists()), None) or installed()
    if found is None or not found.exists():
        what = f"no file {found}, seen from {Path.cwd()}" if named else f"no {NAME}"
        sys.exit(f"ciborium_ll: there is {what}. The variable CIBORIUM_LL_LIBRARY names the file of the library, by "
                 "its whole path. `make -C bindings` of the repository makes it, which takes a proof, and "
                 "`make -C bindings install` installs it for all")
    number = ctypes.CDLL(str(found.resolve())).cll_version()
    has = f"{number >> 16}.{number >> 8 & 255}.{number & 255}"
    if has != version():
        sys.exit(f"ciborium_ll: {found} has the version {has}, and this package {version()}")
    return found.resolve()


def licence():
    """Returns the licence of a source archive, of a release archive or of the repository."""
    return next(at for at in (folder / "LICENSE" for folder in (HERE, *HERE.parents)) if at.exists())


def metadata():
    """Returns the metadata that an index reads, in the version that all of its tools know."""
    of = project()["project"]
    lines = ["Metadata-Version: 2.1", f"Name: {of['name']}", f"Version: {version()}", f"Summary: {of['description']}",
             f"Keywords: {','.join(of['keywords'])}", f"License: {of['license']['text']}",
             *(f"Classifier: {name}" for name in of["classifiers"]), f"Requires-Python: {of['requires-python']}",
             *(f"Project-URL: {name}, {at}" for name, at in project()["project.urls"].items()),
             "Description-Content-Type: text/markdown"]
    return ("\n".join(lines) + "\n\n").encode() + (HERE / of["readme"]).read_bytes()


def needed(data):
    """Returns the names of the libraries that a shared library needs, and the versions of their symbols."""
    at, = struct.unpack_from("<Q", data, 0x28)
    size, count = struct.unpack_from("<HH", data, 0x3A)
    sections = [struct.unpack_from("<IIQQQQII", data, at + size * index) for index in range(count)]

    def text(section, offset):
        start = sections[section[6]][4] + offset
        return data[start:data.index(b"\0", start)].decode()

    libraries, versions = set(), set()
    for section in sections:
        kind, start, length = section[1], section[4], section[5]
        if kind == DYNAMIC:
            for tag, value in struct.iter_unpack("<QQ", data[start:start + length]):
                if tag == NEEDED:
                    libraries.add(text(section, value))
        step = kind == VERSIONS_NEEDED
        while step:
            _, count, _, first, step = struct.unpack_from("<HHIII", data, start)
            there, start = start + first, start + step
            for _ in range(count):
                _, _, _, name, more = struct.unpack_from("<IHHII", data, there)
                versions.add(text(section, name))
                there += more
    return libraries, versions


def tags():
    """Returns the systems that the library runs on: those whose glibc has its symbols, if it needs nothing more."""
    libraries, versions = needed(library().read_bytes())
    of_glibc = [re.fullmatch(r"GLIBC_(\d+)\.(\d+)[.\d]*", name) for name in versions]
    plain = re.sub(r"[-.]", "_", sysconfig.get_platform())
    if not libraries <= {"libc.so.6"} or not all(of_glibc) or plain != "linux_x86_64":
        return [f"py3-none-{plain}"]
    least = max(((int(match[1]), int(match[2])) for match in of_glibc), default=(2, 5))
    least = min((known for known in OLD_TAGS if known >= least), default=least)
    names = ["manylinux_{}_{}".format(*least), *filter(None, [OLD_TAGS.get(least)])]
    return [f"py3-none-{name}_x86_64" for name in names]


def write_wheel(folder, files):
    """Writes a wheel with these files, by their names in it, and returns its name."""
    info = f"ciborium_ll-{version()}.dist-info"
    made = "".join(f"Tag: {tag}\n" for tag in tags())
    files = {**files, f"{info}/METADATA": metadata(), f"{info}/LICENSE": licence().read_bytes(),
             f"{info}/WHEEL": f"Wheel-Version: 1.0\nGenerator: ciborium_ll\nRoot-Is-Purelib: false\n{made}".encode()}
    record = ""
    for path, data in files.items():
        sum_of = base64.urlsafe_b64encode(hashlib.sha256(data).digest()).rstrip(b"=").decode()
        record += f"{path},sha256={sum_of},{len(data)}\n"
    files[f"{info}/RECORD"] = f"{record}{info}/RECORD,,\n".encode()
    name = f"ciborium_ll-{version()}-py3-none-{'.'.join(tag.split('-')[2] for tag in tags())}.whl"
    with zipfile.ZipFile(Path(folder, name), "w") as wheel:
        for path, data in files.items():
            # All files get one time, so that the same files make the same wheel.
            entry = zipfile.ZipInfo(path)
            entry.external_attr = (0o100755 if path.endswith(".so") else 0o100644) << 16
            wheel.writestr(entry, data, zipfile.ZIP_DEFLATED)
    return name


def build_wheel(wheel_directory, config_settings=None, metadata_directory=None):
    files = {f"ciborium_ll/{name}": (HERE / "ciborium_ll" / name).read_bytes() for name in FILES}
    return write_wheel(wheel_directory, {**files, f"ciborium_ll/{NAME}": library().read_bytes()})


def build_editable(wheel_directory, config_settings=None, metadata_directory=None):
    """Writes a wheel that leads to the package in this folder, and to the library."""
    return write_wheel(wheel_directory, {
        "ciborium_ll.pth": f"{HERE}\n".encode(),
        "_ciborium_ll_library.py": f"# The library of the package in {HERE}.\nLIBRARY = {str(library())!r}\n".encode()})


def build_sdist(sdist_directory, config_settings=None):
    folder = f"ciborium_ll-{version()}"
    rows = next((at for at in (HERE / "tests" / "rows", HERE.parent / "tests" / "rows") if at.exists()), None)
    files = {name: (HERE / name).read_bytes() for name in SOURCES if (HERE / name).exists()}
    files.update({"LICENSE": licence().read_bytes(), "PKG-INFO": metadata()})
    if rows is not None:
        files["tests/rows"] = rows.read_bytes()
    with open(Path(sdist_directory, f"{folder}.tar.gz"), "wb") as file, \
            gzip.GzipFile("", "wb", fileobj=file, mtime=0) as packed, \
            tarfile.open(fileobj=packed, mode="w", format=tarfile.PAX_FORMAT) as archive:
        for name, data in sorted(files.items()):
            entry = tarfile.TarInfo(f"{folder}/{name}")
            entry.size = len(data)
            archive.addfile(entry, io.BytesIO(data))
    return f"{folder}.tar.gz"
