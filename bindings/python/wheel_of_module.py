"""Makes the wheel of the package laspidru, for pip. It needs Python alone, so `pip install` works without a network.

Where there is a C compiler (`cc`, or $CC) and Python.h, the wheel has the extension laspidru/_fast.c too. Run as a program, it
compiles that in its place.

`build_wheel(folder, {"library": path})` makes a wheel with that shared library in it, for any Linux whose C library is new enough:
so `make packages` does. Then the extension has to be there, and SOURCE_DATE_EPOCH is the time of all files. With "platform" too it
is for that one, as `win_amd64` or `linux_aarch64`, and has no extension."""
import base64
import hashlib
import json
import os
import re
import shlex
import subprocess
import sys
import sysconfig
import tempfile
import time
import zipfile

FOLDER = os.path.dirname(os.path.abspath(__file__))
TOP = os.path.join(FOLDER, "..", "..")
with open(os.path.join(FOLDER, "pyproject.toml"), encoding="utf-8") as _file:
    _PROJECT = _file.read()
VERSION = re.search(r'^version = "(.*)"$', _PROJECT, re.MULTILINE).group(1)
KEYWORDS = json.loads(re.search(r"^keywords = (.*)$", _PROJECT, re.MULTILINE).group(1))
INFO = f"laspidru-{VERSION}.dist-info"
EXTENSION = "laspidru/_fast.abi3.so"
LIBRARIES = {"win": "laspidru.dll", "macosx": "liblaspidru.dylib", "linux": "liblaspidru.so.0"}
LICENCES = ["LICENSE-MIT", "LICENSE-APACHE"]
METADATA = f"""Metadata-Version: 2.1
Name: laspidru
Version: {VERSION}
Summary: Texts that are kept as LSP 3.17 says, by a library that is proved
Author: The Laspidru authors
License: MIT OR Apache-2.0
{"".join(f"License-File: {name}" + chr(10) for name in LICENCES)}Keywords: {",".join(KEYWORDS)}
Requires-Python: >=3.8
"""
OLDEST_ZIP_TIME = 315532800  # 1980-01-01
PERMISSIONS = 0o100644 << 16


def compile_extension(path):
    """Compiles the extension, and says why that can't be done, if it can't."""
    headers = [sysconfig.get_path("include"), os.path.join(TOP, "crates", "laspidru", "include")]
    command = [*shlex.split(os.environ.get("CC", "cc")), "-O2", "-fPIC", "-shared", *(f"-I{it}" for it in headers), "-o", path,
               os.path.join(FOLDER, "laspidru", "_fast.c")]
    try:
        run = subprocess.run(command, stdout=subprocess.PIPE, stderr=subprocess.STDOUT)
    except OSError as error:
        return str(error)
    return run.stdout.decode(errors="replace") if run.returncode else None


def _read(*path):
    with open(os.path.join(*path), "rb") as file:
        return file.read()


def _extension():
    """The bytes of the extension, or why it can't be compiled."""
    with tempfile.TemporaryDirectory() as folder:
        path = os.path.join(folder, "fast")
        problem = compile_extension(path)
        return (b"", problem) if problem is not None else (_read(path), None)


def glibc_needed(*files):
    """The version of glibc that these shared objects need: the greatest of the versions of symbols that they name."""
    names = re.findall(rb"\0GLIBC_(\d+)\.(\d+)", b"".join(files))
    return max((int(major), int(minor)) for major, minor in names)


def _tag(extension, library, platform):
    """Which Pythons and platforms a wheel is for. manylinux2014 is the name that also an old pip knows for glibc 2.17."""
    if platform:
        major, minor = max(glibc_needed(library), (2, 17)) if platform.startswith("linux") else (0, 0)
        return "py3-none-" + platform.replace("linux", f"manylinux_{major}_{minor}")
    if library:
        major, minor = glibc_needed(extension, library)
        return "cp38-abi3-" + ("manylinux2014_x86_64" if (major, minor) <= (2, 17) else f"manylinux_{major}_{minor}_x86_64")
    platform = sysconfig.get_platform().replace("-", "_").replace(".", "_")
    return f"cp38-abi3-{platform}" if extension else "py3-none-any"


def _metadata(readme):
    return METADATA.encode() + (b"Description-Content-Type: text/markdown\n\n" + _read(readme) if readme else b"")


def _files(tag, extension, library, name_of_library, readme):
    for name in sorted(os.listdir(os.path.join(FOLDER, "laspidru"))):
        if name.endswith(".py") or name == "py.typed":
            yield f"laspidru/{name}", _read(FOLDER, "laspidru", name)
    if extension:
        yield EXTENSION, extension
    if library:
        yield f"laspidru/{name_of_library}", library
    yield f"{INFO}/METADATA", _metadata(readme)
    for name in LICENCES:
        if os.path.exists(os.path.join(TOP, name)):
            yield f"{INFO}/licenses/{name}", _read(TOP, name)
    is_pure = "false" if extension or library else "true"
    yield f"{INFO}/WHEEL", f"Wheel-Version: 1.0\nGenerator: wheel_of_module\nRoot-Is-Purelib: {is_pure}\nTag: {tag}\n".encode()


def _write(path, files):
    """Writes a wheel of these files, with the record of their sums."""
    seconds = max(int(os.environ.get("SOURCE_DATE_EPOCH", OLDEST_ZIP_TIME)), OLDEST_ZIP_TIME)
    record = ""
    with zipfile.ZipFile(path, "w") as wheel:
        def put(name, data):
            entry = zipfile.ZipInfo(name, time.gmtime(seconds)[:6])
            entry.external_attr = PERMISSIONS
            wheel.writestr(entry, data, zipfile.ZIP_DEFLATED)
        for name, data in files:
            put(name, data)
            digest = base64.urlsafe_b64encode(hashlib.sha256(data).digest()).rstrip(b"=").decode()
            record += f"{name},sha256={digest},{len(data)}\n"
        put(f"{INFO}/RECORD", record + f"{INFO}/RECORD,,\n")


def build_wheel(wheel_directory, config_settings=None, metadata_directory=None):
    settings = config_settings or {}
    library = _read(settings["library"]) if "library" in settings else b""
    platform = settings.get("platform", "")
    extension, problem = (b"", None) if platform else _extension()
    if library and problem is not None:
        raise RuntimeError(f"the extension can't be compiled: {problem}")
    tag = _tag(extension, library, platform)
    name = f"laspidru-{VERSION}-{tag}.whl"
    _write(os.path.join(wheel_directory, name), _files(tag, extension, library, LIBRARIES[(platform or "linux").partition("_")[0]], settings.get("readme")))
    return name


if __name__ == "__main__":
    sys.exit(compile_extension(os.path.join(FOLDER, *EXTENSION.split("/"))))
