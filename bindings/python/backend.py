"""Builds the wheel of the package cbor_diag: the hooks that pip calls (PEP 517), with no other package needed.

The wheel holds the shared library: the one that the environment variable CBOR_DIAG_LIBRARY names, else that of this
repository's dist/lib, which `make library` builds. It is for the machine that the library was built for.
"""
import base64
import hashlib
import os
import pathlib
import time
import zipfile

HERE = pathlib.Path(__file__).resolve().parent
TOP = HERE.parent.parent
NAME = "semphluk"
VERSION = TOP.joinpath("VERSION").read_text(encoding="utf-8").strip()
LIBRARY, WINDOWS_LIBRARY = "libcbor_diag.so.0", "cbor_diag.dll"
# By the number of the machine in the head of an ELF file: the tag of its wheels, with the oldest GNU C library that has
# all that the shared library calls.
TAGS = {62: "py3-none-manylinux_2_34_x86_64", 183: "py3-none-manylinux_2_17_aarch64"}
WINDOWS_TAG = "py3-none-win_amd64"
INFO = f"{NAME}-{VERSION}.dist-info"

METADATA = f"""\
Metadata-Version: 2.1
Name: {NAME}
Version: {VERSION}
Summary: CBOR data items in bytes, in hex with comments and in diagnostic notation
License: MIT OR Apache-2.0
Keywords: cbor,diagnostic notation,hex dump,RFC 8949
Classifier: Development Status :: 4 - Beta
Classifier: Intended Audience :: Developers
Classifier: Operating System :: POSIX :: Linux
Classifier: Operating System :: Microsoft :: Windows
Classifier: Programming Language :: Python :: 3
Classifier: Programming Language :: Python :: Implementation :: CPython
Classifier: Topic :: Utilities
Classifier: Typing :: Typed
Requires-Python: >=3.9
Description-Content-Type: text/markdown

"""

WHEEL = f"""\
Wheel-Version: 1.0
Generator: {NAME} ({VERSION})
Root-Is-Purelib: false
Tag: """


def shared_library():
    """The bytes of the library that goes into the wheel."""
    named = os.environ.get("CBOR_DIAG_LIBRARY")
    path = pathlib.Path(named) if named else TOP / "dist" / "lib" / LIBRARY
    if not path.exists():
        raise SystemExit(f"{path} is not there: run make library, or set CBOR_DIAG_LIBRARY to the path of {LIBRARY}")
    return path.read_bytes()


def tag_of(library):
    """The tag of the wheel with this library."""
    machine = int.from_bytes(library[18:20], "little")
    if is_for_windows(library):
        return WINDOWS_TAG
    if library[:4] != b"\x7fELF" or machine not in TAGS:
        raise SystemExit(f"{LIBRARY} is no library for x86-64 or ARM64 on Linux, nor for x86-64 on Windows")
    return TAGS[machine]


def is_for_windows(library):
    """Whether this is a DLL for x86-64."""
    head = int.from_bytes(library[60:64], "little")
    return library[:2] == b"MZ" and library[head:head + 6] == b"PE\0\0\x64\x86"


def name_of(library):
    """The name of the library in the wheel."""
    return WINDOWS_LIBRARY if is_for_windows(library) else LIBRARY


def metadata():
    return METADATA.encode() + HERE.joinpath("README.md").read_bytes()


def written_date():
    """When the files of the wheel were written: SOURCE_DATE_EPOCH, for wheels that are the same byte for byte."""
    seconds = int(os.environ.get("SOURCE_DATE_EPOCH", time.time()))
    return max(time.gmtime(seconds)[:6], (1980, 1, 1, 0, 0, 0))


def files():
    """Each file of the wheel but the record of them, by its name there."""
    package, library = HERE / "cbor_diag", shared_library()
    found = {f"cbor_diag/{name}": (package / name).read_bytes() for name in ("__init__.py", "py.typed")}
    found[f"cbor_diag/{name_of(library)}"] = library
    found[f"{INFO}/LICENSE"] = TOP.joinpath("LICENSE").read_bytes()
    found[f"{INFO}/METADATA"] = metadata()
    found[f"{INFO}/WHEEL"] = f"{WHEEL}{tag_of(library)}\n".encode()
    return found


def hash_of(content):
    return base64.urlsafe_b64encode(hashlib.sha256(content).digest()).rstrip(b"=").decode()


def build_wheel(wheel_directory, config_settings=None, metadata_directory=None):
    content = files()
    record = "".join(f"{name},sha256={hash_of(data)},{len(data)}\n" for name, data in content.items())
    content[f"{INFO}/RECORD"] = f"{record}{INFO}/RECORD,,\n".encode()
    wheel = f"{NAME}-{VERSION}-{tag_of(shared_library())}.whl"
    with zipfile.ZipFile(os.path.join(wheel_directory, wheel), "w") as archive:
        for name, data in content.items():
            entry = zipfile.ZipInfo(name, written_date())
            entry.external_attr = 0o644 << 16
            archive.writestr(entry, data, zipfile.ZIP_DEFLATED)
    return wheel


class UnsupportedOperation(Exception):
    """There is no source distribution: the library is built from the whole repository."""


def build_sdist(sdist_directory, config_settings=None):
    raise UnsupportedOperation(UnsupportedOperation.__doc__)
