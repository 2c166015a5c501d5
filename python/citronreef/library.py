"""The shared library, and its functions as citronreef.h declares them."""
from __future__ import annotations

import ctypes
import os
from ctypes import c_char_p, c_int64, c_size_t, c_uint8, c_uint32, c_uint64
from pathlib import Path

VERSION = "0.1.0"
MAX_POSITIONS = 4_096
SHEET_SIZE = 192_602
FILE_SIZE = 58_392


class _Quote(ctypes.Structure):
    _fields_ = [("refused", c_uint64), ("number", c_uint64)]


class _Outcome(ctypes.Structure):
    _fields_ = [
        ("refused", c_uint64), ("index", c_uint64), ("positions", c_uint64),
        ("aud", c_int64), ("nzd", c_int64), ("resent", c_uint64),
    ]


class _MarkPrices(ctypes.Structure):
    _fields_ = [
        ("refused", c_uint64), ("index", c_uint64), ("previous", c_uint64), ("final_price", c_uint64),
        ("corrected", c_uint64), ("number", c_uint64), ("change", c_int64),
    ]


class _Found(ctypes.Structure):
    _fields_ = [("found", c_uint64), ("index", c_uint64)]


class _Made(ctypes.Structure):
    _fields_ = [("refused", c_uint64), ("index", c_uint64), ("length", c_uint64)]


Amounts = c_int64 * MAX_POSITIONS
Sheet = c_uint8 * SHEET_SIZE
File = c_uint8 * FILE_SIZE

# Each function with its answer and its arguments. A file or a list of records is a pointer and then a length.
_SIGNATURES = {
    "value": (_Quote, (c_uint8, c_uint8, c_uint32)),
    "tick_value": (_Quote, (c_uint8, c_uint8, c_uint32)),
    "bracket": (_Quote, (c_uint8, c_uint8, c_uint32)),
    "settle": (_Outcome, (c_char_p, c_size_t, Amounts, c_size_t)),
    "mark": (_MarkPrices, (c_char_p, c_size_t, c_size_t)),
    "find": (_Found, (c_char_p, c_size_t, c_uint32)),
    "sheet": (c_size_t, (c_char_p, c_size_t, Amounts, c_size_t, Sheet, c_size_t)),
    "make": (_Made, (*(c_char_p, c_size_t) * 3, File, c_size_t)),
}


_NAME = "libcitronreef.so." + VERSION.split(".", maxsplit=1)[0]


def library_for(package: Path) -> str:
    """The file of the shared library for a package in this folder, or the name by which the loader looks for it.

    An install is known by its folders, and may leave the library to the loader. The repository has its own and no other.
    """
    if package.parts[-4:] == ("lib", "python3", "dist-packages", "citronreef"):
        beside = package.parents[2] / _NAME
        return str(beside) if beside.exists() else _NAME
    if package.parts[-2:] == ("python", "citronreef"):
        return str(package.parents[1] / "target" / "lib" / _NAME)
    return _NAME


def loaded() -> ctypes.CDLL:
    """The library with its functions declared; an ImportError that says what to do where there is none."""
    name = os.environ.get("CITRONREEF_LIBRARY") or library_for(Path(__file__).resolve().parent)
    try:
        library = ctypes.CDLL(name)
    except OSError as error:
        raise ImportError(
            f"{name} cannot be loaded ({error}); name the library in CITRONREEF_LIBRARY, or in the repository run: bash tools/build"
        ) from error
    for function, (answer, arguments) in _SIGNATURES.items():
        try:
            declared = getattr(library, "citronreef_" + function)
        except AttributeError as error:
            raise ImportError(f"{name} has no citronreef_{function}: it is another version's than {VERSION}") from error
        declared.restype, declared.argtypes = answer, arguments
    return library
