"""The shared library `libuds_unit.so`, by ctypes: where it is found, and the types of its calls (include/uds_unit.h)."""
import ctypes
import functools
import os
from collections.abc import Iterator
from ctypes import POINTER, Structure, c_bool, c_char_p, c_size_t, c_uint8, c_uint16, c_uint32, c_uint64, c_void_p
from pathlib import Path

NAME = "libuds_unit.so"
DONE, SETUP, MEMORY = 0, 2, 4
CLOSED, NONE, NO_FRAME, UNKNOWN, LENGTH, ROOM = range(16, 22)


class Handle(Structure):
    """A unit; closed as it is made."""

    _fields_ = [("is_open", c_bool), ("at", c_void_p)]


class Reply(Structure):
    """A frame that is due."""

    _fields_ = [
        ("at_us", c_uint64),
        ("id", c_uint32),
        ("tester", c_uint8),
        ("len", c_uint8),
        ("fd", c_uint8),
        ("bytes", c_uint8 * 64),
    ]


class State(Structure):
    """The session, and the place of the tester in it."""

    _fields_ = [("session", c_uint8), ("holder", c_uint8)]


class Code(Structure):
    """A DTC with its status."""

    _fields_ = [("code", c_uint32), ("status", c_uint8)]


_UNIT = POINTER(Handle)
_LEN = POINTER(c_size_t)
# the arguments of each call; each answers a status
_CALLS = {
    "open": [_UNIT, c_char_p, c_size_t, c_char_p, c_size_t],
    "open_with_journal": [_UNIT, c_char_p, c_size_t, c_char_p, c_size_t],
    "frame": [_UNIT, c_uint64, c_uint32, c_char_p, c_size_t],
    "pass": [_UNIT, c_uint64],
    "next": [_UNIT, POINTER(Reply)],
    "due": [_UNIT, POINTER(c_uint64)],
    "state": [_UNIT, POINTER(State)],
    "code": [_UNIT, c_size_t, POINTER(Code)],
    "identifier": [_UNIT, c_size_t, POINTER(c_uint16)],
    "value": [_UNIT, c_uint16, c_char_p, c_size_t, _LEN],
    "set_value": [_UNIT, c_uint16, c_char_p, c_size_t],
    "set_code": [_UNIT, c_uint32, c_uint8],
    "journal": [_UNIT, c_char_p, c_size_t, _LEN],
    "close": [_UNIT],
}


def places() -> Iterator[str]:
    """Where the library may be, the first that is there counts: where UDS_UNIT_LIBRARY says, beside this file, where the
    repository builds it, in the repository's release/, and where the system looks."""
    if told := os.environ.get("UDS_UNIT_LIBRARY"):
        yield told
        return
    here = Path(__file__).resolve().parent
    top = here.parent.parent
    for path in (here / NAME, top / "crates/uds_unit/out" / NAME, top / "release" / NAME):
        if path.exists():
            yield str(path)
    yield "libuds_unit.so.2"


@functools.cache
def load() -> ctypes.CDLL:
    """The library, with the types of its calls. OSError where it isn't found."""
    library = ctypes.CDLL(next(places()))
    for name, arguments in _CALLS.items():
        call = getattr(library, f"uds_unit_{name}")
        call.argtypes, call.restype = arguments, c_uint32
    return library
