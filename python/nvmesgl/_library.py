"""The shared library: where it is found, and what its calls take."""

from __future__ import annotations

import ctypes
import functools
import os
import pathlib
from ctypes import POINTER, LittleEndianStructure, Structure, c_bool, c_char_p, c_size_t, c_uint8, c_uint16, c_uint32, c_uint64, c_void_p
from typing import Any, Dict, Iterable, List, Tuple


@functools.lru_cache(maxsize=None)
def library() -> ctypes.CDLL:
    """The shared library, loaded once: of the variable NVMESGL_LIBRARY, else beside this package, else of the checkout that it stands in, else where
    the system looks."""
    here = pathlib.Path(__file__).resolve().parent
    places = [here / "libnvmesgl.so", here.parent.parent / "c" / "libnvmesgl.so"]
    found = [str(place) for place in places if place.exists()]
    lib = ctypes.CDLL(os.environ.get("NVMESGL_LIBRARY") or (found or ["libnvmesgl.so.0"])[0])
    lib.nvmesgl_text.argtypes = [c_uint32]
    lib.nvmesgl_status_text.argtypes = [c_uint8, c_uint8]
    lib.nvmesgl_text.restype = lib.nvmesgl_status_text.restype = c_char_p
    return lib


def declare(prefix: str, calls: Dict[str, List[Any]], without_code: Tuple[str, ...] = ()) -> Dict[str, Any]:
    """The functions of the library for these calls, with their types; all answer a code but those that are named."""
    functions = {name: getattr(library(), prefix + name) for name in calls}
    for name, types in calls.items():
        functions[name].argtypes = types
        functions[name].restype = None if name in without_code else c_uint32
    return functions


def fits(value: int, bits: int) -> int:
    """The number, if it has so many bits; ctypes would cut it off."""
    if not 0 <= value < 1 << bits:
        raise ctypes.ArgumentError(f"{value} is no number of {bits} bits")
    return value


class U16:
    """A parameter of 16 bits."""

    @classmethod
    def from_param(cls, value: int) -> c_uint16:
        return c_uint16(fits(value, 16))


class U32:
    """A parameter of 32 bits."""

    @classmethod
    def from_param(cls, value: int) -> c_uint32:
        return c_uint32(fits(value, 32))


class U64:
    """A parameter of 64 bits."""

    @classmethod
    def from_param(cls, value: int) -> c_uint64:
        return c_uint64(fits(value, 64))


def lent(content: Any) -> Tuple[Any, int]:
    """The bytes of any buffer, whatever its items are, as an argument and its length: without a copy where the buffer is bytes, or is writable and in one
    piece."""
    if isinstance(content, bytes):
        return content, len(content)
    view = memoryview(content)
    if view.c_contiguous and not view.readonly and view.nbytes > 0:
        return (c_uint8 * view.nbytes).from_buffer(view), view.nbytes
    copied = view.tobytes()
    return copied, len(copied)


def lent_to_write(buffer: Any) -> Tuple[Any, int]:
    """The bytes of a writable buffer in one piece, as an argument and its length."""
    view = memoryview(buffer)
    if view.nbytes == 0:
        return (c_uint8 * 0)(), 0
    if not view.c_contiguous:
        raise BufferError("the buffer is not in one piece")
    return (c_uint8 * view.nbytes).from_buffer(view), view.nbytes


class IoVec(Structure):
    _fields_ = [("base", c_void_p), ("len", c_size_t)]


def _address(argument: Any) -> int:
    """Where the bytes lie that `lent` or `lent_to_write` has made an argument of."""
    if isinstance(argument, bytes):
        return ctypes.cast(c_char_p(argument), c_void_p).value or 0
    return ctypes.addressof(argument)


def all_lent(buffers: Iterable[Any], writable: bool = False) -> Tuple[Any, int, List[Any]]:
    """The bytes of several buffers, in order, as an array of `nvmesgl_iovec` and its length; and what has to live as long as that is used."""
    held = [lent_to_write(buffer) if writable else lent(buffer) for buffer in buffers]
    items = [IoVec(_address(argument), count) for argument, count in held]
    return (IoVec * len(items))(*items), len(items), held


# The words with which a struct ends that a call fills: 0, until a later version gives one a meaning.
RESERVED = ("reserved", c_uint32 * 4)

# The words with which the options of a machine and of a host begin, and the counts of pages with which both answer.
OPTION_WORDS = [(name, c_uint32) for name in ("size", "pages", "queues", "entries", "segment")]
PAGE_COUNTS = [(name, c_uint32) for name in ("pages", "free_pages", "queue_pages", "chain_pages", "data_pages")]


# What a completion hints at.
HINTS = [("retry_delay", c_uint8), ("more", c_bool), ("do_not_retry", c_bool)]


class Handle(Structure):
    _fields_ = [("at", c_void_p), ("mark", c_uint32)]


class CPiece(Structure):
    _fields_ = [("offset", c_uint32), ("len", c_uint32), ("kind", c_uint32)]


class CRequest(Structure):
    _fields_ = [
        ("size", c_uint32),
        ("kind", c_uint32),
        ("nsid", c_uint32),
        ("flags", c_uint32),
        ("slba", c_uint64),
        ("blocks", c_uint32),
        ("block_bytes", c_uint32),
        ("reserved", c_uint32 * 4),
    ]


class CAdmin(Structure):
    _fields_ = [
        ("size", c_uint32),
        ("opcode", c_uint32),
        ("nsid", c_uint32),
        ("page", c_uint32),
        ("bytes", c_uint32),
        ("words", c_uint32 * 6),
        ("reserved", c_uint32),
    ]


class CRange(LittleEndianStructure):
    _fields_ = [("attributes", c_uint32), ("blocks", c_uint32), ("slba", c_uint64)]


class Answer(Structure):
    _fields_ = [
        ("state", c_uint32),
        ("dw0", c_uint32),
        ("need", c_uint32),
        ("free", c_uint32),
        ("data_pages", c_uint32),
        ("chain_pages", c_uint32),
        ("bytes", c_size_t),
        ("touched", c_uint32 * 4),
        ("touched_count", c_uint32),
        ("cid", c_uint16),
        ("sct", c_uint8),
        ("sc", c_uint8),
        ("count", c_uint32),
        *HINTS,
        ("reserved", c_uint8 * 9),
        ("tag", c_uint64),
    ]


class PageOwner(Structure):
    _fields_ = [("kind", c_uint32), ("q", c_uint16), ("cid", c_uint16), RESERVED]


# What the calls of a command take, of a machine and of a host alike.
COMMAND_CALLS: Dict[str, List[Any]] = {
    "fill": [POINTER(Handle), U16, U16, c_void_p, c_size_t, POINTER(Answer)],
    "gather": [POINTER(Handle), U16, U16, c_void_p, c_size_t, POINTER(Answer)],
    **{name: [POINTER(Handle), U16, U16, POINTER(Answer)] for name in ("build", "submit", "cancel", "collect", "release", "abort")},
}
