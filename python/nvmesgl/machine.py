"""Both sides over one pool: `Machine`, whose methods are the calls of c/nvmesgl.h."""

from __future__ import annotations

import ctypes
from ctypes import POINTER, Structure, byref, c_bool, c_size_t, c_uint8, c_uint32, c_void_p
from typing import Any, Dict, Iterable, List, NamedTuple, Optional

from ._driver import Driver
from ._library import COMMAND_CALLS, OPTION_WORDS, PAGE_COUNTS, RESERVED, U16, U32, U64, Answer, CPiece, CRequest, Handle, IoVec, PageOwner, all_lent, declare, fits, lent, lent_to_write
from .words import Collected, State, Status, Step, Walk

__all__ = ["Completion", "Counts", "Machine"]


class Completion(NamedTuple):
    """What a reap found. The identifier and the status are there where a command has ended; dw0 is that of queue 0."""

    state: State
    cid: Optional[int]
    status: Optional[Status]
    dw0: Optional[int]


class Counts(NamedTuple):
    """How many pages the pool has and each class of them, and whether nothing was forged."""

    pages: int
    free_pages: int
    queue_pages: int
    chain_pages: int
    data_pages: int
    trusted: bool


class Options(Structure):
    _fields_ = [*OPTION_WORDS, ("blocks", c_uint32), ("reserved", c_uint32 * 10)]


class Pages(Structure):
    _fields_ = [*PAGE_COUNTS, ("trusted", c_bool), RESERVED]


_HANDLE, _ANSWER = POINTER(Handle), POINTER(Answer)
_CALLS: Dict[str, List[Any]] = {
    "open": [_HANDLE, POINTER(Options), c_void_p, c_size_t, _ANSWER],
    "close": [_HANDLE],
    **COMMAND_CALLS,
    "reserve_request": [_HANDLE, U16, POINTER(CRequest), POINTER(CPiece), c_size_t, _ANSWER],
    "walk": [_HANDLE, U16, U16, _ANSWER],
    "complete": [_HANDLE, U16, U16, _ANSWER],
    "forge": [_HANDLE, U16, U16, POINTER(c_uint8), _ANSWER],
    "reset": [_HANDLE, _ANSWER],
    "serve": [_HANDLE, _ANSWER],
    **{name: [_HANDLE, U16, U64, c_void_p, c_size_t, _ANSWER] for name in ("read", "write", "compare")},
    **{name: [_HANDLE, U16, U64, POINTER(IoVec), c_size_t, _ANSWER] for name in ("readv", "writev", "comparev")},
    "counts": [_HANDLE, POINTER(Pages)],
    "owner": [_HANDLE, U32, POINTER(PageOwner)],
    **{name: [_HANDLE, U16, _ANSWER] for name in ("ring", "reap", "fetch", "delete_sq", "delete_cq", "create_cq", "create_sq", "retire")},
}


class Machine(Driver):
    """Both sides over one pool. Used by `with`, or closed by `close`."""

    def __init__(self, *, pages: int = 16, queues: int = 1, entries: int = 4, segment: int = 256, blocks: int = 64, image: Any = b"") -> None:
        """Opens a machine over the bytes of an image, in any buffer, or with none over so many blocks of zeros."""
        super().__init__(declare("nvmesgl_", _CALLS, ("close",)))
        options = Options(ctypes.sizeof(Options), *(fits(n, 32) for n in (pages, queues, entries, segment, blocks)))
        self._call("open", byref(options), *lent(image))

    # The driver

    def ring(self, q: int) -> None:
        """Rings the tail doorbell."""
        self._call("ring", q)

    def reap(self, q: int) -> Completion:
        """Takes one completion."""
        told = self._call("reap", q)
        state = State(told.state)
        if state == State.REAP_DONE:
            return Completion(state, told.cid, self._status(), None)
        if state == State.REAP_ADMIN_DONE:
            return Completion(state, told.cid, self._status(), told.dw0)
        return Completion(state, None, None, None)

    def forge(self, q: int, slot: int, entry: bytes) -> None:
        """Overwrites the 16 bytes of a completion slot, as a bad controller may."""
        if len(entry) != 16:
            raise ValueError("an entry has 16 bytes")
        self._call("forge", q, slot, (c_uint8 * 16)(*entry))

    # The controller

    def fetch(self, q: int) -> Step:
        """Fetches an entry that was rung."""
        return Step(self._call("fetch", q).cid, self._touched())

    def walk(self, q: int, cid: int) -> Walk:
        """Does one unit of a fetched command's list. NOTHING of a command that has its verdict from the fetch: it is completed at once."""
        state = State(self._call("walk", q, cid).state)
        return Walk(state, self._status() if state == State.WALK_FAULT else None, self._touched())

    def complete(self, q: int, cid: int) -> Step:
        """Posts a completion."""
        self._call("complete", q, cid)
        return Step(cid, self._touched())

    def serve(self) -> int:
        """Does all that the controller can do, of every queue, and returns how many commands it completed."""
        ended = 0
        while True:
            told = self._call("serve")
            ended += told.count
            if told.state != State.SERVE_MORE:
                return ended

    def reset(self) -> None:
        """Resets the controller: every command that was submitted has ended, aborted."""
        self._call("reset")

    # Whole commands

    def read(self, q: int, slba: int, buffer: Any) -> Collected:
        """Carries a Read of whole blocks from `slba` on through all its steps, into a writable buffer, and returns its status."""
        self._call("read", q, slba, *lent_to_write(buffer))
        return self._collected()

    def write(self, q: int, slba: int, content: Any) -> Collected:
        """Carries a Write of whole blocks from `slba` on through all its steps, and returns its status."""
        self._call("write", q, slba, *lent(content))
        return self._collected()

    def compare(self, q: int, slba: int, content: Any) -> Collected:
        """Carries a Compare of whole blocks from `slba` on through all its steps, and returns its status."""
        self._call("compare", q, slba, *lent(content))
        return self._collected()

    def readv(self, q: int, slba: int, buffers: Iterable[Any]) -> Collected:
        """As `read`, into several writable buffers, one after the other. Only all of them together are whole blocks."""
        return self._carry("readv", q, slba, buffers, True)

    def writev(self, q: int, slba: int, contents: Iterable[Any]) -> Collected:
        """As `write`, of the bytes of several buffers, one after the other. Only all of them together are whole blocks."""
        return self._carry("writev", q, slba, contents, False)

    def comparev(self, q: int, slba: int, contents: Iterable[Any]) -> Collected:
        """As `compare`, with the bytes of several buffers, one after the other. Only all of them together are whole blocks."""
        return self._carry("comparev", q, slba, contents, False)

    def _carry(self, call: str, q: int, slba: int, buffers: Iterable[Any], writable: bool) -> Collected:
        array, count, _held = all_lent(buffers, writable)
        self._call(call, q, slba, array, count)
        return self._collected()

    # Looks

    def counts(self) -> Counts:
        """How many pages there are, and of each class."""
        pages = Pages()
        self._look("counts", byref(pages))
        return Counts(*(getattr(pages, name) for name in Counts._fields))
