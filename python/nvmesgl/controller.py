"""The modelled controller alone, over memory of the caller's: `Controller`, whose methods are the calls of c/nvmectl.h.

    from nvmesgl.controller import Controller, Regions, StepKind

    low, high = bytearray(16 * 4096), bytearray(1 << 20)
    guest = Regions([(0, low), (1 << 32, high)])    # each buffer at an address of its own, and nothing is copied
    with Controller([(0, 1), (2, 3)]) as controller:  # the pages of the admin queue's rings, and of queue 1's
        controller.tail(1, 1)                       # the host rang
        while (step := controller.next(guest)).kind != StepKind.REST:
            controller.do(step, guest)

At an address stands the byte of the first region that has one there; where none has, and from address 2^44 on, it is missing. Memory may also be a list of
such pairs, or one buffer: then address a is its byte a. A call keeps nothing of memory: it may change, and be another one between calls.
"""

from __future__ import annotations

import ctypes
import enum
from ctypes import POINTER, Structure, byref, c_bool, c_size_t, c_uint8, c_uint16, c_uint32, c_uint64, c_void_p
from typing import Any, Dict, Iterable, List, NamedTuple, Optional, Tuple, Union

from ._library import RESERVED, U16, U64, Answer, Handle, declare, fits, lent, lent_to_write
from ._opened import Opened
from .words import State, Status, Step, Walk

__all__ = ["Controller", "Job", "Next", "Regions", "StepKind"]


class StepKind(enum.IntEnum):
    """Which call would be done now; none at rest."""

    REST = 0
    FETCH = 1
    WALK = 2
    COMPLETE = 3


class Next(NamedTuple):
    """A call that would be done now. `cid` is there for a walk and a completion."""

    kind: StepKind
    q: int
    cid: Optional[int]


class Job(NamedTuple):
    """A command that was fetched and not completed: how many units of its list were done, and its verdict, once it has one."""

    units: int
    status: Optional[Status]


class COptions(Structure):
    _fields_ = [("size", c_uint32), ("entries", c_uint32), ("blocks", c_uint32), ("reserved", c_uint32 * 5)]


class CQueue(Structure):
    _fields_ = [("sq", c_uint32), ("cq", c_uint32)]


class CJob(Structure):
    _fields_ = [("units", c_uint32), ("ended", c_bool), ("sct", c_uint8), ("sc", c_uint8), RESERVED]


class CStep(Structure):
    _fields_ = [("kind", c_uint32), ("q", c_uint16), ("cid", c_uint16), RESERVED]


class CRegion(Structure):
    _fields_ = [("addr", c_uint64), ("bytes", c_void_p), ("len", c_size_t)]


class Regions:
    """Memory of a guest: writable buffers, each in one piece and at an address of its own. Nothing is copied: a call reads and writes the buffers, none of
    which can be resized while this lives."""

    def __init__(self, regions: Iterable[Tuple[int, Any]]) -> None:
        self._lent = [(fits(addr, 64), *lent_to_write(buffer)) for addr, buffer in regions]
        self._table = (CRegion * len(self._lent))(*(CRegion(addr, ctypes.addressof(held), count) for addr, held, count in self._lent))

    def __len__(self) -> int:
        """How many regions there are."""
        return len(self._lent)


class _Lent:
    """Memory as the calls take it: which of their two forms they have, and the arguments."""

    def __init__(self, memory: Any) -> None:
        if isinstance(memory, (list, tuple)):
            memory = Regions(memory)
        self.form = "_over" if isinstance(memory, Regions) else ""
        self.arguments: Tuple[Any, int] = (memory._table, len(memory)) if isinstance(memory, Regions) else lent_to_write(memory)
        self._memory = memory


_HANDLE, _ANSWER = POINTER(Handle), POINTER(Answer)
_CALLS: Dict[str, List[Any]] = {
    "open": [_HANDLE, POINTER(COptions), POINTER(CQueue), c_size_t, c_void_p, c_size_t],
    "close": [_HANDLE],
    "reset": [_HANDLE],
    "tail": [_HANDLE, U16, U16],
    "head": [_HANDLE, U16, U16],
    "fetch": [_HANDLE, U16, c_void_p, c_size_t, _ANSWER],
    "walk": [_HANDLE, U16, U16, c_void_p, c_size_t, _ANSWER],
    "complete": [_HANDLE, U16, U16, c_void_p, c_size_t, _ANSWER],
    "next": [_HANDLE, c_void_p, c_size_t, POINTER(CStep)],
    "fetch_over": [_HANDLE, U16, POINTER(CRegion), c_size_t, _ANSWER],
    "walk_over": [_HANDLE, U16, U16, POINTER(CRegion), c_size_t, _ANSWER],
    "complete_over": [_HANDLE, U16, U16, POINTER(CRegion), c_size_t, _ANSWER],
    "next_over": [_HANDLE, POINTER(CRegion), c_size_t, POINTER(CStep)],
    "command": [_HANDLE, U16, U16, POINTER(CJob)],
    "blocks": [_HANDLE, U64, c_void_p, c_size_t],
}


class Controller(Opened):
    """The controller alone. Used by `with`, or closed by `close`."""

    def __init__(self, queues: Iterable[Tuple[int, int]], *, entries: int = 4, blocks: int = 64, image: Any = b"") -> None:
        """Opens a controller over the bytes of an image, in any buffer, or with none over so many blocks of zeros. `queues`: the pages where the
        submission and the completion ring of each queue begin, the admin queue first; each is live with empty rings."""
        super().__init__(declare("nvmectl_", _CALLS, ("close",)))
        options = COptions(ctypes.sizeof(COptions), fits(entries, 32), fits(blocks, 32))
        pages = [CQueue(fits(sq, 32), fits(cq, 32)) for sq, cq in queues]
        self._look("open", byref(options), (CQueue * len(pages))(*pages), len(pages), *lent(image))

    def reset(self) -> None:
        """A Controller Level Reset: no command is left, the I/O queues are gone, and queue 0 stays with empty rings. The image is as it was."""
        self._look("reset")

    # The doorbells

    def tail(self, q: int, value: int) -> None:
        """A value is written to the tail doorbell of submission queue q. BAD_DOORBELL where it is no slot of the ring."""
        self._look("tail", q, value)

    def head(self, q: int, value: int) -> None:
        """A value is written to the head doorbell of completion queue q. BAD_DOORBELL where it is outside the last head to the tail."""
        self._look("head", q, value)

    # Steps over memory: `Regions`, a list of pairs of an address and a writable buffer, or one writable buffer

    def fetch(self, q: int, memory: Any) -> Step:
        """Fetches an entry that was rung. One of queue 0 is decided and carried out here."""
        given = _Lent(memory)
        return Step(self._call("fetch" + given.form, q, *given.arguments).cid, self._touched())

    def walk(self, q: int, cid: int, memory: Any) -> Walk:
        """Does one unit of a fetched command's list. NOTHING of a command that has its verdict from the fetch: it is completed at once."""
        given = _Lent(memory)
        told = self._call("walk" + given.form, q, cid, *given.arguments)
        state = State(told.state)
        return Walk(state, self._status() if state == State.WALK_FAULT else None, self._touched())

    def complete(self, q: int, cid: int, memory: Any) -> Step:
        """Posts a completion; a Write that ends well changes the image here."""
        given = _Lent(memory)
        self._call("complete" + given.form, q, cid, *given.arguments)
        return Step(cid, self._touched())

    def do(self, step: Next, memory: Any) -> Union[Step, Walk, None]:
        """Makes the call that `next` named; nothing at rest."""
        if step.kind == StepKind.FETCH:
            return self.fetch(step.q, memory)
        if step.cid is None:
            return None
        if step.kind == StepKind.WALK:
            return self.walk(step.q, step.cid, memory)
        return self.complete(step.q, step.cid, memory)

    # Looks

    def next(self, memory: Any) -> Next:
        """A call that would be done now, or that the controller is at rest."""
        step = CStep()
        given = _Lent(memory)
        self._look("next" + given.form, *given.arguments, byref(step))
        kind = StepKind(step.kind)
        return Next(kind, step.q, step.cid if kind in (StepKind.WALK, StepKind.COMPLETE) else None)

    def command(self, q: int, cid: int) -> Job:
        """A command that was fetched and not completed."""
        job = CJob()
        self._look("command", q, cid, byref(job))
        return Job(job.units, Status(job.sct, job.sc) if job.ended else None)

    def blocks(self, slba: int, count: int) -> bytes:
        """The bytes of so many blocks of the image from `slba` on."""
        buffer = (c_uint8 * (512 * fits(count, 32)))()
        self._look("blocks", slba, buffer, len(buffer))
        return bytes(buffer)
