"""The driver alone, over a pool of 4,096-byte pages that any device may read and write: `Host`, whose methods are the calls of c/nvmehost.h.

    from nvmesgl import Kind, Piece
    from nvmesgl.host import Host

    with Host(pages=64, entries=16) as host:
        cid = host.reserve(1, Kind.READ, 0, 1, [Piece(0, 512)]).cid
        host.build(1, cid)
        host.submit(1, cid)
        bell = host.ring(1)          # write bell.value to the device's register at bell.offset
        page = host.read(0, 4096)    # as the device reads its memory

A pool that a device reaches by itself stands in memory of the caller's, as an anonymous `mmap`, which begins at a multiple of 4,096:

    memory = mmap.mmap(-1, 64 * PAGE_BYTES)
    with Host(memory=memory, entries=16) as host:
        ...                          # page p is memory[4096 * p : 4096 * p + 4096]

Rule 6 of docs/C.md says who may read and write there, and when.
"""

from __future__ import annotations

import ctypes
import enum
from ctypes import POINTER, Structure, byref, c_bool, c_size_t, c_uint8, c_uint16, c_uint32, c_uint64, c_void_p
from typing import Any, Dict, Iterable, List, NamedTuple, Optional

from ._driver import Driver, lent_pieces, request_of
from ._library import COMMAND_CALLS, HINTS, OPTION_WORDS, PAGE_COUNTS, RESERVED, U16, U32, U64, Answer, CAdmin, CPiece, CRequest, Handle, IoVec, PageOwner, all_lent, declare, fits, lent
from .words import Code, Collected, Hints, Kind, PageUse, Piece, Refused, Reserved, State, Status

__all__ = ["Collected", "Counts", "Doorbell", "Ended", "Host", "PAGE_BYTES", "PageUse", "Place", "Polled", "Queue", "QueueState", "Reaped", "Right", "Rings", "Run"]

PAGE_BYTES = 4096


class QueueState(enum.IntEnum):
    """What the host knows of a queue."""

    LIVE = 0
    DELETING = 1
    DELETED = 2
    RETIRED = 3
    GONE = 4
    MAKING_CQ = 5
    HALF_MADE = 6
    MAKING_SQ = 7


class Right(enum.IntEnum):
    """What a device may do with a page now."""

    NOTHING = 0
    READ = 1
    WRITE = 2


class Doorbell(NamedTuple):
    """A value to write to a doorbell register of the device. The offset is from the device's first register on, where doorbells lie 4
    bytes apart (CAP.DSTRD is 0)."""

    offset: int
    value: int


class Reaped(NamedTuple):
    """What a reap found. The identifier and the status are there where a command has ended; dw0 is that of queue 0. The doorbell is that
    of the completion queue's head, where a completion was taken. `tag` is that of a command of an I/O queue, and else 0."""

    state: State
    cid: Optional[int]
    status: Optional[Status]
    dw0: Optional[int]
    doorbell: Optional[Doorbell]
    tag: int


class Ended(NamedTuple):
    """A completion that a poll took. The identifier and the status are there where a command has ended; dw0 is that of queue 0. `tag` is that of a command of an I/O
    queue, and else 0; `code` is that of its collection: DONE, or why it has ended and is not collected; `hints` are told where it is collected."""

    state: State
    cid: Optional[int]
    status: Optional[Status]
    dw0: Optional[int]
    tag: int
    code: Code
    hints: Hints = Hints()


class Polled(NamedTuple):
    """What a poll took, the doorbell of the completion queue's head where it took something, and whether it left no completion there."""

    ended: List[Ended]
    doorbell: Optional[Doorbell]
    empty: bool


class Queue(NamedTuple):
    """Where the host stands in the rings of a queue, in slots: its submission tail, the controller's submission head as a completion told it last,
    its completion head, and the phase tag of a new completion there. The pages of its two rings; none of a half that the queue has not."""

    state: QueueState
    submission_tail: int
    submission_head: int
    completion_head: int
    phase: bool
    submission: range
    completion: range


class Run(NamedTuple):
    """Consecutive pages with one right."""

    pages: range
    right: Right


class Place(NamedTuple):
    """Where the bytes of a data piece lie: at address 4,096 * page + offset."""

    page: int
    offset: int
    len: int


class Rings(NamedTuple):
    """The addresses where the two rings of a queue begin, as the device is told them: for AQA, ASQ and ACQ of queue 0, and as Create I/O CQ
    and SQ carry them. None of a half that the queue has not."""

    submission: Optional[int]
    completion: Optional[int]


class Counts(NamedTuple):
    """How many pages the pool has and each class of them."""

    pages: int
    free_pages: int
    queue_pages: int
    chain_pages: int
    data_pages: int


class CMemory(Structure):
    _fields_ = [("at", c_void_p), ("pages", c_uint32), ("used", c_uint32), ("next", c_void_p)]


class COptions(Structure):
    _fields_ = [*OPTION_WORDS, ("reserved", c_uint32 * 3)]


class CDoorbell(Structure):
    _fields_ = [("offset", c_uint32), ("value", c_uint32), ("rings", c_bool), RESERVED]


class CEnded(Structure):
    _fields_ = [
        ("tag", c_uint64),
        ("state", c_uint32),
        ("code", c_uint32),
        ("dw0", c_uint32),
        ("cid", c_uint16),
        ("sct", c_uint8),
        ("sc", c_uint8),
        *HINTS,
        ("reserved", c_uint8 * 13),
    ]


class CQueue(Structure):
    _fields_ = [
        ("state", c_uint32),
        ("submission_tail", c_uint16),
        ("submission_head", c_uint16),
        ("completion_head", c_uint16),
        ("phase", c_bool),
        ("submission_page", c_uint32),
        ("completion_page", c_uint32),
        ("submission_pages", c_size_t),
        ("completion_pages", c_size_t),
        RESERVED,
    ]


class CRun(Structure):
    _fields_ = [("first", c_uint32), ("right", c_uint32), ("count", c_size_t), RESERVED]


class CPlace(Structure):
    _fields_ = [("page", c_uint32), ("offset", c_uint32), ("len", c_uint32), RESERVED]


class CPages(Structure):
    _fields_ = [*PAGE_COUNTS, RESERVED]


_HANDLE, _ANSWER, _BELL = POINTER(Handle), POINTER(Answer), POINTER(CDoorbell)
_CALLS: Dict[str, List[Any]] = {
    "open": [_HANDLE, POINTER(COptions), _ANSWER],
    "open_at": [_HANDLE, POINTER(COptions), POINTER(CMemory), _ANSWER],
    "close": [_HANDLE],
    "close_at": [_HANDLE, POINTER(CMemory)],
    **COMMAND_CALLS,
    "ring": [_HANDLE, U16, _BELL, _ANSWER],
    "reap": [_HANDLE, U16, _BELL, _ANSWER],
    "poll": [_HANDLE, U16, POINTER(CEnded), c_size_t, POINTER(c_size_t), _BELL, _ANSWER],
    "reserve_request": [_HANDLE, U16, POINTER(CRequest), POINTER(CPiece), c_size_t, U64, _ANSWER],
    "reserve_admin": [_HANDLE, POINTER(CAdmin), U64, _ANSWER],
    "submit_iov": [_HANDLE, U16, U32, U64, POINTER(IoVec), c_size_t, U64, _ANSWER],
    "gather_iov": [_HANDLE, U16, U16, POINTER(IoVec), c_size_t, _ANSWER],
    "reset": [_HANDLE, _ANSWER],
    "read": [_HANDLE, U64, POINTER(c_uint8), c_size_t],
    "write": [_HANDLE, U64, c_void_p, c_size_t],
    "counts": [_HANDLE, POINTER(CPages)],
    "owner": [_HANDLE, U32, POINTER(PageOwner)],
    "look": [_HANDLE, U16, POINTER(CQueue)],
    "may": [_HANDLE, U32, POINTER(c_uint32)],
    "runs": [_HANDLE, U16, U16, POINTER(CRun), c_size_t, POINTER(c_size_t)],
    "data_place": [_HANDLE, U16, U16, U32, POINTER(CPlace)],
    **{name: [_HANDLE, U16, _ANSWER] for name in ("delete_sq", "delete_cq", "create_cq", "create_sq", "retire")},
    "create_cq_vector": [_HANDLE, U16, U16, _ANSWER],
}


def _ended(entry: CEnded) -> Ended:
    """What stands in an entry of a poll."""
    state, code = State(entry.state), Code(entry.code)
    if state not in (State.REAP_DONE, State.REAP_ADMIN_DONE):
        return Ended(state, None, None, None, 0, code)
    status = Status(entry.sct, entry.sc)
    hints = Hints(entry.retry_delay, entry.more, entry.do_not_retry)
    return Ended(state, entry.cid, status, entry.dw0 if state == State.REAP_ADMIN_DONE else None, entry.tag, code, hints)


def _lend(memory: Any) -> "ctypes.Array[c_uint8]":
    """The bytes of a writable buffer in which a pool can stand."""
    lent = (c_uint8 * memoryview(memory).nbytes).from_buffer(memory)
    if len(lent) % PAGE_BYTES != 0 or ctypes.addressof(lent) % PAGE_BYTES != 0:
        raise ValueError("the memory is not whole pages of 4,096 bytes, or does not begin at a multiple of 4,096: mmap.mmap(-1, 4096 * pages) does")
    return lent


class Host(Driver):
    """The host alone, with its pool. Used by `with`, or closed by `close`."""

    def __init__(
        self, *, pages: Optional[int] = None, queues: int = 1, entries: int = 4, segment: int = 256, memory: Optional[Any] = None
    ) -> None:
        """Opens a host: `pages` pages (8 to 65,536; 16 where nothing says how many), all zero; `queues` I/O queues (1 to 64) beside the admin queue 0;
        `entries` entries of each ring (2 to 1,024); segments of `segment` descriptors at most (2 to 256).

        `memory`: a writable buffer of 4,096 bytes for each page, which begins at a multiple of 4,096, as an anonymous `mmap.mmap` does. Page p of the
        pool stands at its byte 4,096 p until the host is closed, and the buffer cannot be closed nor resized before. BAD_OPTION where `pages` says
        another number. One such opening at a time in a program.

        Every queue is live with empty rings. Where the I/O queues are to be made at the device (Create I/O CQ and SQ), call `reset` next."""
        super().__init__(declare("nvmehost_", _CALLS, ("close", "close_at")))
        self._memory: Optional[CMemory] = None
        self._lent: "Optional[ctypes.Array[c_uint8]]" = None
        self._bell = CDoorbell()
        lent_memory = None if memory is None else _lend(memory)
        if pages is None:
            pages = 16 if lent_memory is None else len(lent_memory) // PAGE_BYTES
        options = COptions(ctypes.sizeof(COptions), *(fits(n, 32) for n in (pages, queues, entries, segment)))
        if lent_memory is None:
            self._call("open", byref(options))
        else:
            at = CMemory(ctypes.addressof(lent_memory), len(lent_memory) // PAGE_BYTES, 0, None)
            self._call("open_at", byref(options), byref(at))
            self._memory, self._lent = at, lent_memory
        self.pages = pages
        self.queues = queues
        self.entries = entries

    def close(self) -> None:
        """Lets all go, whatever is outstanding. A host that is closed refuses each call with CLOSED_HANDLE."""
        memory: Optional[CMemory] = getattr(self, "_memory", None)
        if memory is None:
            super().close()
        else:
            self._functions["close_at"](self._at, byref(memory))
            self._memory = self._lent = None

    # A command, with its tag

    def reserve(
        self,
        q: int,
        kind: Kind,
        slba: int,
        blocks: int,
        pieces: Iterable[Piece],
        tag: int = 0,
        *,
        nsid: int = 1,
        block_bytes: int = 512,
        force_unit_access: bool = False,
        limited_retry: bool = False,
    ) -> Reserved:
        """Reserves a command of `blocks` blocks from `slba` on, as a draft: `cid`, `data_pages`, `chain_pages`. Its pages are out of the
        pool until it is submitted. It is of namespace `nsid` (0 is 1), whose blocks have
        `block_bytes` bytes (0 is 512), with the flags that are set. Of a Deallocate `blocks` counts the ranges, its pieces are 16 bytes for
        each, and neither `slba` nor a flag is in its entry. `reap`, `collect` and `poll` tell the tag, of 64 bits, when the command
        has ended."""
        request = request_of(kind, slba, blocks, nsid, block_bytes, force_unit_access, limited_retry)
        return self._reserved("reserve_request", q, byref(request), *lent_pieces(pieces), tag)

    def reserve_admin(
        self, opcode: int, words: Iterable[int] = (), *, nsid: int = 0, page: PageUse = PageUse.NOTHING, count: int = 0, tag: int = 0
    ) -> Reserved:
        """Reserves an admin command of your own, of queue 0, as a draft. `words` are Command Dwords 10 to 15, as far as they are not 0; `count` is how many
        bytes of data its page has. It is built, submitted, reaped (with `dw0`), collected and released as any command, on queue 0; filled
        where data is taken from its page, and gathered where data comes."""
        given = [fits(word, 32) for word in words]
        if len(given) > 6:
            raise ValueError("an admin command has six words, Command Dwords 10 to 15")
        admin = CAdmin(ctypes.sizeof(CAdmin), fits(opcode, 32), fits(nsid, 32), fits(page, 32), fits(count, 32), (c_uint32 * 6)(*given))
        return self._reserved("reserve_admin", byref(admin), tag)

    # A command of several buffers

    def send(self, q: int, kind: Kind, slba: int, buffers: Iterable[Any], tag: int = 0) -> Reserved:
        """Reserves a command of the bytes of several buffers, one after the other, fills it with them where it is a Write or a Compare, builds it and submits it. It is
        not rung. Only all of them together are whole blocks; of a Read only the lengths are looked at. The tag is that of `reserve`.
        Refused, nothing of the command is left."""
        array, count, _held = all_lent(buffers)
        return self._reserved("submit_iov", q, kind, slba, array, count, tag)

    def gather_all(self, q: int, cid: int, buffers: Iterable[Any]) -> int:
        """Gathers the bytes of a finished Read into several writable buffers, one after the other, and returns how many there are. TOO_SHORT where they have not so
        many."""
        array, count, _held = all_lent(buffers, True)
        return int(self._call("gather_iov", q, cid, array, count).bytes)

    # A queue

    def ring(self, q: int) -> Doorbell:
        """The value for the queue's tail doorbell, with which the device hears all that was submitted."""
        self._call("ring", q, byref(self._bell))
        return Doorbell(self._bell.offset, self._bell.value)

    def reap(self, q: int) -> Reaped:
        """Takes one completion, if a new one stands there: `state`, `cid`, `status`, `dw0`, the `doorbell` to write then, and the `tag`."""
        told = self._call("reap", q, byref(self._bell))
        state = State(told.state)
        doorbell = Doorbell(self._bell.offset, self._bell.value) if self._bell.rings else None
        if state not in (State.REAP_DONE, State.REAP_ADMIN_DONE):
            return Reaped(state, None, None, None, doorbell, 0)
        status = Status(told.sct, told.sc)
        return Reaped(state, told.cid, status, told.dw0 if state == State.REAP_ADMIN_DONE else None, doorbell, told.tag)

    def poll(self, q: int, most: int = 64) -> Polled:
        """Takes completions, each as `reap` does, at most so many, and collects the command that each ends, as `collect` does. A command whose entry has another
        code than DONE has ended and is not collected: collect it."""
        buffer, count = (CEnded * most)(), c_size_t()
        told = self._call("poll", q, buffer, most, byref(count), byref(self._bell))
        doorbell = Doorbell(self._bell.offset, self._bell.value) if self._bell.rings else None
        return Polled([_ended(entry) for entry in buffer[: count.value]], doorbell, told.state == State.REAP_EMPTY)

    def create_cq(self, q: int, vector: Optional[int] = None) -> int:
        """Sends the creation of a completion queue with interrupts on a vector of the device's; without one it is polled. The identifier on queue 0; it is
        not rung. Interrupts are the caller's."""
        if vector is None:
            return super().create_cq(q)
        return int(self._call("create_cq_vector", q, vector).cid)

    def reset(self) -> None:
        """Begins again, where the device is reset: queue 0 is as it opened, the I/O queues are gone, and every command that was submitted has ended,
        aborted."""
        self._call("reset")

    # The device's side of the pool

    def read(self, addr: int, count: int) -> bytes:
        """1 to 4,096 bytes of the pool from an address on, as the device reads them. BAD_LENGTH for another count; PAGE_OUT where a byte is outside
        the pool, or on a page of a draft or of a finished command."""
        buffer = (c_uint8 * count)()
        self._look("read", addr, buffer, count)
        return bytes(buffer)

    def write(self, addr: int, content: Any) -> None:
        """Writes the 1 to 4,096 bytes of any buffer into the pool from an address on, as the device writes them. Refused as `read`; then no byte changed."""
        self._look("write", addr, *lent(content))

    # Looks

    def counts(self) -> Counts:
        """How many pages there are, and of each class."""
        pages = CPages()
        self._look("counts", byref(pages))
        return Counts(*(getattr(pages, name) for name in Counts._fields))

    def queue(self, q: int) -> Queue:
        """What the host knows of a queue, and where it stands in its rings."""
        queue = CQueue()
        self._look("look", q, byref(queue))
        submission = range(queue.submission_page, queue.submission_page + queue.submission_pages)
        completion = range(queue.completion_page, queue.completion_page + queue.completion_pages)
        at = (queue.submission_tail, queue.submission_head, queue.completion_head, queue.phase)
        return Queue(QueueState(queue.state), *at, submission, completion)

    def rings(self, q: int) -> Rings:
        """Where the rings of a queue begin."""
        queue = self.queue(q)
        return Rings(*(pages[0] * PAGE_BYTES if pages else None for pages in (queue.submission, queue.completion)))

    def ready(self, q: int) -> bool:
        """Whether the completion that `reap` would take stands in the queue's ring, by its phase tag. Over memory that a device writes by itself, `reap`
        is called where this is so."""
        queue = self.queue(q)
        if not queue.completion:
            return False
        return self.read(queue.completion[0] * PAGE_BYTES + 16 * queue.completion_head + 14, 1)[0] & 1 == queue.phase

    def may(self, page: int) -> Right:
        """What a device may do with a page now, whatever it wrote; nothing of a page outside the pool."""
        right = c_uint32()
        self._look("may", page, byref(right))
        return Right(right.value)

    def runs(self, q: int, cid: int) -> List[Run]:
        """The pages of a command as runs, first of its data and then of its chain, with what a device may do with them now; none where no such
        command is outstanding."""
        count, room = c_size_t(), 16
        while True:
            buffer = (CRun * room)()
            try:
                self._look("runs", q, cid, buffer, room, byref(count))
            except Refused as refused:
                if refused.code != Code.TOO_SHORT:
                    raise
                room *= 4
            else:
                return [Run(range(run.first, run.first + run.count), Right(run.right)) for run in buffer[: count.value]]

    def data_place(self, q: int, cid: int, piece: int) -> Place:
        """Where data piece `piece` of an outstanding command lies, counted from 0 without the buckets. NO_PIECE where there is none."""
        place = CPlace()
        self._look("data_place", q, cid, piece, byref(place))
        return Place(place.page, place.offset, place.len)
