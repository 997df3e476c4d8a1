"""The words of the library: codes, kinds, pieces, statuses, and a call that was refused."""

from __future__ import annotations

import enum
from typing import Any, List, NamedTuple, Sequence, Tuple

from ._library import CRange, fits, library

__all__ = ["BlockRange", "Code", "Collected", "Hints", "Kind", "Owner", "OwnerKind", "Piece", "Refused", "Reserved", "State", "Status", "Step", "Walk"]


class Code(enum.IntEnum):
    """The codes of c/nvmesgl.h."""

    DONE = 0
    CLOSED_HANDLE = 1
    OPEN_HANDLE = 2
    NO_VALUE = 3
    NO_KIND = 4
    TOO_SHORT = 5
    NO_PAGE = 6
    BAD_SIZE = 7
    BAD_OPTION = 8
    BAD_IMAGE = 9
    NO_QUEUE = 10
    DELETING = 11
    BAD_CONFIG = 12
    NO_IDENTIFIER = 13
    NO_PAGES = 14
    MEMORY = 15
    STRANGER = 16
    NOT_BUILT = 17
    QUEUE_GONE = 18
    QUEUE_FULL = 19
    NOT_YET = 20
    WRONG_STATE = 21
    NO_SUCH_COMMAND = 22
    NOT_DELETED = 23
    NOT_DRAINED = 24
    OUTSTANDING = 25
    NO_RUN = 26
    NO_SLOT = 27
    IDLE = 28
    SLOT_OUT = 29
    FULL = 30
    NO_JOB = 31
    NOTHING = 32
    WALKING = 33
    WAITS = 34
    OTHER_BLOCKS = 35
    TOO_MANY_PIECES = 40
    EMPTY_PIECE = 41
    CROSSES_PAGE = 42
    BAD_COUNT = 43
    LENGTH_MISMATCH = 44
    NOT_A_SOURCE = 45
    WRONG_LENGTH = 46
    HOSTS_OWN = 47
    BAD_DOORBELL = 50
    POOL_TOO_LONG = 51
    NO_BLOCKS = 52
    BAD_LENGTH = 53
    PAGE_OUT = 54
    NO_PIECE = 55
    BAD_PIECE = 56
    NO_HANDLE = 57
    NOT_LENT = 58
    OTHER_CALL = 59
    DISK = 60


class PageUse(enum.IntEnum):
    """What an admin command does with a page of the host's."""

    NOTHING = 0
    IN = 1
    OUT = 2


class Kind(enum.IntEnum):
    """Which I/O command. The data of a DEALLOCATE is ranges of blocks that are not needed any more (`BlockRange`)."""

    READ = 0
    WRITE = 1
    COMPARE = 2
    WRITE_ZEROES = 3
    VERIFY = 4
    FLUSH = 5
    DEALLOCATE = 6


class State(enum.IntEnum):
    """How a walk stands, what a reap found, that there is more to serve, or that a whole command is outstanding."""

    WALK_MORE = 1
    WALK_END = 2
    WALK_FAULT = 3
    REAP_EMPTY = 4
    REAP_DONE = 5
    REAP_ADMIN_DONE = 6
    REAP_WRONG_QUEUE = 7
    REAP_BAD_HEAD = 8
    REAP_UNKNOWN_ID = 9
    SERVE_MORE = 10
    LEFT = 11


class OwnerKind(enum.IntEnum):
    """Who owns a page."""

    FREE = 0
    SUBMISSION_QUEUE = 1
    COMPLETION_QUEUE = 2
    DATA = 3
    CHAIN = 4


class Piece(NamedTuple):
    """`len` bytes from `offset` on in a page of their own; with `bucket`, so many bytes that a Read discards."""

    offset: int
    len: int
    bucket: bool = False


class BlockRange(NamedTuple):
    """`blocks` blocks from `slba` on. Their bytes one after the other, of 1 to 256 ranges, are the data of a Deallocate."""

    slba: int
    blocks: int

    def to_bytes(self) -> bytes:
        """Its 16 bytes, as the NVM Command Set Specification has them: no Context Attributes, the number of blocks, the first block."""
        return bytes(CRange(0, fits(self.blocks, 32), fits(self.slba, 64)))


class Status(NamedTuple):
    """How a command ended: a status code type and a status code."""

    sct: int
    sc: int

    @property
    def name(self) -> str:
        """The name that the specification gives it."""
        return str(library().nvmesgl_status_text(self.sct, self.sc).decode())

    def __str__(self) -> str:
        return f"{self.sct}:{self.sc:02X} {self.name}"


class Hints(NamedTuple):
    """What a command's completion hinted at: which delay is to pass before the command is sent again (0: none), whether the Error Information log has more on it,
    and whether it is expected to fail again. Nothing where no completion ended it."""

    retry_delay: int = 0
    more: bool = False
    do_not_retry: bool = False


class Collected(Status):
    """How a command ended that was collected, with its hints; `tag` is that of a host's command, and 0 where it has none."""

    hints: Hints = Hints()
    tag: int = 0


class Reserved(NamedTuple):
    """A command that was reserved."""

    cid: int
    data_pages: int
    chain_pages: int


class Owner(NamedTuple):
    """Who owns a page."""

    kind: OwnerKind
    q: int
    cid: int


class Step(NamedTuple):
    """A step of the controller: the command, and the pages that it touched, in order."""

    cid: int
    touched: List[int]


class Walk(NamedTuple):
    """A unit of a list: how the walk stands, the fault's status where there is one, and the pages touched."""

    state: State
    status: "Status | None"
    touched: List[int]


class Refused(Exception):
    """A call that was not done. Nothing changed, but for what `serve` had done by then, and where `left` is a number: it is the identifier of a whole
    command that was submitted and could not be finished, and is outstanding. `call` is the call's name; `need` and `free` count pages, where too few are free;
    `touched` are the pages that a step of the controller touched before it was refused."""

    def __init__(self, call: str, code: int, need: int = 0, free: int = 0, touched: Sequence[int] = (), left: "int | None" = None) -> None:
        self.call = call
        self.code = Code(code)
        self.need = need
        self.free = free
        self.touched = list(touched)
        self.left = left
        numbers = {Code.NO_PAGES: f" (need {need}, free {free})", Code.NO_RUN: f" (need {need})"}.get(self.code, "")
        outstanding = "" if left is None else f"; command {left} is outstanding"
        super().__init__(f"{call}: {self.code.name}: {library().nvmesgl_text(code).decode()}{numbers}{outstanding}")

    def __reduce__(self) -> Tuple[Any, ...]:
        return type(self), (self.call, int(self.code), self.need, self.free, tuple(self.touched), self.left)
