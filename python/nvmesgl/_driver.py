"""What a machine and a host have in common: the calls of a command and of a queue that the driver makes."""

from __future__ import annotations

import ctypes
from ctypes import byref, c_uint8
from typing import Any, Dict, Iterable, Tuple

from ._library import CPiece, CRequest, PageOwner, fits, lent, lent_to_write
from ._opened import Opened
from .words import Code, Collected, Kind, Owner, OwnerKind, Piece, Refused, Reserved


def lent_pieces(pieces: Iterable[Piece]) -> Tuple["ctypes.Array[CPiece]", int]:
    """The pieces as C takes them, and how many there are."""
    items = [CPiece(fits(p.offset, 32), fits(p.len, 32), int(p.bucket)) for p in pieces]
    return (CPiece * len(items))(*items), len(items)


def request_of(
    kind: Kind, slba: int, blocks: int, nsid: int, block_bytes: int, force_unit_access: bool, limited_retry: bool
) -> CRequest:
    """What a command asks for, as C takes it."""
    flags = bool(force_unit_access) + 2 * bool(limited_retry)
    return CRequest(ctypes.sizeof(CRequest), fits(kind, 32), fits(nsid, 32), flags, fits(slba, 64), fits(blocks, 32), fits(block_bytes, 32))


class Driver(Opened):
    """An open handle of a driver. Used by `with`, or closed by `close`."""

    def __init__(self, functions: Dict[str, Any]) -> None:
        super().__init__(functions)
        self._gathered: "ctypes.Array[c_uint8]" = (c_uint8 * 4096)()

    # A command

    def reserve(
        self,
        q: int,
        kind: Kind,
        slba: int,
        blocks: int,
        pieces: Iterable[Piece],
        *,
        nsid: int = 1,
        block_bytes: int = 512,
        force_unit_access: bool = False,
        limited_retry: bool = False,
    ) -> Reserved:
        """Reserves a command of `blocks` blocks from `slba` on, as a draft: `cid`, `data_pages`, `chain_pages`. Its pages are out of the
        pool until it is submitted. It is of namespace `nsid` (0 is 1), whose blocks have
        `block_bytes` bytes (0 is 512), with the flags that are set. Of a Deallocate `blocks` counts the ranges, its pieces are 16 bytes for
        each, and neither `slba` nor a flag is in its entry."""
        request = request_of(kind, slba, blocks, nsid, block_bytes, force_unit_access, limited_retry)
        return self._reserved("reserve_request", q, byref(request), *lent_pieces(pieces))

    def _reserved(self, name: str, *arguments: object) -> Reserved:
        told = self._call(name, *arguments)
        return Reserved(told.cid, told.data_pages, told.chain_pages)

    def fill(self, q: int, cid: int, content: Any) -> None:
        """Fills the draft of a Write, a Compare or a Deallocate with the bytes of any buffer, and zeros after them."""
        self._call("fill", q, cid, *lent(content))

    def build(self, q: int, cid: int) -> None:
        """Lays the draft's chain."""
        self._call("build", q, cid)

    def submit(self, q: int, cid: int) -> None:
        """Submits a draft that is built: its pages are in the pool, and its entry stands where the tail was. It is not rung."""
        self._call("submit", q, cid)

    def cancel(self, q: int, cid: int) -> None:
        """Cancels a draft: its pages and its identifier are free."""
        self._call("cancel", q, cid)

    def collect(self, q: int, cid: int) -> Collected:
        """Collects a command that has ended: its status, with its `hints`, and of a host its `tag`. Its pages are out of the pool."""
        self._call("collect", q, cid)
        return self._collected()

    def gather(self, q: int, cid: int) -> bytes:
        """The bytes of a finished Read, or of an admin command that brought data; none of another."""
        code = self._code("gather", q, cid, self._gathered, len(self._gathered))
        if code == Code.TOO_SHORT:
            self._gathered = (c_uint8 * self._answer.bytes)()
            code = self._code("gather", q, cid, self._gathered, len(self._gathered))
        if code != Code.DONE:
            raise Refused("gather", code)
        return ctypes.string_at(self._gathered, self._answer.bytes)

    def gather_into(self, q: int, cid: int, buffer: Any) -> int:
        """Gathers the bytes of a finished Read into the front of a writable buffer, and returns how many there are. TOO_SHORT where it has not so many."""
        return int(self._call("gather", q, cid, *lent_to_write(buffer)).bytes)

    def release(self, q: int, cid: int) -> None:
        """Releases a finished command: its pages and its identifier are free."""
        self._call("release", q, cid)

    def abort(self, q: int, cid: int) -> int:
        """Sends an Abort of a submitted command. The identifier on queue 0; it is not rung."""
        return int(self._call("abort", q, cid).cid)

    # A queue

    def delete_sq(self, q: int) -> int:
        """Sends the deletion of a submission queue. The identifier on queue 0; it is not rung."""
        return int(self._call("delete_sq", q).cid)

    def delete_cq(self, q: int) -> int:
        """Sends the deletion of a completion queue. The identifier on queue 0; it is not rung."""
        return int(self._call("delete_cq", q).cid)

    def create_cq(self, q: int) -> int:
        """Sends the creation of a completion queue that is polled. The identifier on queue 0; it is not rung."""
        return int(self._call("create_cq", q).cid)

    def create_sq(self, q: int) -> int:
        """Sends the creation of a submission queue. The identifier on queue 0; it is not rung."""
        return int(self._call("create_sq", q).cid)

    def retire(self, q: int) -> None:
        """Gives back the submission ring of a queue whose deletion was reaped."""
        self._call("retire", q)

    # A look

    def owner(self, page: int) -> Owner:
        """Who owns a page."""
        owner = PageOwner()
        self._look("owner", page, byref(owner))
        return Owner(OwnerKind(owner.kind), owner.q, owner.cid)
