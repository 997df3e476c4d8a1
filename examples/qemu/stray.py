"""Strays: entries that are overwritten by hand with the address of a page that the command does not own, and what becomes of them.

With the judge each must be stopped, and nothing is changed. Without, each must do harm; so the judge judges something.
"""

import struct
from typing import NamedTuple

from nvmesgl.host import PAGE_BYTES
from nvmesgl import Kind, Piece

# What stands in a page that nobody owns any more: nobody's business, and not the device's.
SECRET = bytes([0xA5]) * PAGE_BYTES
ADDRESS = 24
BLOCK = 512


class Stray(NamedTuple):
    """What was tried, the status that QEMU answered, what was stopped, and whether something was spoilt."""

    what: str
    status: object
    faults: list
    harm: bool


class Strays:
    """The cases, over a `Drive` with two queues whose image is zeros."""

    def __init__(self, drive):
        self.drive, self.host, self.qemu = drive, drive.host, drive.qemu

    def _draft(self, q, kind, slba, content=b""):
        """A draft of one block in one page: its identifier and its page."""
        cid = self.host.reserve(q, kind, slba, 1, [Piece(0, BLOCK)]).cid
        if kind != Kind.READ:
            self.host.fill(q, cid, content)
        self.host.build(q, cid)
        return cid, self.host.data_place(q, cid, 0).page

    def _submit(self, q, cid, page=None):
        """Submits a draft; its entry then names another page."""
        slot = self.host.queue(q).submission_tail
        self.host.submit(q, cid)
        if page is not None:
            self.host.write(self.host.rings(q).submission + 64 * slot + ADDRESS, struct.pack("<Q", PAGE_BYTES * page))

    def _carry(self, q):
        """Rings a queue with one command, and waits for its end; its status."""
        drive = self.drive
        drive.ring(q)
        found = drive.link.wait(lambda: self._reaped(q), "a stray is not done")
        self.host.collect(q, found.cid)
        self.host.release(q, found.cid)
        return found.status

    def _reaped(self, q):
        self.drive.mirror.pull()
        found = self.host.reap(q)
        if found.doorbell is None:
            return None
        self.drive.link.doorbell(*found.doorbell)
        self.drive.judge.hold()
        return found

    def _free_page(self):
        """A page that was a command's and is nobody's now, with bytes in it, and the page of no draft that comes after it."""
        keeps, _ = self._draft(1, Kind.READ, 0)
        gives, page = self._draft(1, Kind.READ, 0)
        self.host.cancel(1, gives)
        self.qemu.write(PAGE_BYTES * page, SECRET)
        return keeps, page

    def _block(self, slba):
        """A block of the image, as it lies in QEMU's file."""
        with open(self.drive.path, "rb") as file:
            file.seek(BLOCK * slba)
            return file.read(BLOCK)

    def given_back(self):
        """A Read into a page that was given back."""
        cid, page = self._free_page()
        self._submit(1, cid, page)
        status = self._carry(1)
        harm = self.qemu.read(PAGE_BYTES * page, PAGE_BYTES) != SECRET
        return Stray("a Read into a page that was given back", status, self.drive.judge.faults(), harm)

    def leaked(self):
        """A Write out of a page that was given back: what stands there must not come to the disk."""
        keeps, page = self._free_page()
        self.host.cancel(1, keeps)
        cid, own = self._draft(1, Kind.WRITE, 16, bytes(BLOCK))
        assert own != page
        self._submit(1, cid, page)
        status = self._carry(1)
        return Stray("a Write out of a page that was given back", status, self.drive.judge.faults(), self._block(16) == SECRET[:BLOCK])

    def waiting(self):
        """A Read into the data of a Write that waits on another queue: what the Write then writes."""
        content = bytes(range(256)) * 2
        waits, page = self._draft(2, Kind.WRITE, 8, content)
        self._submit(2, waits)
        cid, _ = self._draft(1, Kind.READ, 0)
        self._submit(1, cid, page)
        first = self._carry(1)
        faults = self.drive.judge.faults()
        second = self._carry(2)
        return Stray("a Read into the data of a Write that waits", (first, second), faults + self.drive.judge.faults(), self._block(8) != content)

    def all(self):
        """Each of them."""
        return [self.given_back(), self.leaked(), self.waiting()]
