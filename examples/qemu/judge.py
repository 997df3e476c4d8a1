"""QEMU's IOMMU as a judge of what a device reaches for, programmed over qtest: no guest, and no right of the system's.

    judge = Judge(host, Iommu(qemu, link.at << 3))
    judge.hold()      # the device reaches just the pages that the host says, each just as it says
    judge.faults()    # what it reached for beside them, since this was asked last

Section titles are those of the Intel Virtualization Technology for Directed I/O specification, in legacy mode with three levels of tables.
"""

import struct
from typing import NamedTuple

from nvmesgl.host import Right

# What QEMU's command line says for a machine with an IOMMU.
MACHINE = "q35,kernel-irqchip=split"
OPTIONS = ["-device", "intel-iommu,intremap=on,caching-mode=on"]
BASE, PAGE, TABLES = 0xFED90000, 4096, 0x300000
# [Register Descriptions] Global Command and Status, Root Table Address, Context Command, Fault Status, IOTLB Invalidate, Fault Recording
GCMD, GSTS, RTADDR, CCMD, FSTS, IOTLB, FRCD = 0x18, 0x1C, 0x20, 0x28, 0x34, 0xF8, 0x220
TRANSLATION, SET_ROOT, PENDING, OVERFLOW = 1 << 31, 1 << 30, 2, 1
# The pages of one table.
MOST = 512


class Fault(NamedTuple):
    """An access that was stopped: of which page, whether it was to be read, and for which reason."""

    page: int
    reads: bool
    reason: int


class Iommu:
    """The first IOMMU, with the tables of one function: its first 512 pages. Address a of the function is address a of the memory; at first it reaches none."""

    def __init__(self, qemu, function, at=TABLES):
        self.qemu, self.leaf = qemu, at + 4 * PAGE
        root, context, top, middle = (at + PAGE * i for i in range(4))
        qemu.zero(at, 5 * PAGE)
        qemu.write(root, struct.pack("<QQ", context | 1, 0))
        qemu.write(context + 16 * function, struct.pack("<QQ", top | 1, 1 | 1 << 8))
        for table, below in ((top, middle), (middle, self.leaf)):
            qemu.write(table, struct.pack("<Q", below | Right.READ | Right.WRITE))
        self._set64(RTADDR, root)
        qemu.poke(BASE + GCMD, SET_ROOT)
        self._set64(CCMD, 1 << 63 | 1 << 61)
        self._forget()
        qemu.poke(BASE + GCMD, TRANSLATION)
        assert qemu.peek(BASE + GSTS) & TRANSLATION

    def _set64(self, at, value):
        self.qemu.poke(BASE + at, value & 0xFFFFFFFF)
        self.qemu.poke(BASE + at + 4, value >> 32)

    def _forget(self):
        """Lets go of all that was looked up in the tables. [IOTLB Invalidate Register]"""
        self._set64(IOTLB, 1 << 63 | 1 << 60)

    def map(self, pages):
        """Maps pages, each with what the function may do there: bits of `Right`."""
        self.qemu.write_all([(self.leaf + 8 * page, struct.pack("<Q", PAGE * page | right)) for page, right in pages.items()])
        self._forget()

    def faults(self):
        """What was stopped since this was asked last. QEMU keeps one record, and whether there were more of other pages."""
        status = self.qemu.peek(BASE + FSTS)
        if not status & (PENDING | OVERFLOW):
            return []
        low, high, _, last = (self.qemu.peek(BASE + FRCD + 4 * i) for i in range(4))
        self.qemu.poke(BASE + FRCD + 12, 1 << 31)
        self.qemu.poke(BASE + FSTS, OVERFLOW)
        return [Fault((high << 32 | low) // PAGE, bool(last >> 30 & 1), last & 0xFF)]


class Judge:
    """Keeps a device to what its host says of each page, `Host.may`, and counts."""

    def __init__(self, host, iommu):
        if host.pages > MOST:
            raise ValueError("a pool of more than 512 pages")
        self.host, self.iommu, self.held = host, iommu, {}
        self.given = self.taken = self.looks = 0

    def rights(self):
        """Each page of the pool with what the device is to do there."""
        return {page: self.host.may(page) for page in range(self.host.pages)}

    def hold(self):
        """Gives the device what is its own now, and takes all else. Called before a doorbell is rung, and once a completion was reaped."""
        changed = {page: right for page, right in self.rights().items() if self.held.get(page, Right.NOTHING) != right}
        if changed:
            self.iommu.map(changed)
            self.held.update(changed)
        self.given += sum(right != Right.NOTHING for right in changed.values())
        self.taken += sum(right == Right.NOTHING for right in changed.values())

    def faults(self):
        """What the device reached for beside that since this was asked last."""
        self.looks += 1
        return self.iommu.faults()


class Open(Judge):
    """The control: the device reaches all pages of the pool, as it likes."""

    def rights(self):
        return dict.fromkeys(range(self.host.pages), Right.READ | Right.WRITE)
