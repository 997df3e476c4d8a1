"""An NVMe controller of QEMU's: found on the PCI bus, and driven by its registers and doorbells.

    with Qtest(nvme("image")) as qemu:
        link = Link(qemu)
        link.enable(asq=0x100000, acq=0x101000, entries=4)

Nothing here knows of commands but the admin commands that `Admin` sends for whoever has no host of his own. Section titles are those of
the NVM Express Base Specification 2.0.
"""

import struct
import time

from qtest import Late

# Configuration space by ports, and where the controller's registers are mapped: below 4 GiB, above the guest's memory.
ADDRESS, DATA, MAPPED = 0xCF8, 0xCFC, 0xE0000000
COMMAND, CLASS, BAR0, NVME_CLASS, MEMORY_AND_MASTER = 0x04, 0x08, 0x10, 0x010802, 6
# [Controller Properties] CAP, CC, CSTS, AQA, ASQ, ACQ
CAP, CC, CSTS, AQA, ASQ, ACQ, DOORBELLS = 0x00, 0x14, 0x1C, 0x24, 0x28, 0x30, 0x1000
# CC: entries of 2^6 and 2^4 bytes; EN.
ENTRY_SIZES, EN = 6 << 16 | 4 << 20, 1
READY, FATAL = 1, 2
PAGE = 4096


def nvme(image, drive=""):
    """What QEMU's command line says for a controller whose namespace 1 is a file; `drive` is said of the file too. MDTS 8 is a mebibyte: 2,048 blocks."""
    return ["-drive", f"file={image},if=none,format=raw,id=image{drive}", "-device", "nvme,serial=nvmesgl,drive=image,mdts=8"]


class Link:
    """The controller's registers."""

    def __init__(self, qemu, mapped=MAPPED):
        self.qemu, self.mapped = qemu, mapped
        self.at = self._find()
        self._config_write(BAR0, mapped)
        self._config_write(BAR0 + 4, 0)
        self._config_write(COMMAND, MEMORY_AND_MASTER)

    def _config(self, at, register):
        self.qemu.set_port(ADDRESS, 1 << 31 | at << 11 | register)
        return self.qemu.port(DATA)

    def _config_write(self, register, value):
        self.qemu.set_port(ADDRESS, 1 << 31 | self.at << 11 | register)
        self.qemu.set_port(DATA, value)

    def _find(self):
        for at in range(32):
            if self._config(at, 0) != 0xFFFFFFFF and self._config(at, CLASS) >> 8 == NVME_CLASS:
                return at
        raise LookupError("no NVMe controller stands on the bus")

    def register(self, at):
        """A register of 32 bits."""
        return self.qemu.peek(self.mapped + at)

    def set_register(self, at, value):
        """Writes a register of 32 bits."""
        self.qemu.poke(self.mapped + at, value)

    def wait(self, done, what):
        """Waits until `done()` has an answer, and gives that; `Late` where it takes too long. QEMU works while it is asked."""
        until = time.monotonic() + self.qemu.patience
        while True:
            found = done()
            if found:
                return found
            if time.monotonic() > until:
                raise Late(what)

    def disable(self):
        """A controller reset: CC.EN from 1 to 0. All queues are gone after it, the admin queue too."""
        self.set_register(CC, 0)
        self.wait(lambda: not self.register(CSTS) & READY, "the controller is not reset")

    def enable(self, asq, acq, entries):
        """Makes the admin queue at two addresses, and starts the controller."""
        self.set_register(AQA, (entries - 1) << 16 | entries - 1)
        for at, value in ((ASQ, asq), (ACQ, acq)):
            self.set_register(at, value & 0xFFFFFFFF)
            self.set_register(at + 4, value >> 32)
        self.set_register(CC, ENTRY_SIZES | EN)
        state = self.wait(lambda: self.register(CSTS) & (READY | FATAL), "the controller is not ready")
        if state != READY:
            raise Late("the controller did not start")

    def doorbell(self, at, value):
        """Writes a doorbell; `at` is its offset in the registers, 1000h for the tail of the admin queue."""
        self.set_register(at, value)

    def tail(self, q, value):
        """The tail doorbell of submission queue q. [Submission Queue y Tail Doorbell]"""
        self.doorbell(DOORBELLS + 8 * q, value)

    def head(self, q, value):
        """The head doorbell of completion queue q. [Completion Queue y Head Doorbell]"""
        self.doorbell(DOORBELLS + 8 * q + 4, value)


class Admin:
    """An admin queue of its own, for who has no host: one command at a time, in two pages of the guest's memory from `at` on."""

    def __init__(self, link, at, entries=4):
        self.link, self.at, self.entries = link, at, entries
        self.slot, self.phase, self.cid = 0, 1, 0
        link.qemu.zero(at, 2 * PAGE)
        link.enable(at, at + PAGE, entries)

    def send(self, opcode, cdw10=0, cdw11=0, prp1=0, nsid=0):
        """Carries a command out; its status (SCT and SC, in bits 10:0) and DW0."""
        self.cid += 1
        entry = struct.pack("<IIQQQQIIIIII", opcode | self.cid << 16, nsid, 0, 0, prp1, 0, cdw10, cdw11, 0, 0, 0, 0)
        self.link.qemu.write(self.at + 64 * self.slot, entry)
        self.link.tail(0, (self.slot + 1) % self.entries)
        found = self.link.wait(self._posted, f"admin command {opcode:#x} is not done")
        self.slot = (self.slot + 1) % self.entries
        self.phase ^= self.slot == 0
        self.link.head(0, self.slot)
        dw0, _, _, _, _, status = found
        return status >> 1 & 0x7FF, dw0

    def _posted(self):
        found = struct.unpack("<IIHHHH", self.link.qemu.read(self.at + PAGE + 16 * self.slot, 16))
        return found if found[5] & 1 == self.phase else None

    def make_queue(self, q, entries, sq, cq):
        """Makes I/O completion queue q and submission queue q, each at an address."""
        for opcode, more, at in ((0x05, 0, cq), (0x01, q << 16, sq)):
            status, _ = self.send(opcode, (entries - 1) << 16 | q, more | 1, at)
            if status:
                raise Late(f"queue {q} was not made: status {status:#x}")
