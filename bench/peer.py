"""QEMU's NVMe controller as a peer: a pool at the same addresses of its guest's memory, an image in a file, and I/O queues. No guest runs."""

import os
import sys

from lists import BLOCK, PAGE, Answer

ROOT = os.path.dirname(os.path.dirname(os.path.abspath(__file__)))
sys.path.insert(0, os.path.join(ROOT, "examples", "qemu"))

from link import Admin, Link, nvme  # noqa: E402
from qtest import Late, Missing, Qtest  # noqa: E402

__all__ = ["ADMIN", "RINGS", "Late", "Missing", "Peer", "Ring", "said", "status_of"]

# Behind the pool, in the guest's memory: the admin queue, and the rings of a queue of the peer's own.
ADMIN, RINGS, ENTRIES = 0x100000, 0x110000, 8


class Ring:
    """A queue that QEMU has at two addresses, with one command at a time."""

    def __init__(self, peer, q, sq, cq, entries=ENTRIES):
        self.peer, self.q, self.sq, self.cq, self.entries = peer, q, sq, cq, entries
        self.slot, self.phase = 0, 1

    def post(self, entry, ahead=0):
        """Puts an entry into the slot at the tail, or so many ahead of it."""
        self.peer.qemu.write(self.sq + 64 * ((self.slot + ahead) % self.entries), entry)

    def ring(self):
        """Rings for the entry at the tail, and waits for its completion: 16 bytes."""
        at = self.cq + 16 * self.slot
        self.slot = (self.slot + 1) % self.entries
        self.peer.link.tail(self.q, self.slot)
        posted = self.peer.link.wait(lambda: self.new(at), "a command is not done")
        self.phase ^= self.slot == 0
        self.peer.link.head(self.q, self.slot)
        return posted

    def new(self, at):
        """A completion at an address, where it is a new one."""
        found = self.peer.qemu.read(at, 16)
        return found if found[14] & 1 == self.phase else None


class Peer:
    """QEMU's controller over an image of so many blocks."""

    def __init__(self, folder, blocks, patience=20.0, drive=""):
        self.path = os.path.join(folder, "image")
        self.begin(bytes(blocks * BLOCK))
        self.qemu = Qtest(nvme(self.path, drive), patience=patience)
        self.link = Link(self.qemu)
        self.admin = Admin(self.link, ADMIN)

    def make(self, q=1, sq=RINGS, cq=RINGS + PAGE):
        """Makes an I/O queue at two addresses."""
        self.admin.make_queue(q, ENTRIES, sq, cq)
        return Ring(self, q, sq, cq)

    def begin(self, image):
        """Puts the image into its file."""
        with open(self.path, "r+b" if os.path.exists(self.path) else "wb") as file:
            file.write(image)

    def image(self):
        """The image as its file has it."""
        with open(self.path, "rb") as file:
            return file.read()

    def pages(self, numbers):
        """The bytes of these pages of the pool."""
        return dict(zip(numbers, self.qemu.read_all([(PAGE * number, PAGE) for number in numbers])))

    def put(self, pages):
        """Puts pages of the pool into the guest's memory."""
        self.qemu.write_all([(PAGE * number, data) for number, data in pages.items()])

    def answer(self, ring, case):
        """What becomes of a command with a list of its own."""
        memory = case.memory()
        self.begin(case.image())
        self.put({at // PAGE: memory[at : at + PAGE] for at in range(0, len(memory), PAGE)})
        ring.post(case.entry)
        posted = ring.ring()
        found = self.pages(range(len(memory) // PAGE))
        return Answer(status_of(posted), b"".join(found.values()), self.image())


def status_of(posted):
    """SCT and SC of a completion, in bits 10:0."""
    return int.from_bytes(posted[14:16], "little") >> 1 & 0x7FF


def said(status):
    """A status as it is written."""
    return f"{status >> 8}:{status & 0xFF:02X}"
