"""Commands of the admin queue, and identifiers: what `docs/PROFILE.md` says of each, and what QEMU's NVMe controller answers.

Each command has a QEMU of its own, with no I/O queue but those that the case makes.
"""

import tempfile

from lists import DATA_BLOCK, PAGE, READ, descriptor, entry_of
from peer import RINGS, Peer, said, status_of

# A Data Block of 512 bytes; opcodes; the size of a ring of four entries, in its place; and statuses, SCT and SC in one number.
DATA = descriptor(DATA_BLOCK, 8 * PAGE, 512)
DELETE_SQ, CREATE_SQ, DELETE_CQ, CREATE_CQ, ABORT = 0x00, 0x01, 0x04, 0x05, 0x08
SIZE = (4 - 1) << 16
GOOD, OPCODE, FIELD, CONFLICT, OFFSET = 0x000, 0x001, 0x002, 0x003, 0x013
NO_CQ, NO_QUEUE, BAD_SIZE, BAD_DELETION = 0x100, 0x101, 0x102, 0x10C
MADE_CQ = (CREATE_CQ, SIZE | 1, 1, RINGS)
MADE_SQ = (CREATE_SQ, SIZE | 1, 1 << 16 | 1, RINGS + PAGE)
# What both do alike: a name, the commands that are sent (opcode, CDW10, CDW11 and the address), and the last one's status and DW0.
ALIKE = [
    ("Create CQ", [MADE_CQ], GOOD, 0),
    ("Create SQ", [MADE_CQ, MADE_SQ], GOOD, 0),
    ("Delete SQ", [MADE_CQ, MADE_SQ, (DELETE_SQ, 1)], GOOD, 0),
    ("Delete CQ", [MADE_CQ, MADE_SQ, (DELETE_SQ, 1), (DELETE_CQ, 1)], GOOD, 0),
    ("Create CQ a second time", [MADE_CQ, MADE_CQ], NO_QUEUE, 0),
    ("Create CQ of queue 0", [(CREATE_CQ, SIZE, 1, RINGS)], NO_QUEUE, 0),
    ("Create CQ of a queue number that is too large", [(CREATE_CQ, SIZE | 65, 1, RINGS)], NO_QUEUE, 0),
    ("Create CQ of one entry", [(CREATE_CQ, 1, 1, RINGS)], BAD_SIZE, 0),
    ("Create CQ that is not contiguous", [(CREATE_CQ, SIZE | 1, 0, RINGS)], FIELD, 0),
    ("Create SQ on a completion queue that is not there", [MADE_SQ], NO_CQ, 0),
    ("Create SQ a second time", [MADE_CQ, MADE_SQ, MADE_SQ], NO_QUEUE, 0),
    ("Create SQ of queue 0", [MADE_CQ, (CREATE_SQ, SIZE, 1 << 16 | 1, RINGS)], NO_QUEUE, 0),
    ("Create SQ that is not contiguous", [MADE_CQ, (CREATE_SQ, SIZE | 1, 1 << 16, RINGS)], FIELD, 0),
    ("Delete SQ that is not there", [(DELETE_SQ, 1)], NO_QUEUE, 0),
    ("Delete SQ of queue 0", [(DELETE_SQ, 0)], NO_QUEUE, 0),
    ("Delete SQ a second time", [MADE_CQ, MADE_SQ, (DELETE_SQ, 1), (DELETE_SQ, 1)], NO_QUEUE, 0),
    ("Delete CQ before its submission queue", [MADE_CQ, MADE_SQ, (DELETE_CQ, 1)], BAD_DELETION, 0),
    ("Abort of a command that is not there", [MADE_CQ, MADE_SQ, (ABORT, 7 << 16 | 1)], GOOD, 1),
    ("Abort on queue 0", [(ABORT, 7 << 16)], GOOD, 1),
    ("an unknown opcode", [(0x33, 0)], OPCODE, 0),
]


def sent(rows):
    """What sends these commands, one after the other; the answer is that to the last one."""
    return lambda peer: [peer.admin.send(*row) for row in rows][-1]


def answer(send, drive=""):
    """What QEMU answers: a status and DW0."""
    with tempfile.TemporaryDirectory() as folder:
        peer = Peer(folder, 64, drive=drive)
        with peer.qemu:
            return send(peer)


def alike():
    """Whether QEMU answers what PROFILE.md says, wherever it must."""
    others = []
    for name, rows, status, dw0 in ALIKE:
        came = answer(sent(rows))
        if came != (status, dw0):
            others.append(name)
            print(f"qemu: {name}: {said(status)} with DW0 {dw0} by PROFILE.md, {said(came[0])} with DW0 {came[1]} in QEMU")
    print(f"qemu: admin commands: {len(ALIKE) - len(others)} of {len(ALIKE)} as PROFILE.md says")
    return not others


def aborted(peer):
    """An Abort of a command that is under way: the drive lets one request through, and no second one while the clock stands still."""
    ring = peer.make()
    for cid in (0, 1):
        ring.post(entry_of(READ, DATA, cid=cid), ahead=cid)
    peer.link.tail(1, 2)
    came = peer.admin.send(ABORT, 1 << 16 | 1)
    if ring.new(ring.cq + 16):
        raise ValueError("the drive let a second request through")
    return came


def twice(peer):
    """The second of two entries with one identifier."""
    ring = peer.make()
    for ahead in (0, 1):
        ring.post(entry_of(READ, DATA, cid=5), ahead=ahead)
    peer.link.tail(1, 2)
    posted = peer.link.wait(lambda: ring.new(ring.cq + 16), "the second command is not done")
    return status_of(posted), 0


def others():
    """What QEMU does otherwise: a name, status and DW0 by PROFILE.md and in QEMU, what sends it, and what is said of the drive."""
    yield "Abort of a command under way", (GOOD, 0), (GOOD, 1), aborted, ",throttling.iops-total=1"
    yield "Abort on a queue that is not there", (GOOD, 1), (FIELD, 1), sent([(ABORT, 9)]), ""
    yield "two entries with one identifier", (CONFLICT, 0), (GOOD, 0), twice, ""
    yield "Create CQ at no multiple of 4,096", (FIELD, 0), (OFFSET, 0), sent([(CREATE_CQ, SIZE | 1, 1, RINGS + 64)]), ""
    yield "Create CQ of another size than queue 0", (BAD_SIZE, 0), (GOOD, 0), sent([(CREATE_CQ, (8 - 1) << 16 | 1, 1, RINGS)]), ""
    yield "Create SQ on a completion queue of another number", (NO_CQ, 0), (GOOD, 0), sent([MADE_CQ, (CREATE_SQ, SIZE | 2, 1 << 16 | 1, RINGS + PAGE)]), ""
    yield "Create SQ on completion queue 0", (NO_QUEUE, 0), (NO_CQ, 0), sent([(CREATE_SQ, SIZE | 1, 1, RINGS)]), ""
    yield "Delete CQ that is not there", (NO_QUEUE, 0), (NO_CQ, 0), sent([(DELETE_CQ, 1)]), ""


def admin_told(name, here, there, send, drive):
    """Tells a case that QEMU does otherwise, and whether it came as it is listed."""
    came = answer(send, drive)
    words = [f"{said(status)} with DW0 {dw0}" for status, dw0 in (here, came)]
    print(f"qemu: {name}: {words[0]} by PROFILE.md, {words[1]} in QEMU{'' if came == there else ', which is not what is listed'}")
    return came == there
