"""The part `qemu` of bench/peers: commands of this project's driver, and entries and lists of one's own, given to QEMU's NVMe controller.

The pool stands in the guest's memory at the same addresses, so every byte of an entry and of a list is the same on both sides. No guest runs.
"""

import os
import random
import re
import tempfile

from admin import alike
from entries import asked, page_bytes, request, shell_of
from lists import LISTS, PAGE, arbitrary, explained
from otherwise import otherwise
from peer import ENTRIES, Missing, Peer, Ring, said, status_of

# The I/O queues of the shell's world, by entries.OPTIONS.
QUEUES = [1, 2]
OWNER = re.compile(r"(\d+)-(\d+) (command|queue) (\d+) (?:\d+ )?(\w+)$")


def differences(here, there):
    """In what two answers differ. What stands in the pool behind a command that was refused means nothing, but for its list."""
    if here.status != there.status:
        return [f"status {said(here.status)} here, {said(there.status)} in QEMU"]
    begin = 0 if here.status == 0 else LISTS
    names = ["pool"] * (here.memory[begin:] != there.memory[begin:]) + ["image"] * (here.image != there.image)
    return [f"the {name} after status {said(here.status)}" for name in names]


class Tally:
    """How many were alike; the first ones that were not are told."""

    def __init__(self, name):
        self.name, self.alike, self.whole, self.statuses = name, 0, 0, {}

    def count(self, status, others, what):
        """Counts one."""
        self.whole += 1
        self.alike += not others
        self.statuses[said(status)] = self.statuses.get(said(status), 0) + 1
        if others and self.whole - self.alike <= 5:
            print(f"qemu: {self.name} {self.whole}: {', '.join(others)}: {what}")

    def good(self):
        """Tells the numbers, and whether all were alike."""
        kinds = ", ".join(f"{status} {count}" for status, count in sorted(self.statuses.items()))
        print(f"qemu: {self.name}: {self.alike} of {self.whole} as in QEMU ({kinds})")
        return self.alike == self.whole > 0


def own_lists(program, count):
    """Whether entries and lists of one's own have the same status, data and image as by `nvmesgl explain`."""
    tally = Tally("entries and lists of their own")
    with tempfile.TemporaryDirectory() as folder:
        peer = Peer(folder, 64)
        with peer.qemu:
            ring = peer.make()
            for case in arbitrary(count):
                here, there = explained(program, case), peer.answer(ring, case)
                tally.count(here.status, differences(here, there), case.entry.hex())
    return tally.good()


class World:
    """A shell's world, whose pool is mirrored in QEMU's memory: the commands of this project's driver go to both controllers, its admin commands too."""

    def __init__(self, program, folder):
        self.folder = folder
        self.shell = shell_of(program)
        self.peer = Peer(folder, 64)
        self.admin = Tally("admin commands of the driver")
        self.reset()

    def reset(self):
        """Resets both controllers, and makes the queues again: the admin queue by registers, at the pages that the driver has it in."""
        asked(self.shell, ["reset"])
        self.peer.link.disable()
        self.rings = {0: self.ring_of(0)}
        self.peer.put(self.pages([self.rings[0].sq // PAGE, self.rings[0].cq // PAGE]))
        self.peer.link.enable(self.rings[0].sq, self.rings[0].cq, ENTRIES)
        for q in QUEUES:
            self.make(q)

    def owned(self, *queues):
        """The pages of these queues and of their commands: which part, queue and number."""
        for found in filter(None, map(OWNER.match, self.shell.ask(".owners"))):
            if int(found[4]) in queues:
                for number in range(int(found[1]), int(found[2]) + 1):
                    yield found[5], int(found[4]), number

    def ring_of(self, q):
        """A queue where the driver has it now, empty."""
        halves = {part: number * PAGE for part, _, number in self.owned(q)}
        return Ring(self.peer, q, halves["sq"], halves["cq"])

    def make(self, q):
        """Makes a queue by the driver's commands."""
        self.send(f"create_cq {q}", q)
        self.send(f"create_sq {q}", q)
        self.rings[q] = self.ring_of(q)

    def delete(self, q):
        """Deletes a queue by the driver's commands."""
        self.send(f"delete_sq {q}", q)
        asked(self.shell, [f"retire {q}"])
        self.send(f"delete_cq {q}", q)

    def send(self, line, q):
        """Sends one of the driver's admin commands, which names a queue, to both controllers."""
        asked(self.shell, [line])
        status, others = self.exchange(0, list(self.owned(0, q)), ["cq"])
        self.admin.count(status, others, line)
        asked(self.shell, ["reap 0"])

    def pages(self, numbers):
        """The bytes of these pages of the world's pool."""
        return {number: page_bytes(self.shell, number) for number in numbers}

    def image(self):
        """The world's image."""
        path = os.path.join(self.folder, "saved")
        self.shell.ask(f".save {path}")
        with open(path, "rb") as file:
            return file.read()

    def exchange(self, q, owned, written):
        """Lets both controllers do what was submitted on a queue; they may write the parts `written`. The status here, and in what they differ."""
        ring, here = self.rings[q], self.pages([number for _, _, number in owned])
        self.peer.put(here)
        asked(self.shell, [f"ring {q}", ".serve"])
        at = ring.cq + 16 * ring.slot
        posted = ring.ring()
        here.update(self.pages([number for part, own, number in owned if own == q and part in written]))
        there = self.peer.pages(list(here))
        own = here[at // PAGE][at % PAGE : at % PAGE + 16]
        return status_of(own), compared(own, posted, here, there, at)

    def carry(self, rng):
        """Carries one command out on both sides: its status here, in what they differ, and its line."""
        q, lines = request(rng, most=6, buckets=False)
        kind = lines[0].split()[2]
        asked(self.shell, lines)
        status, others = self.exchange(q, list(self.owned(q)), ["cq", "data"] if kind == "read" else ["cq"])
        if kind == "write" and self.image() != self.peer.image():
            others.append("the image")
        asked(self.shell, [f"reap {q}", f"collect {q} 0", f"release {q} 0"])
        return status, others, lines[0]


def compared(own, posted, here, there, at):
    """In what two completions and the pages behind them differ. CRD, More and DNR may say what they like."""
    others = []
    if own[:14] != posted[:14] or (own[14] | own[15] << 8) != (posted[14] | posted[15] << 8) & 0x0FFF:
        others.append(f"completion {own.hex()} here, {posted.hex()} in QEMU")
    there = dict(there)
    page, begin = there[at // PAGE], at % PAGE
    there[at // PAGE] = page[:begin] + own + page[begin + 16 :]
    if status_of(own) == 0:
        others += [f"page {number}" for number in here if here[number] != there[number]]
    return others


def commands(program, count):
    """Whether the driver's commands have the same completion, data and image as in QEMU; now and then a queue is deleted and made again, or all is reset."""
    tally = Tally("commands of the driver")
    with tempfile.TemporaryDirectory() as folder:
        world, rng = World(program, folder), random.Random(1)
        with world.peer.qemu:
            for number in range(count):
                tally.count(*world.carry(rng))
                if number % 100 == 50:
                    world.reset()
                elif number % 10 == 9:
                    world.delete(number // 10 % 2 + 1)
                    world.make(number // 10 % 2 + 1)
        world.shell.close()
    return all([world.admin.good(), tally.good()])


def qemu(program, shows_others, count=1000):
    """Whether commands of both kinds, so many of each, come out as in QEMU; or whether QEMU does otherwise what is listed."""
    try:
        if shows_others:
            return otherwise(program)
        good = [alike(), commands(program, count), own_lists(program, count)]
        return all(good)
    except Missing as why:
        print(f"qemu: {why}")
        return False
