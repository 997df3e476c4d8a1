"""Commands with lists of their own, each with its data and its blocks: arbitrary ones, about half of them with one mistake.

And what `nvmesgl explain` says of each, as what it leaves behind: a status, the pool and the image.
"""

import random
import re
import struct
import subprocess
from typing import Dict, List, NamedTuple, Tuple

BLOCK, PAGE = 512, 4096
# The pool: data in the pages from 1 on, segments in those from 16 on, and none in page 0.
PAGES, BLOCKS, DATA, LISTS = 32, 64, PAGE, 16 * PAGE
READ, WRITE, COMPARE = 2, 1, 5
DATA_BLOCK, BUCKET, SEGMENT, LAST = 0, 1, 2, 3
# An address that neither side has: behind all memory.
NOWHERE = 1 << 40
# Opcodes of no I/O command that either side knows.
OPCODES = [0x03, 0x07, 0x0A, 0x10, 0x2A, 0x7E, 0x80, 0xC3, 0xFF]
MOVED = re.compile(r"descriptor \d+, .*: Data Block, address (\w+)h, length \d+, for (\d+) bytes$")
ENDED = re.compile(r"(?:accepted|refused): (\d):(\w+) ")


class Case(NamedTuple):
    """A command: its entry, the bytes of pages that are not zeros, and those of blocks."""

    entry: bytes
    pages: Dict[int, bytes]
    blocks: Dict[int, bytes]

    def text(self):
        """The lines of `nvmesgl explain`. Data and blocks are told for a Compare alone: no other status rests on them."""
        compares = self.entry[0] == COMPARE
        lines = [f"pages {PAGES}", f"blocks {BLOCKS}", f"sqe {self.entry.hex()}"]
        lines += [f"page {number} {typed(data)}" for number, data in sorted(self.pages.items()) if compares or number * PAGE >= LISTS]
        lines += [f"block {number} {typed(data)}" for number, data in sorted(self.blocks.items()) if compares]
        return "\n".join(lines) + "\n"

    def memory(self):
        """The pool."""
        return spread(self.pages, PAGES, PAGE)

    def image(self):
        """The image."""
        return spread(self.blocks, BLOCKS, BLOCK)


class Answer(NamedTuple):
    """What became of a command: its status (SCT and SC in bits 10:0), the pool and the image behind it."""

    status: int
    memory: bytes
    image: bytes


def typed(data):
    """Bytes as `explain` takes them, without the zeros at their end."""
    spans = re.split(b"(\0{8,})", data.rstrip(b"\0") or b"\0")
    return " ".join(f"00*{len(span)}" if at % 2 else span.hex() for at, span in enumerate(spans) if span)


def spread(parts, count, size):
    """The bytes of so many pages or blocks."""
    return b"".join(parts.get(number, b"").ljust(size, b"\0") for number in range(count))


def split(data, size):
    """The pages or blocks of these bytes that are not all zeros."""
    parts = {at // size: data[at : at + size] for at in range(0, len(data), size)}
    return {number: part for number, part in parts.items() if any(part)}


def entry_of(opcode, sgl1, slba=0, blocks=1, nsid=1, flags=0x40, cid=0, aside=(0, 0, 0, 0, 0)):
    """A submission entry. `aside` is what nobody looks at: CDW2 and CDW3, MPTR, CDW12 bits 31:16, CDW13, CDW14 and CDW15."""
    first = struct.pack("<BBHIQQ", opcode, flags, cid, nsid, aside[0], aside[1])
    return first + sgl1 + struct.pack("<QIIQ", slba, (blocks - 1) & 0xFFFF | aside[2] << 16, aside[3], aside[4])


def descriptor(kind, address, length, aside=0, subtype=0):
    """A descriptor of 16 bytes; `aside` stands in the reserved ones."""
    return struct.pack("<QI", address, length) + aside.to_bytes(3, "little") + bytes([kind << 4 | subtype])


def some(rng, count):
    """So many arbitrary bytes."""
    return rng.getrandbits(8 * count).to_bytes(count, "little")


class Segment:
    """A segment: its address, and its descriptors as lists [kind, address, length]. The last one of all but the last segment is a link."""

    def __init__(self, at, descriptors):
        self.at, self.descriptors = at, descriptors


class Command:
    """An arbitrary command. `case` spells it; whoever wants a mistake in it changes it before."""

    def __init__(self, rng):
        self.rng = rng
        self.kind = rng.choice([READ, WRITE, COMPARE])
        self.blocks = rng.choice([1, 1, 2, 3, rng.randrange(1, 9), rng.randrange(1, 9 if self.kind == COMPARE else 33)])
        self.slba = rng.randrange(BLOCKS - self.blocks + 1)
        self.fields = {}
        self.parts = self._parts()
        self.segments = self._segments([[DATA_BLOCK, at, size] for at, size in self.parts])
        self.image = {number: some(rng, BLOCK) for number in range(self.slba, self.slba + self.blocks)}

    def _parts(self) -> List[Tuple[int, int]]:
        """Where the data lies: ranges of any address and length, none over another, now and then one of no byte."""
        rng, need = self.rng, self.blocks * BLOCK
        count = rng.choice([1, 2, 3, rng.randrange(1, 13), rng.randrange(1, 41), 1 if rng.random() < 0.9 else 300])
        cuts = sorted(rng.sample(range(1, need), min(count - 1, need - 1)))
        sizes = [end - begin for begin, end in zip([0] + cuts, cuts + [need])]
        room, at, parts = LISTS - DATA - need, DATA, []
        for size in sizes:
            gap = rng.randrange(room // len(sizes) + 1)
            parts.append((at + gap, size))
            at += gap + size
        rng.shuffle(parts)
        for _ in range(rng.choice([0, 0, 0, 1, 2])):
            parts.insert(rng.randrange(len(parts)), (rng.randrange(LISTS), 0))
        return parts

    def _segments(self, descriptors):
        """The descriptors in up to four segments, no two neighbours of the same length; none where one stands in the entry itself."""
        rng = self.rng
        if len(descriptors) == 1 and rng.random() < 0.7:
            return [Segment(None, descriptors)]
        most = 1 if len(descriptors) > 200 else rng.randrange(1, 5)
        sizes, left = [], len(descriptors)
        while len(sizes) + 1 < most and left > 1:
            own = rng.randrange(1, left)
            if sizes and own == sizes[-1]:
                break
            sizes.append(own)
            left -= own
        sizes.append(left)
        at, segments = LISTS, []
        for number, own in enumerate(sizes):
            at += 8 * rng.randrange(300)
            size = 16 * (own + (number + 1 < len(sizes)))
            segments.append(Segment(at, descriptors[:own]))
            descriptors, at = descriptors[own:], at + size
        self._link(segments)
        return segments

    def _link(self, segments):
        """Puts a link into the last place of each segment but the last one."""
        for number, segment in reversed(list(enumerate(segments[:-1]))):
            after = segments[number + 1]
            kind = LAST if number + 2 == len(segments) else SEGMENT
            segment.descriptors.append([kind, after.at, 16 * len(after.descriptors)])

    def first(self):
        """SGL1, as a list like those of segments."""
        head = self.segments[0]
        if head.at is None:
            return head.descriptors[0]
        return [LAST if len(self.segments) == 1 else SEGMENT, head.at, 16 * len(head.descriptors)]

    def case(self, sgl1=None):
        """The command's bytes."""
        rng = self.rng
        memory = bytearray(self._data())
        for segment in self.segments:
            for number, words in enumerate(segment.descriptors if segment.at is not None else []):
                memory[segment.at + 16 * number : segment.at + 16 * number + 16] = descriptor(*words, rng.getrandbits(24))
        aside = [rng.getrandbits(bits) if rng.random() < 0.5 else 0 for bits in (64, 64, 16, 32, 64)]
        fields = {"opcode": self.kind, "slba": self.slba, "blocks": self.blocks, "aside": aside, **self.fields}
        entry = entry_of(sgl1=descriptor(*(sgl1 or self.first()), rng.getrandbits(24)), **fields)
        return Case(entry, split(bytes(memory), PAGE), self.image)

    def _data(self):
        """The pool without its segments: any bytes. Of a Compare they stand where the list has them, and are mostly those of the blocks."""
        rng = self.rng
        if self.kind != COMPARE:
            return some(rng, LISTS) + bytes(LISTS)
        memory, done = bytearray(2 * LISTS), 0
        wanted = b"".join(data for _, data in sorted(self.image.items()))
        if rng.random() < 0.3:
            at = rng.randrange(len(wanted))
            wanted = wanted[:at] + bytes([wanted[at] ^ 1 << rng.randrange(8)]) + wanted[at + 1 :]
        for at, size in self.parts:
            memory[at : at + size] = wanted[done : done + size]
            done += size
        return bytes(memory)


def field(**values):
    """A mistake in fields of the entry."""
    def spoil(rng, command):
        command.fields = {name: value(rng) for name, value in values.items()}
        return command.case()
    return spoil


def spoiled_link(rng, command, spoil):
    """A mistake in a link: SGL1, or the link in the last place of a segment but the last. None where there is no link."""
    links = [segment.descriptors[-1] for segment in command.segments[:-1]]
    first = list(command.first())
    if command.segments[0].at is None:
        return None
    chosen = rng.choice([first, *links])
    spoil(chosen)
    return command.case(first)


def bad_length(rng, command):
    """A link whose length is zero or no multiple of 16."""
    return spoiled_link(rng, command, lambda link: link.__setitem__(2, rng.choice([0, 1, 8, 24, link[2] + rng.randrange(1, 16)])))


def no_segment(rng, command):
    """A link to an address where no memory is."""
    return spoiled_link(rng, command, lambda link: link.__setitem__(1, NOWHERE + 8 * rng.getrandbits(30)))


def past_addresses(rng, command):
    """A Data Block or a link that ends above 2^64."""
    long = [words for segment in command.segments for words in segment.descriptors if words[2] > 8]
    if not long:
        return None
    words = rng.choice(long)
    words[1] = (1 << 64) - 8 * rng.randrange(1, (words[2] - 1) // 8 + 1)
    return command.case()


def inner_place(rng, segments):
    """A place of a segment that is not its last one, and whose bytes are wanted. None where there is none."""
    places = [words for segment in segments if segment.at is not None for words in segment.descriptors[:-1] if words[2]]
    return rng.choice(places) if places else None


def unknown_type(rng, command):
    """A type above 3h, before the last place of a segment."""
    words = inner_place(rng, command.segments)
    if words is None:
        return None
    words[0] = rng.randrange(4, 16)
    return command.case()


def early_link(rng, command):
    """A link before the last place of a segment that a Segment descriptor names."""
    words = inner_place(rng, command.segments[:-1])
    if words is None:
        return None
    words[:] = [rng.choice([SEGMENT, LAST]), LISTS, 16]
    return command.case()


def late_link(rng, command):
    """A link in the last place of a last segment, the only one."""
    if len(command.segments) > 1 or command.segments[0].at is None:
        return None
    command.segments[0].descriptors[-1][:] = [rng.choice([SEGMENT, LAST]), LISTS, 16]
    return command.case()


def too_short(rng, command):
    """A list with fewer bytes than the command."""
    words = command.segments[-1].descriptors[-1]
    if words[2] == 0:
        return None
    words[2] -= rng.randrange(1, words[2] + 1)
    return command.case()


def long_end(rng, command):
    """No mistake: the last Data Block is longer than what is wanted of it."""
    words = command.segments[-1].descriptors[-1]
    if words[2] == 0:
        return None
    words[2] += rng.randrange(1, 1 << 20)
    return command.case()


SPOILS = [
    field(opcode=lambda rng: rng.choice(OPCODES)),
    field(nsid=lambda rng: rng.choice([0, 257, 4096, 0xFFFFFFFE])),
    field(flags=lambda rng: 0x40 | rng.randrange(1, 4)),
    field(flags=lambda rng: 0xC0),
    field(blocks=lambda rng: rng.randrange(2049, 65537), slba=lambda rng: 0),
    field(slba=lambda rng: rng.choice([BLOCKS, BLOCKS + rng.randrange(1000), (1 << 64) - 1, (1 << 64) - rng.randrange(1, 100)])),
    bad_length, no_segment, past_addresses, unknown_type, early_link, late_link, too_short, long_end,
]


def arbitrary(count, seed=1):
    """So many arbitrary commands, about half of them as they should be."""
    rng = random.Random(seed)
    while count:
        command = Command(rng)
        found = command.case() if rng.random() < 0.5 else rng.choice(SPOILS)(rng, command)
        if found is not None:
            count -= 1
            yield found


def explained(program, case):
    """What `nvmesgl explain` says of a command, as what it leaves behind."""
    ran = subprocess.run([program, "explain"], input=case.text(), capture_output=True, text=True)
    lines = ran.stdout.splitlines()
    ended = next(filter(None, map(ENDED.match, lines)), None)
    if ran.returncode not in (0, 4) or ended is None:
        raise ValueError(f"explain: {ran.stderr or ran.stdout}")
    status = int(ended[1]) << 8 | int(ended[2], 16)
    moves = [(int(found[1], 16), int(found[2])) for found in map(MOVED.match, lines) if found]
    return outcome(case, status, moves)


def outcome(case, status, moves):
    """A command's answer, from its status and from which bytes its list names, in order."""
    opcode, (slba,) = case.entry[0], struct.unpack_from("<Q", case.entry, 40)
    memory, image, done = bytearray(case.memory()), bytearray(case.image()), BLOCK * slba
    for at, size in moves if status == 0 else []:
        if opcode == READ:
            memory[at : at + size] = image[done : done + size]
        elif opcode == WRITE:
            image[done : done + size] = memory[at : at + size]
        done += size
    return Answer(status, bytes(memory), bytes(image))
