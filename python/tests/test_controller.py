"""A controller over a pool that Python lays: entries, a list, and a refusal of each kind."""

import array
import ctypes
import struct

import pytest

from nvmesgl import Code, Refused, State, Step
from nvmesgl.controller import Controller, Next, Regions, StepKind
from refusals import refused

PAGE = 4096
SUBMISSIONS, COMPLETIONS, DATA = 2 * PAGE, 3 * PAGE, 4 * PAGE
HIGH = 1 << 32


def lay(pool, slot, opcode, cid, address, slba=0, blocks=1):
    """Lays an entry of queue 1: SGL1 is one Data Block."""
    sgl = struct.pack("<QIBBBB", address, 512 * blocks, 0, 0, 0, 0)
    entry = struct.pack("<BBHIQQ", opcode, 0x40, cid, 1, 0, 0) + sgl + struct.pack("<QIIII", slba, blocks - 1, 0, 0, 0)
    pool[SUBMISSIONS + 64 * slot : SUBMISSIONS + 64 * slot + 64] = entry


def to_rest(controller, pool):
    """Does all that there is to do, and returns what it was."""
    made = []
    while (step := controller.next(pool)).kind != StepKind.REST:
        controller.do(step, pool)
        made.append(step.kind)
    return made


def ends(pool, count):
    """The identifiers and statuses of the first completions of queue 1."""
    found = [struct.unpack_from("<IIHHHH", pool, COMPLETIONS + 16 * slot) for slot in range(count)]
    return [(end[4], end[5] >> 1) for end in found]


def test_a_write_and_a_read():
    pool = bytearray(16 * PAGE)
    with Controller([(0, 1), (2, 3)], blocks=8) as controller:
        assert controller.next(pool) == Next(StepKind.REST, 0, None)
        pool[DATA : DATA + 512] = bytes(range(256)) * 2
        lay(pool, 0, 1, 7, DATA, slba=3)
        lay(pool, 1, 2, 8, DATA + PAGE, slba=3)
        controller.tail(1, 1)
        assert to_rest(controller, pool)[0] == StepKind.FETCH
        assert controller.blocks(3, 1) == bytes(range(256)) * 2
        controller.tail(1, 2)
        to_rest(controller, pool)
        assert pool[DATA + PAGE : DATA + PAGE + 512] == bytes(range(256)) * 2
        assert ends(pool, 2) == [(7, 0), (8, 0)]
        controller.head(1, 2)


def test_step_by_step():
    pool = bytearray(16 * PAGE)
    with Controller([(0, 1), (2, 3)], blocks=8) as controller:
        lay(pool, 0, 2, 5, DATA)
        controller.tail(1, 1)
        assert controller.fetch(1, pool) == Step(5, [2])
        assert controller.command(1, 5).status is None
        states = [controller.walk(1, 5, pool).state]
        while states[-1] == State.WALK_MORE:
            states.append(controller.walk(1, 5, pool).state)
        assert states[-1] == State.WALK_END
        assert controller.command(1, 5).status == (0, 0)
        assert controller.complete(1, 5, pool).touched == [3]


def test_regions():
    low, high = bytearray(16 * PAGE), bytearray(2 * PAGE)
    with Controller([(0, 1), (2, 3)], blocks=8) as controller:
        guest = Regions([(0, low), (HIGH, high)])
        assert len(guest) == 2
        assert controller.next(guest) == Next(StepKind.REST, 0, None)
        high[:512] = bytes(range(256)) * 2
        lay(low, 0, 1, 7, HIGH, slba=3)
        lay(low, 1, 2, 8, HIGH + 2 * PAGE - 512, slba=3)
        for tail in range(1, 3):
            controller.tail(1, tail)
            to_rest(controller, guest)
        assert controller.blocks(3, 1) == bytes(range(256)) * 2
        assert high[-512:] == bytes(range(256)) * 2
        # The last byte of this one is in no region. Those in the page before it are moved, and then the command ends.
        lay(low, 2, 2, 9, HIGH + 2 * PAGE - 511, slba=3)
        controller.tail(1, 3)
        to_rest(controller, guest)
        assert high[-512:] == bytes(1) + (bytes(range(256)) * 2)[:511]
        assert ends(low, 3) == [(7, 0), (8, 0), (9, 4)]


def test_regions_by_a_list():
    low, first, second = bytearray(16 * PAGE), bytearray(100), array.array("I", [0xFFFFFFFF] * 256)
    first[:] = b"\xff" * 100
    with Controller([(0, 1), (2, 3)], blocks=8) as controller:
        guest = [(0, low), (HIGH, first), (HIGH, second), (0, bytearray())]
        lay(low, 0, 2, 5, HIGH)
        controller.tail(1, 1)
        assert controller.fetch(1, guest) == Step(5, [2])
        states = [controller.walk(1, 5, guest).state]
        while states[-1] == State.WALK_MORE:
            states.append(controller.walk(1, 5, guest).state)
        assert controller.complete(1, 5, guest).touched == [3]
        assert first == bytes(100)
        assert second.tobytes() == b"\xff" * 100 + bytes(412) + b"\xff" * 512
        controller.tail(1, 2)
        refused(Code.SLOT_OUT, controller.fetch, 1, [])
        with pytest.raises(ctypes.ArgumentError):
            controller.next([(-1, low)])
        with pytest.raises(TypeError):
            controller.next([(0, bytes(low))])


def test_refusals():
    pool = bytearray(16 * PAGE)
    with Controller([(0, 1), (2, 3)], blocks=8) as controller:
        refused(Code.BAD_DOORBELL, controller.tail, 1, 4)
        refused(Code.BAD_DOORBELL, controller.head, 1, 1)
        refused(Code.NO_QUEUE, controller.tail, 2, 0)
        refused(Code.IDLE, controller.fetch, 1, pool)
        refused(Code.NO_JOB, controller.walk, 1, 0, pool)
        refused(Code.NO_JOB, controller.command, 1, 0)
        refused(Code.NO_BLOCKS, controller.blocks, 8, 1)
        with pytest.raises(BufferError):
            controller.next(memoryview(pool)[::2])
        with pytest.raises(TypeError):
            controller.next(bytes(pool))
        controller.reset()
    refused(Code.CLOSED_HANDLE, controller.reset)
    with pytest.raises(Refused):
        Controller([(0, 1)], entries=1)
