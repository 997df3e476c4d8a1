"""A host against a device that Python plays: what its calls tell, how its queues are made after a reset, what the device may do with which page, and a pool
in memory of one's own."""

import ctypes
import mmap
import struct

import pytest

from nvmesgl import BlockRange, Code, Hints, Kind, OwnerKind, Piece, State
from nvmesgl.host import PAGE_BYTES, Doorbell, Host, PageUse, Place, QueueState, Right, Rings, Run
from refusals import refused


class Device:
    """A device that answers each entry with success, or with what `end` says above the phase, and a Read with bytes of one value at its first page."""

    def __init__(self, host):
        self.host = host
        self.rings = {0: host.rings(0)}
        self.heads = {0: 0}
        self.tails = {0: (0, 1)}
        self.end = 0

    def ring(self, bell):
        """Hears a doorbell: takes each new entry, and posts its completion."""
        q, half = divmod((bell.offset - 0x1000) // 4, 2)
        while half == 0 and self.heads[q] != bell.value:
            entry = self.host.read(self.rings[q].submission + 64 * self.heads[q], 64)
            self.heads[q] = (self.heads[q] + 1) % self.host.entries
            self.take(q, entry)

    def take(self, q, entry):
        """Does a command, and posts its completion."""
        opcode, cid = entry[0], struct.unpack_from("<H", entry, 2)[0]
        base, named = struct.unpack_from("<Q", entry, 24)[0], struct.unpack_from("<H", entry, 40)[0]
        if q == 0 and opcode == 5:
            self.rings[named] = Rings(None, base)
        elif q == 0 and opcode == 1:
            self.rings[named] = Rings(base, self.rings[named].completion)
            self.heads[named], self.tails[named] = 0, (0, 1)
        elif q != 0 and opcode == 2:
            self.host.write(base, bytes([0x5A]) * 512)
        slot, phase = self.tails[q]
        answer = struct.pack("<IIHHHH", 0, 0, self.heads[q], q, cid, self.end | phase)
        self.host.write(self.rings[q].completion + 16 * slot, answer)
        self.tails[q] = (slot + 1, phase) if slot + 1 < self.host.entries else (0, phase ^ 1)


def test_calls():
    with Host(pages=32, queues=2, entries=8) as host:
        assert host.rings(0) == Rings(0, 4096)
        assert host.ring(1) == Doorbell(0x1000 + 8, 0)
        host.reset()
        assert host.queue(1).state == QueueState.GONE
        refused(Code.NO_QUEUE, host.ring, 1)
        device = Device(host)
        for make, state in ((lambda q: host.create_cq(q, 3), QueueState.HALF_MADE), (host.create_sq, QueueState.LIVE)):
            cid = make(1)
            device.ring(host.ring(0))
            told = host.reap(0)
            assert (told.state, told.cid, told.doorbell.offset) == (State.REAP_ADMIN_DONE, cid, 0x1004), told
            assert host.queue(1).state == state
        assert host.rings(1) == device.rings[1]
        assert host.read(44, 4) == struct.pack("<HH", 3, 3)  # CDW11 of the first entry: in consecutive pages, with interrupts, on vector 3
        rings = host.queue(1)
        assert [len(pages) for pages in (rings.submission, rings.completion)] == [1, 1]
        assert (host.may(rings.submission[0]), host.may(rings.completion[0])) == (Right.READ, Right.WRITE)
        assert host.queue(2).submission == host.queue(2).completion == range(0)

        cid = host.reserve(1, Kind.READ, 0, 1, [Piece(8, 512)], 7 << 61).cid
        data = [p for p in range(32) if host.owner(p).kind == OwnerKind.DATA]
        assert host.data_place(1, cid, 0) == Place(data[0], 8, 512)
        refused(Code.NO_PIECE, host.data_place, 1, cid, 1)
        assert host.runs(1, cid) == [Run(range(data[0], data[0] + 1), Right.NOTHING)] and host.may(data[0]) == Right.NOTHING
        refused(Code.PAGE_OUT, host.read, 4096 * data[0], 1)
        refused(Code.NOT_BUILT, host.submit, 1, cid)
        host.build(1, cid)
        host.submit(1, cid)
        assert host.read(4096 * data[0], 4096) == bytes(4096)
        assert host.runs(1, cid) == [Run(range(data[0], data[0] + 1), Right.WRITE)] and host.may(data[0]) == Right.WRITE
        assert not host.ready(1)
        refused(Code.NOT_YET, host.collect, 1, cid)
        device.ring(host.ring(1))
        assert host.ready(1)
        told = host.reap(1)
        assert host.may(data[0]) == Right.NOTHING and not host.ready(1)
        assert (told.state, told.cid, told.doorbell, told.tag) == (State.REAP_DONE, cid, Doorbell(0x100C, 1), 7 << 61), told
        assert host.reap(1) == (State.REAP_EMPTY, None, None, None, None, 0)
        collected = host.collect(1, cid)
        assert collected == (0, 0) and collected.tag == 7 << 61
        assert host.gather(1, cid) == bytes([0x5A]) * 512
        host.release(1, cid)
        assert host.runs(1, cid) == [] and host.may(32) == Right.NOTHING
        refused(Code.NO_PIECE, host.data_place, 1, cid, 0)
        assert host.counts().data_pages == 0 and sum(host.counts()[1:]) == 32

        for count in (0, 4097):
            refused(Code.BAD_LENGTH, host.read, 0, count)
            refused(Code.BAD_LENGTH, host.write, 0, bytes(count))
        refused(Code.PAGE_OUT, host.read, 32 * 4096 - 1, 2)
        refused(Code.NO_PAGE, host.owner, 32)
        refused(Code.NO_QUEUE, host.queue, 3)
        refused(Code.NO_VALUE, host.cancel, 1, cid)
        host.write(host.rings(1).completion + 16 * host.queue(1).completion_head, struct.pack("<IIHHHH", 0, 0, 0, 1, 7, 1))
        assert host.reap(1).state == State.REAP_BAD_HEAD
        with pytest.raises(ctypes.ArgumentError):
            host.ring(70000)
    refused(Code.CLOSED_HANDLE, host.ring, 1)


def test_a_namespace_and_flags():
    """They stand in the entry: NSID in bytes 4 to 7, Force Unit Access and Limited Retry in bits 30 and 31 of CDW12."""
    with Host(pages=32, entries=8) as host:
        device = Device(host)
        device.rings[1], device.heads[1], device.tails[1] = host.rings(1), 0, (0, 1)
        for nsid, of in ((1, {}), (1, {"nsid": 0}), (7, {"nsid": 7}), (0xFFFFFFFF, {"nsid": 0xFFFFFFFF})):
            for flags in range(4):
                at = host.rings(1).submission + 64 * host.queue(1).submission_tail
                cid = host.reserve(1, Kind.WRITE, 5 << 40, 2, [Piece(0, 1024)], 9, **of, force_unit_access=flags & 1 == 1, limited_retry=flags & 2 == 2).cid
                host.build(1, cid)
                host.submit(1, cid)
                assert struct.unpack("<HHI", host.read(at, 8)) == (0x4001, cid, nsid)
                assert struct.unpack("<QI", host.read(at + 40, 12)) == (5 << 40, flags << 30 | 1)
                device.ring(host.ring(1))
                assert host.reap(1).tag == 9 and host.collect(1, cid) == (0, 0)
                host.release(1, cid)
        refused(Code.NO_KIND, host.reserve, 1, 7, 0, 1, [Piece(0, 512)])
        with pytest.raises(ctypes.ArgumentError):
            host.reserve(1, Kind.READ, 0, 1, [Piece(0, 512)], nsid=-1)


def test_a_range():
    """Its bytes are the standard's: 4 of Context Attributes, 4 of the number of blocks, 8 of the first block."""
    assert BlockRange(0x1112131415161718, 0x01020304).to_bytes() == bytes.fromhex("00000000 04030201 1817161514131211")
    assert BlockRange(slba=(1 << 64) - 1, blocks=(1 << 32) - 1).to_bytes() == bytes(4) + b"\xff" * 12
    for slba, blocks in ((1 << 64, 1), (-1, 1), (0, 1 << 32), (0, -1)):
        with pytest.raises(ctypes.ArgumentError):
            BlockRange(slba, blocks).to_bytes()


@pytest.mark.parametrize(
    "count, pieces, descriptor_type",
    [(1, [Piece(0, 16)], 0x00), (3, [Piece(8, 48)], 0x00), (3, [Piece(4080, 16), Piece(0, 100, True), Piece(64, 32)], 0x30), (256, [Piece(0, 4096)], 0x00)],
)
def test_a_deallocate(count, pieces, descriptor_type):
    """CDW10 has the number of ranges less one, CDW11 the attribute Deallocate (bit 2), and its pages the ranges' bytes; neither a first block nor a flag is in its entry."""
    content = b"".join(BlockRange(8 * number, number + 1).to_bytes() for number in range(count))
    with Host(pages=32, entries=8) as host:
        device = Device(host)
        device.rings[1], device.heads[1], device.tails[1] = host.rings(1), 0, (0, 1)
        for wrong, code in ((0, Code.BAD_COUNT), (257, Code.BAD_COUNT), (count % 256 + 1, Code.LENGTH_MISMATCH)):
            refused(code, host.reserve, 1, Kind.DEALLOCATE, 0, wrong, pieces)
        at = host.rings(1).submission + 64 * host.queue(1).submission_tail
        one = host.reserve(1, Kind.DEALLOCATE, 7, count, pieces, 9, nsid=2, block_bytes=4096, force_unit_access=True)
        host.fill(1, one.cid, content)
        host.build(1, one.cid)
        host.submit(1, one.cid)
        places = [host.data_place(1, one.cid, piece) for piece in range(one.data_pages)]
        assert b"".join(host.read(4096 * place.page + place.offset, place.len) for place in places) == content
        assert all(run.right == Right.READ for run in host.runs(1, one.cid))
        entry = struct.unpack("<16I", host.read(at, 64))
        assert entry[:6] == (0x4009 | one.cid << 16, 2, 0, 0, 0, 0) and entry[9] == descriptor_type << 24
        assert entry[10:] == (count - 1, 4, 0, 0, 0, 0)
        if one.chain_pages == 0:
            assert entry[6:9] == (4096 * places[0].page + places[0].offset, 0, 16 * count)
        device.ring(host.ring(1))
        assert host.reap(1).tag == 9 and host.collect(1, one.cid) == (0, 0) and host.gather(1, one.cid) == b""
        host.release(1, one.cid)


def test_admin():
    """Identify through queue 0, and what the host keeps to itself."""
    with Host(pages=32, entries=8) as host:
        rings, queue = host.rings(0), host.queue(0)
        refused(Code.HOSTS_OWN, host.reserve_admin, 0x00, [1])
        refused(Code.LENGTH_MISMATCH, host.reserve_admin, 0x06, [1], page=PageUse.IN)
        cid = host.reserve_admin(0x06, [1], page=PageUse.IN, count=4096).cid
        host.build(0, cid)
        host.submit(0, cid)
        (run,) = host.runs(0, cid)
        assert len(run.pages) == 1 and run.right == Right.WRITE
        page = run.pages[0]
        entry = struct.unpack("<16I", host.read(rings.submission + 64 * queue.submission_tail, 64))
        assert entry[0] == 0x06 | cid << 16 and entry[6] == 4096 * page and entry[10:] == (1, 0, 0, 0, 0, 0)
        host.write(4096 * page, b"ab" * 2048)
        host.write(rings.completion, struct.pack("<IIHHHH", 5, 0, 1, 0, cid, 1))
        reaped = host.reap(0)
        assert (reaped.cid, reaped.status, reaped.dw0) == (cid, (0, 0), 5)
        assert host.collect(0, cid) == (0, 0) and host.gather(0, cid) == b"ab" * 2048
        host.release(0, cid)


def test_other_blocks():
    """NLB and the bytes of the pieces are in blocks of the namespace."""
    with Host(pages=32, entries=8) as host:
        for size in (512, 1024, 2048, 4096):
            at = host.rings(1).submission + 64 * host.queue(1).submission_tail
            refused(Code.LENGTH_MISMATCH, host.reserve, 1, Kind.WRITE, 3, 1 + 4096 // size, [Piece(0, 4096)], block_bytes=size)
            refused(Code.BAD_COUNT, host.reserve, 1, Kind.WRITE, 3, 1 + 1048576 // size, [Piece(0, 4096)], block_bytes=size)
            cid = host.reserve(1, Kind.WRITE, 3, 4096 // size, [Piece(0, 4096)], block_bytes=size).cid
            host.build(1, cid)
            host.submit(1, cid)
            assert struct.unpack("<QI", host.read(at + 40, 12)) == (3, 4096 // size - 1)
        refused(Code.BAD_OPTION, host.reserve, 1, Kind.WRITE, 3, 1, [Piece(0, 520)], block_bytes=520)


def test_hints():
    with Host(pages=32, entries=8) as host:
        device = Device(host)
        device.rings[1], device.heads[1], device.tails[1] = host.rings(1), 0, (0, 1)
        # 0:02, a Command Retry Delay of 2, More and Do Not Retry
        device.end = 0xE004
        cid = host.send(1, Kind.READ, 0, [bytes(512)]).cid
        device.ring(host.ring(1))
        assert host.reap(1).status == (0, 2)
        collected = host.collect(1, cid)
        assert collected == (0, 2) and collected.hints == Hints(2, True, True)
        host.release(1, cid)
        cid = host.send(1, Kind.READ, 0, [bytes(512)]).cid
        device.ring(host.ring(1))
        [ended] = host.poll(1).ended
        assert ended.status == (0, 2) and ended.hints == Hints(2, True, True)
        host.release(1, cid)
        cid = host.send(1, Kind.READ, 0, [bytes(512)]).cid
        host.reset()
        collected = host.collect(1, cid)
        assert collected == (0, 8) and collected.hints == Hints()
        host.release(1, cid)


def test_commands_of_several_buffers():
    with Host(pages=32, entries=8) as host:
        device = Device(host)
        device.rings[1], device.heads[1], device.tails[1] = host.rings(1), 0, (0, 1)
        content = bytes(range(256)) * 18
        write = host.send(1, Kind.WRITE, 0, [content[:5], b"", bytearray(content[5:4100]), memoryview(content)[4100:]], 1 << 63)
        assert write.data_pages == 2
        data = [host.data_place(1, write.cid, piece) for piece in range(2)]
        assert b"".join(host.read(4096 * at.page + at.offset, at.len) for at in data) == content
        read = host.send(1, Kind.READ, 0, [bytes(300), bytes(212)])
        assert host.poll(1) == ([], None, True)
        device.ring(host.ring(1))
        first = host.poll(1, 1)
        assert (first.doorbell, first.empty) == (Doorbell(0x100C, 1), False)
        assert [(entry.state, entry.cid, entry.status, entry.dw0, entry.tag, entry.code) for entry in first.ended] == [(State.REAP_DONE, write.cid, (0, 0), None, 1 << 63, Code.DONE)]
        rest = host.poll(1)
        assert (rest.doorbell, rest.empty, [(entry.cid, entry.tag) for entry in rest.ended]) == (Doorbell(0x100C, 2), True, [(read.cid, 0)])
        front, back = bytearray(300), bytearray(300)
        refused(Code.TOO_SHORT, host.gather_all, 1, read.cid, [front, bytearray(1)])
        assert front == bytes(300)
        assert host.gather_all(1, read.cid, [front, back]) == 512
        assert front == bytes([0x5A]) * 300 and back == bytes([0x5A]) * 212 + bytes(88)
        assert host.gather_all(1, write.cid, []) == 0
        host.release(1, write.cid)
        host.release(1, read.cid)
        cid = host.abort(1, host.send(1, Kind.COMPARE, 0, [bytes(512)]).cid)
        device.ring(host.ring(0))
        told = host.poll(0).ended
        assert [(entry.state, entry.cid, entry.dw0) for entry in told] == [(State.REAP_ADMIN_DONE, cid, 0)]
        refused(Code.BAD_COUNT, host.send, 1, Kind.READ, 0, [bytes(511)])
        refused(Code.LENGTH_MISMATCH, host.send, 1, Kind.WRITE, 0, [bytes(512), b"x"])
        left = host.send(1, Kind.READ, 0, [bytes(512)], 9).cid
        host.reset()
        collected = host.collect(1, left)
        assert collected != (0, 0) and collected.tag == 9
        refused(Code.NO_QUEUE, host.poll, 1)
        refused(Code.NO_QUEUE, host.send, 1, Kind.READ, 0, [bytes(512)])
        refused(Code.NO_KIND, host.send, 0, 7, 0, [])


def test_openings_that_are_refused():
    refused(Code.BAD_CONFIG, lambda: Host(pages=7))
    why = refused(Code.NO_PAGES, lambda: Host(pages=8, queues=64))
    assert (why.need, why.free) == (130, 8)


def test_a_pool_in_memory_of_ones_own():
    """What the device writes there stands there, and what is filled there is what is sent."""
    memory = mmap.mmap(-1, 64 * PAGE_BYTES)
    for _ in range(2):
        with Host(memory=memory, queues=2, entries=70) as host:
            assert host.pages == 64 and bytes(memory) == bytes(64 * PAGE_BYTES)
            for page in range(64):
                host.write(PAGE_BYTES * page + 4000, struct.pack("<I", page + 1))
            assert [struct.unpack_from("<I", memory, PAGE_BYTES * page + 4000)[0] for page in range(64)] == list(range(1, 65))
            pieces = [Piece(64 * piece, 512) for piece in range(20)]
            cid = host.reserve(1, Kind.WRITE, 0, 20, pieces).cid
            for piece in range(20):
                place = host.data_place(1, cid, piece)
                assert (place.offset, place.len) == (64 * piece, 512)
                at = PAGE_BYTES * place.page + place.offset
                memory[at : at + 512] = bytes([piece]) * 512
            host.build(1, cid)
            host.submit(1, cid)
            assert [run.right for run in host.runs(1, cid)] == [Right.READ] * len(host.runs(1, cid))
            assert sum(len(run.pages) for run in host.runs(1, cid)) == 21
            for piece in range(20):
                place = host.data_place(1, cid, piece)
                assert host.read(PAGE_BYTES * place.page + place.offset, 512) == bytes([piece]) * 512
            with pytest.raises(BufferError):
                memory.close()
    refused(Code.BAD_OPTION, lambda: Host(pages=63, memory=memory))
    refused(Code.NO_PAGES, lambda: Host(memory=memory, queues=64))
    for wrong in (memoryview(memory)[1 : 1 + 8 * PAGE_BYTES], bytearray(8 * PAGE_BYTES + 1)):
        with pytest.raises(ValueError):
            Host(memory=wrong)
