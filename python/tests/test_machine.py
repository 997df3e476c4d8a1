"""A machine: refusals, numbers that do not fit, buffers of any kind, and whole commands step by step."""

import array
import ctypes
import pickle

import pytest

from nvmesgl import BlockRange, Code, Kind, Machine, OwnerKind, Piece, Refused, State
from nvmesgl.host import Host
from refusals import refused


def carry(machine, q, cid):
    """Carries a draft to its end, and returns its status."""
    machine.build(q, cid)
    machine.submit(q, cid)
    machine.ring(q)
    assert machine.serve() == 1
    assert machine.reap(q).cid == cid
    return machine.collect(q, cid)


def test_refusals():
    with Machine(image=bytes(range(256)) * 4) as machine:
        why = refused(Code.NO_PAGES, machine.reserve, 1, Kind.READ, 0, 13, [Piece(8 * k, 512) for k in range(13)])
        assert (why.need, why.free) == (14, 12)
        assert str(why) == "reserve_request: NO_PAGES: too few pages are free (need 14, free 12)"
        refused(Code.NO_QUEUE, machine.ring, 9)
        refused(Code.NO_VALUE, machine.submit, 1, 0)
        refused(Code.NO_PAGE, machine.owner, 16)
        refused(Code.NOT_A_SOURCE, machine.fill, 1, machine.reserve(1, Kind.READ, 0, 1, [Piece(0, 512)]).cid, b"x")
        assert machine.owner(0).kind == OwnerKind.SUBMISSION_QUEUE
        assert sum(machine.counts()[1:5]) == machine.counts().pages
        with pytest.raises(ctypes.ArgumentError):
            machine.ring(70000)
        machine.forge(1, 0, bytes(14) + b"\x01\x00")
        assert not machine.counts().trusted
        machine.reset()
        assert machine.counts().trusted
    refused(Code.CLOSED_HANDLE, machine.ring, 1)
    refused(Code.BAD_CONFIG, lambda: Machine(pages=7))
    refused(Code.BAD_IMAGE, lambda: Machine(image=b"short"))
    refused(Code.NO_PAGES, lambda: Machine(pages=8, queues=64))


def test_a_handle_of_another_kind_is_told():
    with Machine() as machine, Host() as host:
        own, machine._at = machine._at, host._at
        refused(Code.NO_HANDLE, machine.ring, 1)
        machine.close()
        machine._at = own
        host.ring(1)
        machine.ring(1)


def test_a_refusal_goes_from_process_to_process():
    with Machine() as machine:
        why = refused(Code.NO_PAGES, machine.reserve, 1, Kind.READ, 0, 13, [Piece(0, 512)] * 13)
    again = pickle.loads(pickle.dumps(why))
    assert (type(again), str(again), again.call, again.code, again.need, again.free) == (Refused, str(why), "reserve_request", Code.NO_PAGES, why.need, why.free)


BUFFERS = {
    "bytes": bytes(range(256)) * 2,
    "bytearray": bytearray(range(256)) * 2,
    "words": array.array("I", range(128)),
    "read-only words": memoryview(bytes(range(256)) * 2).cast("I"),
    "two dimensions": memoryview(bytes(range(256)) * 2).cast("B", (8, 64)),
    "each second byte": memoryview(bytes(range(256)) * 4)[::2],
}


@pytest.mark.parametrize("content", BUFFERS.values(), ids=BUFFERS)
def test_all_bytes_of_a_buffer_are_written(content):
    with Machine(image=bytes(512)) as machine:
        cid = machine.reserve(1, Kind.WRITE, 0, 1, [Piece(0, 512)]).cid
        machine.fill(1, cid, content)
        assert carry(machine, 1, cid) == (0, 0)
        machine.release(1, cid)
        cid = machine.reserve(1, Kind.READ, 0, 1, [Piece(0, 512)]).cid
        assert carry(machine, 1, cid) == (0, 0)
        assert machine.gather(1, cid) == memoryview(content).tobytes()
    with Machine(image=content) as machine:
        cid = machine.reserve(1, Kind.READ, 0, 1, [Piece(0, 512)]).cid
        carry(machine, 1, cid)
        assert machine.gather(1, cid) == memoryview(content).tobytes()


def test_what_is_no_buffer_is_not_written():
    with Machine() as machine:
        cid = machine.reserve(1, Kind.WRITE, 0, 1, [Piece(0, 512)]).cid
        for wrong in (5, [1, 2, 3], "text"):
            with pytest.raises(TypeError):
                machine.fill(1, cid, wrong)


def test_gather_into_a_buffer():
    with Machine(image=bytes(range(256)) * 32) as machine:
        cid = machine.reserve(1, Kind.READ, 0, 16, [Piece(0, 4096), Piece(0, 4096)]).cid
        assert carry(machine, 1, cid) == (0, 0)
        assert machine.gather(1, cid) == bytes(range(256)) * 32
        short = bytearray(8191)
        refused(Code.TOO_SHORT, machine.gather_into, 1, cid, short)
        assert short == bytes(8191)
        words = array.array("I", [7] * 2050)
        assert machine.gather_into(1, cid, words) == 8192
        assert words.tobytes() == bytes(range(256)) * 32 + array.array("I", [7, 7]).tobytes()
        with pytest.raises(BufferError):
            machine.gather_into(1, cid, memoryview(bytearray(20000))[::2])


def test_a_namespace_and_flags():
    with Machine(blocks=8) as machine:
        for kind in (Kind.READ, Kind.WRITE, Kind.COMPARE):
            one = machine.reserve(1, kind, 7, 1, [Piece(0, 512)], nsid=2).cid
            assert str(carry(machine, 1, one)) == "0:0B Invalid Namespace or Format"
            machine.release(1, one)
            for nsid in (0, 1):
                one = machine.reserve(1, kind, 7, 1, [Piece(0, 512)], nsid=nsid, force_unit_access=True, limited_retry=True).cid
                assert carry(machine, 1, one) == (0, 0)
                machine.release(1, one)
        refused(Code.NO_KIND, machine.reserve, 1, 7, 0, 1, [Piece(0, 512)])
        with pytest.raises(ctypes.ArgumentError):
            machine.reserve(1, Kind.READ, 0, 1, [Piece(0, 512)], nsid=1 << 32)


def test_other_blocks():
    with Machine(blocks=8) as machine:
        refused(Code.OTHER_BLOCKS, machine.reserve, 1, Kind.READ, 0, 1, [Piece(0, 4096)], block_bytes=4096)
        refused(Code.LENGTH_MISMATCH, machine.reserve, 1, Kind.READ, 0, 1, [Piece(0, 512)], block_bytes=4096)
        machine.cancel(1, machine.reserve(1, Kind.READ, 0, 1, [Piece(0, 512)], block_bytes=0).cid)


def test_commands_without_data():
    with Machine(blocks=8) as machine:
        for kind, blocks in ((Kind.WRITE_ZEROES, 8), (Kind.VERIFY, 8), (Kind.FLUSH, 0)):
            refused(Code.LENGTH_MISMATCH, machine.reserve, 1, kind, 0, blocks, [Piece(0, 512)])
            one = machine.reserve(1, kind, 0, blocks, [])
            assert (one.data_pages, one.chain_pages) == (0, 0)
            assert str(carry(machine, 1, one.cid)) == "0:01 Invalid Command Opcode"
            machine.release(1, one.cid)


def test_a_deallocate():
    """The modelled controller does not have it, and its blocks stay as they are."""
    content = bytes(range(256)) * 4
    with Machine(image=content) as machine:
        refused(Code.LENGTH_MISMATCH, machine.reserve, 1, Kind.DEALLOCATE, 0, 2, [Piece(0, 1024)])
        one = machine.reserve(1, Kind.DEALLOCATE, 0, 2, [Piece(0, 32)])
        assert (one.data_pages, one.chain_pages) == (1, 0)
        machine.fill(1, one.cid, BlockRange(0, 1).to_bytes() + BlockRange(1, 1).to_bytes())
        assert str(carry(machine, 1, one.cid)) == "0:01 Invalid Command Opcode"
        assert machine.gather(1, one.cid) == b""
        machine.release(1, one.cid)
        found = bytearray(len(content))
        assert machine.read(1, 0, found) == (0, 0) and found == content


def test_a_command_that_the_fetch_refuses():
    with Machine(blocks=8) as machine:
        cid = machine.reserve(1, Kind.READ, 8, 1, [Piece(0, 512)]).cid
        machine.build(1, cid)
        machine.submit(1, cid)
        machine.ring(1)
        assert machine.fetch(1).cid == cid
        refused(Code.NOTHING, machine.walk, 1, cid)
        machine.complete(1, cid)
        assert str(machine.reap(1).status) == "0:80 LBA Out of Range"


def test_steps_one_by_one():
    with Machine(image=bytes(range(256)) * 2) as machine:
        cid = machine.reserve(1, Kind.READ, 0, 1, [Piece(0, 512)]).cid
        machine.build(1, cid)
        machine.submit(1, cid)
        machine.ring(1)
        assert machine.fetch(1).touched == [2]
        states = [machine.walk(1, cid).state]
        while states[-1] == State.WALK_MORE:
            states.append(machine.walk(1, cid).state)
        assert states[-1] == State.WALK_END
        assert machine.complete(1, cid).touched == [3]
        assert machine.reap(1).state == State.REAP_DONE
        assert machine.reap(1).state == State.REAP_EMPTY


def test_whole_commands():
    with Machine(pages=300, blocks=4096, segment=64) as machine:
        content = bytes(range(256)) * 4096
        assert machine.write(1, 0, content) == (0, 0)
        buffer = bytearray(len(content))
        assert machine.read(1, 0, buffer) == (0, 0)
        assert buffer == content
        assert machine.compare(1, 0, content) == (0, 0)
        assert str(machine.compare(1, 1, content[:512][::-1])) == "2:85 Compare Failure"
        assert str(machine.read(1, 4096, bytearray(512))) == "0:80 LBA Out of Range"
        refused(Code.BAD_COUNT, machine.read, 1, 0, bytearray(0))
        refused(Code.LENGTH_MISMATCH, machine.read, 1, 0, bytearray(513))
        refused(Code.NO_QUEUE, machine.read, 2, 0, bytearray(512))
        assert machine.counts().free_pages == 300 - machine.counts().queue_pages


def test_a_whole_command_that_is_left_is_named():
    with Machine() as machine:
        machine.forge(1, 0, bytes(14) + b"\x01\x00")
        assert machine.reap(1).state == State.REAP_WRONG_QUEUE
        why = refused(Code.NOT_YET, machine.write, 1, 0, bytes(512))
        assert str(why) == "write: NOT_YET: the command has not ended; command 0 is outstanding"
        assert pickle.loads(pickle.dumps(why)).left == why.left == 0
        machine.reset()
        assert machine.collect(1, why.left) == (0, 8)
        machine.release(1, why.left)


def test_whole_commands_of_several_buffers():
    with Machine(pages=300, blocks=4096, segment=64) as machine:
        content = bytes(k * 7 % 251 for k in range(20 * 512))
        parts = [content[:1], b"", bytearray(content[1:5000]), memoryview(content)[5000:], b""]
        assert machine.writev(1, 3, parts) == (0, 0)
        front, middle, back = bytearray(700), array.array("I", [0] * 200), bytearray(len(content) - 1500)
        assert machine.readv(1, 3, [front, bytearray(0), middle, back]) == (0, 0)
        assert bytes(front) + middle.tobytes() + bytes(back) == content
        assert machine.comparev(1, 3, [content[:512], content[512:]]) == (0, 0)
        assert str(machine.comparev(1, 3, [content[512:], content[:512]])) == "2:85 Compare Failure"
        block = bytes(range(256))
        assert machine.writev(1, 0, [block] * 4) == (0, 0)
        buffer = bytearray(1024)
        assert machine.read(1, 0, buffer) == (0, 0)
        assert buffer == block * 4
        before = bytes(buffer)
        refused(Code.BAD_COUNT, machine.readv, 1, 0, [])
        refused(Code.LENGTH_MISMATCH, machine.readv, 1, 0, [buffer, bytearray(1)])
        refused(Code.BAD_COUNT, machine.writev, 1, 0, [bytes(1 << 20), b"x"])
        refused(Code.NO_QUEUE, machine.readv, 2, 0, [buffer])
        assert buffer == before
        assert machine.counts().free_pages == 300 - machine.counts().queue_pages
    refused(Code.CLOSED_HANDLE, machine.readv, 1, 0, [bytearray(512)])
