"""A Write of one block and a Read of it, step by step; a Read past the end of the image; and whole commands in one call. Run it by:
PYTHONPATH=python python3 examples/python/first.py"""

from nvmesgl import Code, Kind, Machine, Piece, Refused, State


def carry(machine: Machine, cid: int) -> None:
    """Carries a draft of queue 1 to its end: the driver's steps and the controller's."""
    machine.build(1, cid)
    machine.submit(1, cid)
    machine.ring(1)
    machine.fetch(1)
    try:
        while machine.walk(1, cid).state == State.WALK_MORE:
            pass
    except Refused as refused:
        if refused.code != Code.NOTHING:  # the fetch found the command at fault: nothing of it is walked
            raise
    machine.complete(1, cid)
    print("reaped   ", machine.reap(1).status)
    print("collected", machine.collect(1, cid))


with Machine(pages=16, blocks=8) as machine:
    cid = machine.reserve(1, Kind.WRITE, 3, 1, [Piece(0, 512)]).cid
    machine.fill(1, cid, b"first")
    carry(machine, cid)
    machine.release(1, cid)

    reserved = machine.reserve(1, Kind.READ, 3, 1, [Piece(0, 5), Piece(100, 3), Piece(0, 504, bucket=True)])
    print("a Read with", reserved.data_pages, "data pages and", reserved.chain_pages, "chain pages")
    carry(machine, reserved.cid)
    print("bytes    ", machine.gather(1, reserved.cid))
    machine.release(1, reserved.cid)

    beyond = machine.reserve(1, Kind.READ, 8, 1, [Piece(0, 512)])
    carry(machine, beyond.cid)
    machine.release(1, beyond.cid)

    block = bytearray(512)
    print("whole    ", machine.write(1, 4, b"second".ljust(512)), "|", machine.read(1, 4, block), "|", machine.compare(1, 3, block))
    print("bytes    ", block.rstrip())
    print(machine.counts())
    try:
        machine.fetch(1)
    except Refused as refused:
        assert refused.code == Code.IDLE
        print("refused  ", refused)
