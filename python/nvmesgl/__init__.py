"""nvmesgl: an NVMe host driver and a modelled controller over one pool of 4,096-byte pages.

    from nvmesgl import Kind, Machine, Piece

    with Machine(image=bytes(1024)) as machine:
        cid = machine.reserve(1, Kind.READ, 0, 1, [Piece(0, 512)]).cid
        machine.build(1, cid)
        machine.submit(1, cid)
        machine.ring(1)

`Machine` is both sides (c/nvmesgl.h), `nvmesgl.host.Host` the driver alone (c/nvmehost.h), and `nvmesgl.controller.Controller` the controller alone (c/nvmectl.h).
Each method is one call and returns what the call tells. A call that is not done raises `Refused`, which has its code, and changes nothing, but for what `serve` and a
whole command had done by then. A handle may be used by any thread, by one at a time: threads that share it take a lock around each call.
"""

from .machine import Completion, Counts, Machine
from .words import BlockRange, Code, Collected, Hints, Kind, Owner, OwnerKind, Piece, Refused, Reserved, State, Status, Step, Walk

__version__ = "0.9.0"
__all__ = ["BlockRange", "Code", "Collected", "Completion", "Counts", "Hints", "Kind", "Machine", "Owner", "OwnerKind", "Piece", "Refused", "Reserved", "State", "Status", "Step", "Walk"]
