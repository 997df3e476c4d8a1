"""What a recount has of a world: requests by chance, outstanding commands, and both sides of each queue."""

import random

IMAGE_BLOCKS = 16
DATA_KINDS = ("read", "write", "compare", "deallocate")
SUCCESS = "0:00"


class Chance:
    """What chance decides. The numbers of `random()` are the same for a seed in each version of Python."""

    def __init__(self, seed):
        self.draw = random.Random(seed).random

    def up_to(self, most):
        return int(self.draw() * (most + 1))

    def in_sixteen(self, cases):
        return self.draw() * 16 < cases

    def of(self, items):
        return items[int(self.draw() * len(items))]


class Record:
    """An outstanding command of an I/O queue."""

    def __init__(self, q, cid, request):
        self.q, self.cid, self.request = q, cid, request
        self.phase, self.built, self.status = "Drafted", False, None


class Request:
    """A request by chance: mostly right."""

    def __init__(self, chance):
        self.kind = ("read",) * 4 + ("write",) * 4 + ("compare",) * 4 + ("write_zeroes", "verify", "flush", "deallocate")
        self.kind = chance.of(self.kind)
        self.blocks = 0 if self.kind == "flush" else chance.up_to(4) + 1
        self.unit = 16 if self.kind == "deallocate" else 512
        self.pieces = self.split(chance, self.blocks * self.unit if self.kind in DATA_KINDS else 0)
        self.slba = chance.up_to(2**64 - 1) if chance.up_to(255) == 0 else chance.up_to(12)
        few = chance.up_to(63)
        self.blocks = 0 if few == 0 else 2_049 if few == 1 else self.blocks
        self.nsid = 2 if chance.up_to(63) == 0 else 1
        self.block_size = 1_024 if chance.up_to(127) == 0 else 512

    def split(self, chance, left):
        """Pieces of this many bytes, five at most, and rarely one more: offset and length, without an offset a bucket."""
        pieces = []
        while left > 0:
            most = left if len(pieces) == 4 else min(left, chance.up_to(1_500) + 1) if chance.in_sixteen(8) else min(left, 4_096)
            pieces.append(self.piece(chance, most))
            left -= most
        if chance.up_to(63) == 0:
            pieces.append(self.piece(chance, chance.up_to(1)))
        return pieces

    def piece(self, chance, length):
        """A piece, of a Read perhaps a bucket, and rarely one that passes the end of its page."""
        if self.kind == "read" and chance.in_sixteen(3):
            return None, length
        return chance.up_to(4_096 if chance.up_to(255) == 0 else 4_096 - min(length, 4_096)), length

    def words(self):
        pieces = "".join(f" x{length}" if offset is None else f" {offset}+{length}" for offset, length in self.pieces)
        nsid = f" nsid {self.nsid}" if self.nsid != 1 else ""
        return f"{self.kind} {self.slba} {self.blocks}{pieces}{nsid}{f' block_size {self.block_size}' if self.block_size != 512 else ''}"

    def fault(self):
        """The first fault, if there is one (docs/PROFILE.md, section 9)."""
        if any(length == 0 for _, length in self.pieces):
            return "Bad EmptyPiece"
        if any(offset is not None and offset + length > 4_096 for offset, length in self.pieces):
            return "Bad CrossesPage"
        unit = self.unit if self.unit == 16 else self.block_size
        most = 256 if self.unit == 16 else 1_048_576 // unit
        if self.blocks > 0 if self.kind == "flush" else not 0 < self.blocks <= most:
            return "Bad BadCount"
        if self.kind not in DATA_KINDS:
            is_right = not self.pieces
        else:
            is_right = sum(length for offset, length in self.pieces if offset is not None or self.kind == "read") == self.blocks * unit
        if not is_right:
            return "Bad LengthMismatch"
        return "OtherBlocks" if self.block_size != 512 else None

    def data(self):
        """The pieces that have a page."""
        return [piece for piece in self.pieces if piece[0] is not None]

    def bytes(self):
        return sum(length for _, length in self.data())

    def chain(self, pages, segment):
        """How many pages the chain takes where the data are on these pages: neighbours that touch are one part (section 9)."""
        parts, end, pages = 0, None, iter(pages)
        for offset, length in self.pieces:
            begin = None if offset is None else 4_096 * next(pages) + offset
            parts += begin is None or begin != end
            end = None if begin is None else begin + length
        needed = 0
        while parts > segment:
            needed, parts = needed + 1, parts - (segment - 1)
        return needed + (parts > 1)


class Queue:
    """What the host knows of a queue, and what stands in the slots of its completion ring, as far as that is known."""

    def __init__(self, entries, state):
        self.state = state
        self.renew(entries)

    def renew(self, entries):
        """Makes the rings as they open."""
        self.tail, self.known, self.head, self.phase = 0, 0, 0, 1
        self.slots = [bytes(16)] * entries
        self.forged = set()


class Posted:
    """A completion of the controller: all is known, but how a Compare ended."""

    def __init__(self, cid, status, dw0, sqhd, phase):
        self.cid, self.status, self.dw0, self.sqhd, self.phase = cid, status, dw0, sqhd, phase


class Entry:
    """A submitted command, as the controller has it once it was fetched: words of an admin command, or a request."""

    def __init__(self, cid, words=None, request=None):
        self.cid, self.words, self.request = cid, words, request
        self.verdict, self.dw0, self.marked_by = None, 0, None


class Side:
    """The controller's side of a queue."""

    def __init__(self, is_there):
        self.state, self.has_cq = ("live" if is_there else "absent"), is_there
        self.unfetched, self.rung, self.bell = [], 0, 0
        self.posted, self.tail, self.phase = 0, 0, 1


class Controller:
    """The controller, as long as nothing is forged; afterwards a guess, by which steps are chosen and nothing is compared."""

    def __init__(self, queues, is_first):
        self.sides = [Side(is_first or q == 0) for q in range(queues + 1)]
        self.jobs = {}

    def decide(self, entry):
        """Decides an admin command at its fetch (section 13)."""
        verb, q, cid = entry.words
        side = self.sides[q] if 0 < q < len(self.sides) else None
        entry.verdict = SUCCESS
        if verb == "abort":
            job = self.jobs.get((q, cid)) if side else None
            if job and job.verdict is None:
                job.verdict, job.marked_by = "0:07", entry
            else:
                entry.dw0 = 1
        elif verb == "delete_sq":
            if not side or side.state != "live":
                entry.verdict = "1:01"
                return
            side.state = "stopping"
            for (of, _), job in self.jobs.items():
                if of == q and job.verdict is None:
                    job.verdict = "0:08"
        elif verb == "delete_cq":
            if not side or not side.has_cq:
                entry.verdict = "1:01"
            elif side.state != "absent":
                entry.verdict = "1:0C"
            else:
                side.has_cq, side.posted = False, 0
        elif verb == "create_cq":
            if not side or side.has_cq:
                entry.verdict = "1:01"
            else:
                side.has_cq, side.posted, side.tail, side.phase = True, 0, 0, 1
        elif not side or side.state != "absent":
            entry.verdict = "1:01"
        elif not side.has_cq:
            entry.verdict = "1:00"
        else:
            side.state, side.unfetched, side.rung, side.bell = "live", [], 0, 0

    def fetched(self, q, entry):
        """Makes a job of an entry, after the checks of its fields (section 12)."""
        self.jobs[q, entry.cid] = entry
        request = entry.request
        if entry.words:
            self.decide(entry)
        elif request is None:
            entry.verdict = SUCCESS if q == 0 else None
        elif request.kind not in ("read", "write", "compare"):
            entry.verdict = "0:01"
        elif request.nsid != 1:
            entry.verdict = "0:0B"
        elif request.slba + request.blocks > IMAGE_BLOCKS:
            entry.verdict = "0:80"

    def completion_refusal(self, q, cid, entries):
        job = self.jobs.get((q, cid))
        if job is None:
            return "NoJob"
        if job.verdict is None:
            return "Walking"
        if job.words and job.words[0] == "abort" and any(other.marked_by is job for other in self.jobs.values()):
            return "Waits"
        if job.words and job.words[0] == "delete_sq" and job.verdict == SUCCESS and any(of == job.words[1] for of, _ in self.jobs):
            return "Waits"
        return "Full" if self.sides[q].posted >= entries - 1 else None

    def completed(self, q, cid):
        """Ends a job, and answers it: the deletion of a submission queue takes effect."""
        job = self.jobs.pop((q, cid), None) or Entry(cid)
        if job.words and job.words[0] == "delete_sq" and job.verdict == SUCCESS:
            side = self.sides[job.words[1]]
            side.state, side.unfetched, side.rung = "absent", [], 0
        return job
