"""A shell over a world, beside a recount that is made of its answers alone."""

import hashlib
import itertools
import os
import re
import subprocess
import sys
import tempfile

from sides import IMAGE_BLOCKS, SUCCESS, Chance, Controller, Entry, Posted, Queue, Record, Request

# In how many of sixteen steps of a world a completion is forged, world after world.
FORGERIES = (0, 1, 2, 5)
# How many of a thousand and some steps that forge nothing are of each kind.
WEIGHTS = {
    "reserve": 75, "fill": 40, "build": 75, "submit": 75, "cancel": 17, "ring": 80, "fetch": 80, "walk": 135, "complete": 75, "reap": 100, "collect": 75,
    "gather": 25, "release": 70, "abort": 7, "delete_sq": 9, "delete_cq": 14, "create_cq": 20, "create_sq": 20, "retire": 32, "forge": 0, "reset": 1,
}
KINDS = [kind for kind, weight in WEIGHTS.items() for _ in range(weight)]
# What a controller step may be refused for.
CAUSES = {"fetch": {"Idle", "SlotOut", "Full", "Memory"}, "walk": {"NoJob", "Nothing"}, "complete": {"NoJob", "Walking", "Waits", "Full", "SlotOut"}}
RINGS = re.compile(r"queue \d+: .*, outstanding \d+\n  sq: host tail \d+, knows head (\d+); controller .*\n  cq: .*\n")
AT_CONTROLLER = re.compile(r"; controller (.*)\n")
RUN = re.compile(r"(\d+)-(\d+) (.+)")
TOUCHED = re.compile(r"(.*?) touched (-|\d+(?:,\d+)*)")


class Differs(Exception):
    """What came is not what the recount has."""


def must(holds, what):
    """Ends the run where something does not hold."""
    if not holds:
        raise Differs(what)


class World:
    """A shell over a world, and its recount."""

    def __init__(self, program, seed, number):
        chance = self.chance = Chance(f"{seed} {number}")
        self.number, self.forgeries = number, FORGERIES[number % len(FORGERIES)]
        self.entries = 65 + chance.up_to(15) if chance.in_sixteen(2) else 3 + chance.up_to(7)
        self.queues = 1 + chance.up_to(2)
        halves = [-(-self.entries // 64), 1]
        self.pages = (self.queues + 1) * sum(halves) + 8 + chance.up_to(30)
        self.segment = 2 + chance.up_to(3)
        self.lines, self.script, self.digest = 0, [], hashlib.sha256()
        self.records, self.sent, self.trusted = {}, {}, True
        self.table = [Queue(self.entries, "live") for _ in range(self.queues + 1)]
        self.controller = Controller(self.queues, True)
        self.owners = [f"queue {q} {half}" for q in range(self.queues + 1) for half, count in zip(("sq", "cq"), halves) for _ in range(count)]
        self.owners += ["free"] * (self.pages - len(self.owners))
        self.tell_owners()
        self.process = subprocess.Popen([program, "shell", *self.options()], stdin=subprocess.PIPE, stdout=subprocess.PIPE, stderr=subprocess.PIPE)
        self.to, self.back = self.process.stdin.fileno(), self.process.stdout.fileno()

    def options(self):
        numbers = {"pages": self.pages, "queues": self.queues, "entries": self.entries, "segment": self.segment, "blocks": IMAGE_BLOCKS}
        return [word for name, number in numbers.items() for word in (f"--{name}", str(number))]

    # What pages are whose.

    def tell_owners(self):
        """Notes what `owners` and `.counts` must now say."""
        said, first = [], 0
        for owner, run in itertools.groupby(self.owners):
            last = first + sum(1 for _ in run) - 1
            said.append(f"{first}-{last} {owner}\n")
            first = last + 1
        self.free = self.owners.count("free")
        chain, data = (sum(owner.endswith(role) for owner in self.owners) for role in (" chain", " data"))
        said.append(f"counts free {self.free} queue {self.pages - self.free - chain - data} chain {chain} data {data}\n")
        self.said_owners = "".join(said)

    def free_pages(self, *owners):
        """Frees the pages of these owners."""
        self.owners = ["free" if owner in owners else owner for owner in self.owners]
        self.tell_owners()

    def granted(self, said, owners):
        """Takes over from what was said which pages were granted, each to one of these owners, and answers them by owner."""
        told = []
        for line in said.splitlines()[:-1]:
            run = RUN.fullmatch(line)
            must(run and int(run[1]) == len(told) <= int(run[2]), f"each page has one owner: not so in {line!r}")
            told += [run[3]] * (int(run[2]) + 1 - len(told))
        must(len(told) == self.pages, f"{self.pages} pages have an owner, and not {len(told)}")
        found = {owner: [] for owner in owners}
        for page, (before, now) in enumerate(zip(self.owners, told)):
            if before != now:
                must(before == "free" and now in found, f"page {page} was '{before}', and is '{now}'")
                found[now].append(page)
        self.owners = told
        self.tell_owners()
        return found

    def lowest(self, count, but=()):
        """The lowest run of this many free pages, if there is one, and else the lowest ones (section 8); and whether it is a run."""
        free = [page for page, owner in enumerate(self.owners) if owner == "free" and page not in but]
        for at in range(len(free) - count + 1):
            if count and free[at + count - 1] == free[at] + count - 1:
                return free[at : at + count], True
        return free[:count], count == 0

    def half(self, q, half):
        return f"queue {q} {half}"

    def slot_page(self, q, half, slot):
        """The page of a slot of a ring."""
        return self.owners.index(self.half(q, half)) + slot // (64 if half == "sq" else 256)

    # What is chosen.

    def any_queue(self):
        """A queue by chance, and rarely one that is not there."""
        return self.chance.up_to(self.queues + 2 if self.chance.up_to(31) == 0 else self.queues)

    def io_queue(self):
        """An I/O queue by chance, and rarely queue 0 or one that is not there."""
        return self.chance.up_to(self.queues + 2) if self.chance.up_to(31) == 0 else 1 + self.chance.up_to(self.queues - 1)

    def queue_in(self, state):
        """The first queue of a state, or any I/O queue."""
        found = next((q for q, queue in enumerate(self.table) if queue.state == state), None)
        return found if found is not None and self.chance.in_sixteen(8) else self.io_queue()

    def any_command(self):
        return self.any_queue(), self.chance.up_to(self.entries)

    def record_of(self, phases, is_fitting):
        """A command in one of these phases, mostly the first that fits, and rarely any other."""
        found = [record for record in self.records.values() if record.phase in phases]
        if not found:
            return self.any_command()
        first = next(filter(is_fitting, found), None)
        record = first if first and not self.chance.in_sixteen(1) else self.chance.of(found)
        return record.q, record.cid

    def job(self, is_decided):
        """A command that the controller fetched, mostly one that has a verdict or has none, as is wanted."""
        jobs = self.controller.jobs
        if self.chance.in_sixteen(12):
            found = next((of for of, job in jobs.items() if (job.verdict is not None) == is_decided), None)
            if found:
                return found
        return self.chance.of(list(jobs)) if jobs and not self.chance.in_sixteen(2) else self.any_command()

    def draft(self, is_built):
        return self.record_of(("Drafted",), lambda record: record.built == is_built)

    def completion(self, q, slot):
        """Sixteen bytes that are almost those of a completion, or rarely any."""
        chance = self.chance
        if chance.in_sixteen(3):
            return bytes(chance.up_to(255) for _ in range(16))
        queue = self.table[q] if q <= self.queues else Queue(self.entries, "gone")
        waiting = [record.cid for record in self.records.values() if record.q == q and record.phase == "Submitted"] or (q == 0 and list(self.sent))
        cid = chance.up_to(self.entries)
        if waiting and not chance.in_sixteen(4):
            cid = waiting[min(chance.up_to(3), len(waiting) - 1)]
        sct, sc = (0, 0) if chance.in_sixteen(8) else (chance.up_to(7), chance.up_to(255))
        sqhd = queue.tail if chance.in_sixteen(12) else chance.up_to(self.entries)
        sqid = q if chance.in_sixteen(15) else self.any_queue()
        phase = queue.phase ^ (slot < queue.head) ^ chance.in_sixteen(1)
        drawn = chance.up_to(3)
        words = (drawn, 4), (0, 4), (sqhd, 2), (sqid, 2), (cid, 2), (phase | sc << 1 | sct << 9 | drawn << 12, 2)
        return b"".join(word.to_bytes(width, "little") for word, width in words)

    def choose(self):
        """The next step by chance: its verb, its queue, its identifier or slot, and what else there is."""
        chance = self.chance
        verb = "forge" if chance.in_sixteen(self.forgeries) else chance.of(KINDS)
        q = cid = more = None
        if verb == "reserve":
            q, more = self.io_queue(), Request(chance)
        elif verb == "fill":
            q, cid = self.draft(False)
            record = self.records.get((q, cid))
            length = record.request.bytes() if record else 1
            more = (b"\0", b"\1")[chance.up_to(1)] * max(1, length + chance.in_sixteen(1) if chance.in_sixteen(4) else min(length, 8))
        elif verb in ("build", "cancel"):
            q, cid = self.draft(False)
        elif verb == "submit":
            q, cid = self.draft(True)
        elif verb == "collect":
            q, cid = self.any_command() if chance.in_sixteen(1) else self.record_of(("Submitted", "Held"), lambda record: record.phase == "Held")
        elif verb in ("gather", "release"):
            q, cid = self.record_of(("Collected",), lambda record: False)
        elif verb == "ring":
            q = self.any_queue()
        elif verb == "fetch":
            ready = [q for q, side in enumerate(self.controller.sides) if side.state == "live" and side.rung]
            q = ready[0] if ready and chance.in_sixteen(8) else self.any_queue()
        elif verb in ("walk", "complete"):
            q, cid = self.job(verb == "complete")
        elif verb == "reap":
            ready = [q for q in range(self.queues + 1) if self.is_new(q) is not False]
            q = ready[0] if ready and chance.in_sixteen(8) else self.any_queue()
        elif verb == "forge":
            q = self.any_queue()
            head = self.table[q].head if q <= self.queues else 0
            cid = head if chance.in_sixteen(12) else chance.up_to(self.entries)
            more = self.completion(q, cid)
        elif verb == "abort":
            waiting = list(self.records)
            q, cid = chance.of(waiting) if waiting and not chance.in_sixteen(1) else self.any_command()
        elif verb == "delete_sq":
            q = self.io_queue()
        elif verb == "create_cq":
            q, more = self.queue_in("gone"), chance.up_to(65_535) if chance.in_sixteen(8) else None
        elif verb != "reset":
            q = self.queue_in({"delete_cq": "retired", "create_sq": "half made", "retire": "deleted"}[verb])
        return verb, q, cid, more

    # What must come.

    def is_new(self, q):
        """Whether a new completion is at the host's head, None where that is not known."""
        queue = self.table[q]
        slot = queue.slots[queue.head]
        if slot is None:
            return None
        phase = slot.phase if isinstance(slot, Posted) else slot[14] & 1
        return phase == queue.phase

    def send_refusal(self):
        """What an admin command is refused for, as far as queue 0 goes."""
        queue = self.table[0]
        if len(self.sent) >= self.entries - 1:
            return "NoIdentifier", None
        return None, "QueueFull" if (queue.tail + 1) % self.entries == queue.known else None

    def admin_refusal(self, verb, q, cid):
        """What an admin command is refused for (section 16)."""
        state = self.table[q].state if 0 < q <= self.queues else None
        early, late = self.send_refusal()
        deletes = ("delete_cq", q, None) in self.sent.values()
        if verb in ("abort", "delete_sq"):
            if state not in ("live", "deleting", "deleted"):
                return "NoQueue"
            if state != "live":
                return "WrongState"
            record = self.records.get((q, cid))
            if verb == "abort" and not (record and record.phase == "Submitted"):
                return "NoSuchCommand"
            return early or late
        if verb == "delete_cq":
            if state in (None, "gone"):
                return "NoQueue"
            is_wrong = state not in ("live", "retired", "half made") or state != "live" and deletes
            return "WrongState" if is_wrong else early or late
        if state is None:
            return "NoQueue"
        if state != "gone" if verb == "create_cq" else state != "half made" or deletes:
            return "WrongState"
        if verb == "create_cq" and any(of == q for of, _ in self.records):
            return "Outstanding"
        need = -(-self.entries // (256 if verb == "create_cq" else 64))
        return early or (late if self.lowest(need)[1] else f"NoRun need {need}")

    def reserve_refusal(self, q, request):
        """What a reservation is refused for (section 16)."""
        state = self.table[q].state if 0 < q <= self.queues else None
        if state not in ("live", "deleting", "deleted"):
            return "NoQueue"
        if state != "live":
            return "Deleting"
        if request.fault():
            return request.fault()
        if sum(of == q for of, _ in self.records) >= self.entries - 1:
            return "NoIdentifier"
        count = len(request.data())
        pages = range(count) if count > self.free else self.lowest(count)[0]
        need = count + request.chain(pages, self.segment)
        return f"NoPages need {need} free {self.free}" if need > self.free else None

    def refusal(self, verb, q, cid, more):
        """What a step is refused for, None where it is accepted, and "?" where the recount doesn't know."""
        queue = self.table[q] if q is not None and q <= self.queues else None
        state = queue and queue.state
        record = self.records.get((q, cid))
        phase = record and record.phase
        if verb == "reserve":
            return self.reserve_refusal(q, more)
        if verb in ("fill", "build", "submit", "cancel"):
            if phase != "Drafted":
                return "NoValue"
            if verb == "fill":
                return "NotASource" if record.request.kind == "read" else "WrongLength" if len(more) > record.request.bytes() else None
            if verb == "submit":
                is_full = (queue.tail + 1) % self.entries == queue.known
                return "NotBuilt" if not record.built else "QueueGone" if state != "live" else "QueueFull" if is_full else None
            return None
        if verb == "collect":
            return "NotYet" if phase == "Submitted" else None if phase == "Held" else "NoValue"
        if verb in ("gather", "release"):
            return None if phase == "Collected" else "NoValue"
        if verb == "ring":
            return None if state in ("live", "deleting", "deleted") else "NoQueue"
        if verb in ("reap", "forge"):
            if state not in ("live", "deleting", "deleted", "retired"):
                return "NoQueue"
            return "NoSlot" if verb == "forge" and cid >= self.entries else None
        if verb == "retire":
            if state != "deleted":
                return "NotDeleted"
            return {True: "NotDrained", False: None, None: "?"}[self.is_new(q)]
        return None if verb == "reset" else self.admin_refusal(verb, q, cid)

    def controller_refusal(self, verb, q, cid):
        """What a step of the controller is refused for, while nothing is forged."""
        if verb == "fetch":
            side = self.controller.sides[q] if q <= self.queues else None
            return None if side and side.state == "live" and side.rung else "Idle"
        if verb == "walk":
            job = self.controller.jobs.get((q, cid))
            return "NoJob" if job is None else "Nothing" if job.verdict is not None else None
        return self.controller.completion_refusal(q, cid, self.entries)

    # A step, and what it changes.

    def ask(self):
        """Makes a step."""
        self.step = verb, q, cid, more = self.choose()
        self.asked_rings = range(self.queues + 1) if verb == "reset" or q is None or q > self.queues else (q,)
        words = [verb, *(str(word) for word in (q, cid) if word is not None)]
        if isinstance(more, Request):
            words.append(more.words())
        elif isinstance(more, bytes):
            words.append(more.hex().upper())
        elif more is not None:
            words.append(f"vector {more}")
        self.script.append(" ".join(words))
        rings = ".rings" if len(self.asked_rings) > 1 else f".rings {self.asked_rings[0]}"
        os.write(self.to, f"{self.script[-1]}\n{rings}\nowners\n.counts\n".encode())
        self.lines += 1

    def hear(self):
        """Reads what a step and the looks after it are answered."""
        said = b""
        while not (said.endswith(b"\n") and said.startswith(b"counts ", said.rfind(b"\n", 0, -1) + 1)):
            part = os.read(self.back, 65_536)
            must(part, f"the program ended after {said.decode(errors='replace')!r}")
            said += part
        self.digest.update(said)
        verb = self.step[0]
        line, _, said = said.decode().partition("\n")
        begin = f"{self.lines} {verb} "
        must(line.startswith(begin), f"an answer of '{begin.strip()}' is wanted, and came {line!r}")
        self.lines += 3
        answer = line[len(begin) :]
        at = said.find("\n0-")
        rings, owners = said[: at + 1], said[at + 1 :]
        self.rings = rings
        if verb in CAUSES:
            self.take_controller(verb, answer)
        else:
            self.take_host(verb, answer, owners)
        if owners != self.said_owners:
            raise Differs(f"owners and counts must be\n{self.said_owners}and are\n{owners}")
        wanted = "".join(self.say_rings(q) for q in self.asked_rings)
        if rings != wanted:
            raise Differs(f"the rings must be\n{wanted}and are\n{rings}")
        return answer.partition(" ")[0]

    def say_rings(self, q):
        """What `.rings` says of a queue; where something was forged, the controller's part is taken as it is."""
        queue, side = self.table[q], self.controller.sides[q]
        count = sum(of == q for of, _ in self.records) + (len(self.sent) if q == 0 else 0)
        if self.trusted:
            there = f"head {(queue.tail - len(side.unfetched)) % self.entries}, tail doorbell {side.bell}" if side.state != "absent" else "has none"
            back = f"tail {side.tail}, phase {side.phase}, head doorbell {queue.head}" if side.has_cq else "has none"
        else:
            at = self.rings.find(f"queue {q}: ")
            there, back = (AT_CONTROLLER.findall(self.rings, max(at, 0)) + ["?", "?"])[:2]
        return (f"queue {q}: {queue.state}, outstanding {count}\n  sq: host tail {queue.tail}, knows head {queue.known}; controller {there}\n"
                f"  cq: host head {queue.head}, phase {queue.phase}; controller {back}\n")

    def take_host(self, verb, answer, owners):
        """Compares what a step of the host was answered, and notes what it changed."""
        _, q, cid, more = self.step
        wanted = self.refusal(verb, q, cid, more)
        if answer.startswith("refused "):
            came = answer[8:]
            must(came == wanted or wanted == "?" and came == "NotDrained", f"it is refused {came}, and not {wanted or 'at all'}")
            return
        must(wanted in (None, "?"), f"it is refused {wanted}, and came {answer!r}")
        getattr(self, f"did_{verb}", self.did_admin)(*self.step, answer, owners)

    def did_reserve(self, _, q, __, request, answer, owners):
        cid = next(cid for cid in range(self.entries) if (q, cid) not in self.records)
        count = len(request.data())
        pages = self.lowest(count)[0]
        chain = self.lowest(request.chain(pages, self.segment), pages)[0]
        must(answer == f"q {q} cid {cid} data {count} chain {len(chain)}", f"a reservation of cid {cid}, {count} and {len(chain)} pages is wanted, and came {answer!r}")
        found = self.granted(owners, (f"command {q} {cid} data", f"command {q} {cid} chain"))
        must(list(found.values()) == [pages, chain], f"the pages {pages} and {chain} are granted, and not {list(found.values())}")
        self.records[q, cid] = Record(q, cid, request)

    def ok(self, answer):
        must(answer == "ok", f"ok is wanted, and came {answer!r}")

    def did_fill(self, _, q, cid, __, answer, ___):
        self.ok(answer)

    def did_build(self, _, q, cid, __, answer, ___):
        self.ok(answer)
        self.records[q, cid].built = True

    def did_submit(self, _, q, cid, __, answer, ___):
        self.ok(answer)
        record, queue = self.records[q, cid], self.table[q]
        record.phase, queue.tail = "Submitted", (queue.tail + 1) % self.entries
        self.controller.sides[q].unfetched.append(Entry(cid, request=record.request))

    def did_cancel(self, _, q, cid, __, answer, ___):
        self.ok(answer)
        del self.records[q, cid]
        self.free_pages(f"command {q} {cid} data", f"command {q} {cid} chain")

    did_release = did_cancel

    def did_ring(self, _, q, __, ___, answer, ____):
        self.ok(answer)
        side = self.controller.sides[q]
        if side.state != "absent":
            side.rung, side.bell = len(side.unfetched), self.table[q].tail

    def did_collect(self, _, q, cid, __, answer, ___):
        record = self.records[q, cid]
        must(answer == f"status {record.status}", f"it ended {record.status}, and came {answer!r}")
        record.phase = "Collected"

    def did_gather(self, _, q, cid, __, answer, ___):
        request = self.records[q, cid].request
        wanted = request.bytes() if request.kind == "read" else 0
        came = sum(int(run.partition("*")[2]) for run in answer.split(",")) if answer != "-" else 0
        must(wanted == came, f"{wanted} bytes are gathered, and not {came}")

    def did_forge(self, _, q, slot, entry, answer, __):
        self.ok(answer)
        self.table[q].slots[slot] = entry
        self.table[q].forged.add(slot)
        self.trusted = False

    def did_reset(self, _, __, ___, ____, answer, _____):
        self.ok(answer)
        self.end_submitted(range(self.queues + 1))
        self.sent, self.trusted = {}, True
        self.controller = Controller(self.queues, False)
        self.table[0].renew(self.entries)
        for queue in self.table[1:]:
            queue.state = "gone"
            queue.renew(self.entries)
        self.free_pages(*(self.half(q, half) for q in range(1, self.queues + 1) for half in ("sq", "cq")))

    def did_retire(self, _, q, __, ___, answer, ____):
        self.ok(answer)
        self.end_submitted((q,))
        self.table[q].state = "retired"
        self.free_pages(self.half(q, "sq"))

    def end_submitted(self, queues):
        """The commands that these queues never answered have ended."""
        for record in self.records.values():
            if record.q in queues and record.phase == "Submitted":
                record.phase, record.status = "Held", "0:08"

    def did_admin(self, verb, q, cid, _, answer, owners):
        """An admin command was sent."""
        new = next(cid for cid in range(self.entries) if cid not in self.sent)
        must(answer == f"cid {new}", f"cid {new} is wanted, and came {answer!r}")
        self.sent[new] = verb, q, cid
        queue = self.table[0]
        queue.tail = (queue.tail + 1) % self.entries
        self.controller.sides[0].unfetched.append(Entry(new, words=(verb, q, cid)))
        if verb == "delete_sq":
            self.table[q].state = "deleting"
        elif verb in ("create_cq", "create_sq"):
            half = verb[-2:]
            pages, _ = self.lowest(-(-self.entries // (256 if half == "cq" else 64)))
            found = self.granted(owners, (self.half(q, half),))[self.half(q, half)]
            must(found == pages, f"the pages {pages} are granted, and not {found}")
            self.table[q].state = f"making {half}"
            if half == "cq":
                self.table[q].renew(self.entries)

    # What a reap finds.

    def did_reap(self, _, q, __, ___, answer, ____):
        queue = self.table[q]
        slot = queue.slots[queue.head]
        wanted = self.found(q, slot)
        must(wanted is None or re.fullmatch(wanted, answer), f"a reap must find {wanted!r}, and came {answer!r}")
        if answer == "empty":
            must(self.is_new(q) is not True, "a completion is there, and came 'empty'")
            return
        words = answer.split()
        status = None
        if words[0] == "rejected":
            must(words[1:] in (["WrongQueue"], ["BadHead"], ["UnknownId"]), f"no such rejection: {answer!r}")
        else:
            must(words[0] == ("done" if q else "admin"), f"a completion of this queue is wanted, and came {answer!r}")
            cid, status = int(words[2]), words[4]
            if q:
                record = self.records.get((q, cid))
                must(record and record.phase == "Submitted", f"no such command is submitted: {answer!r}")
                record.phase, record.status = "Held", status
            else:
                must(cid in self.sent, f"no such admin command was sent: {answer!r}")
                self.ended(*self.sent.pop(cid), status == SUCCESS)
            self.learn_head(q, slot)
        if isinstance(slot, Posted):
            self.controller.sides[q].posted -= 1
        queue.slots[queue.head] = Posted(0, None, 0, 0, queue.phase) if slot is None or isinstance(slot, Posted) else slot
        queue.forged.discard(queue.head)
        queue.head = (queue.head + 1) % self.entries
        queue.phase ^= queue.head == 0

    def learn_head(self, q, slot):
        """Notes the head that an accepted completion told. Where the recount doesn't know it, it is what `.rings` says, if that is between the old one and the tail."""
        queue = self.table[q]
        if isinstance(slot, Posted):
            queue.known = slot.sqhd
        elif slot is not None:
            queue.known = int.from_bytes(slot[8:10], "little")
        else:
            said = RINGS.fullmatch(self.rings)
            must(said, f"the rings are told, and not {self.rings!r}")
            must((int(said[1]) - queue.known) % self.entries <= (queue.tail - queue.known) % self.entries, f"the head {said[1]} is not between {queue.known} and the tail")
            queue.known = int(said[1])

    def found(self, q, slot):
        """What a reap must find in a slot, as a pattern; None where the recount doesn't know."""
        queue = self.table[q]
        if slot is None:
            return None
        if isinstance(slot, Posted):
            if slot.phase != queue.phase:
                return "empty"
            status = slot.status or "0:00|2:85"
            return f"done cid {slot.cid} status ({status})" if q else f"admin cid {slot.cid} status ({status}) dw0 {slot.dw0}"
        dw0, sqhd, sqid, cid, field = (int.from_bytes(slot[begin:end], "little") for begin, end in ((0, 4), (8, 10), (10, 12), (12, 14), (14, 16)))
        if field & 1 != queue.phase:
            return "empty"
        if sqid != q:
            return "rejected WrongQueue"
        if sqhd >= self.entries or (sqhd - queue.known) % self.entries > (queue.tail - queue.known) % self.entries:
            return "rejected BadHead"
        record = self.records.get((q, cid))
        if not (cid in self.sent if q == 0 else record and record.phase == "Submitted"):
            return "rejected UnknownId"
        status = f"{field >> 9 & 7}:{field >> 1 & 255:02X}"
        return f"done cid {cid} status {status}" if q else f"admin cid {cid} status {status} dw0 {dw0}"

    def ended(self, verb, q, _, is_success):
        """An admin command has ended (section 14)."""
        queue = self.table[q]
        if verb == "delete_sq":
            queue.state = "deleted" if is_success else "live"
        elif verb == "delete_cq":
            if is_success and queue.state in ("retired", "half made"):
                queue.state = "gone"
                self.free_pages(self.half(q, "cq"))
        elif verb == "create_cq":
            queue.state = "half made" if is_success else "gone"
            if not is_success:
                self.free_pages(self.half(q, "cq"))
        elif verb == "create_sq":
            queue.state = "live" if is_success else "half made"
            if not is_success:
                self.free_pages(self.half(q, "sq"))

    # What the controller does.

    def take_controller(self, verb, answer):
        """Compares what a step of the controller was answered, and notes what it changed."""
        _, q, cid, _ = self.step
        wanted = self.controller_refusal(verb, q, cid) if self.trusted else "?"
        if answer.startswith("refused "):
            came = answer[8:]
            must(came == wanted or wanted == "?" and came in CAUSES[verb], f"it is refused {came}, and not {wanted or 'at all'}")
            if verb == "walk" and came == "Nothing" and not self.trusted and (q, cid) in self.controller.jobs:
                self.controller.jobs[q, cid].verdict = self.controller.jobs[q, cid].verdict or SUCCESS
            return
        must(wanted in (None, "?"), f"it is refused {wanted}, and came {answer!r}")
        must(q <= self.queues, f"there is no queue {q}, and came {answer!r}")
        said = TOUCHED.fullmatch(answer)
        must(said, f"the touched pages are wanted, and came {answer!r}")
        touched = [] if said[2] == "-" else [int(page) for page in said[2].split(",")]
        if not self.trusted:
            self.look_at_touched(verb, touched)
        getattr(self, f"did_{verb}")(q, cid, said[1], touched)

    def look_at_touched(self, verb, touched):
        """What holds of touched pages where something was forged; what stands in the completion rings there is no longer known."""
        must(len(touched) <= (1 if verb == "complete" else 2), f"too many pages: {touched}")
        for page in touched:
            must(page < self.pages, f"page {page} is not in the pool")
            owner = self.owners[page].split()
            record = self.records.get((int(owner[1]), int(owner[2]))) if owner[0] == "command" else None
            must(not record or record.phase in ("Submitted", "Held"), f"page {page} is out")
            if owner[0] == "queue" and owner[2] == "cq":
                queue = self.table[int(owner[1])]
                first = 256 * (page - self.owners.index(" ".join(owner)))
                for slot in range(first, min(first + 256, self.entries)):
                    queue.slots[slot] = None
                queue.forged.clear()

    def same_pages(self, touched, wanted):
        must(touched == wanted, f"the pages {wanted} are touched, and not {touched}")

    def did_fetch(self, q, _, answer, touched):
        side = self.controller.sides[q]
        must(re.fullmatch(r"cid \d+", answer), f"an identifier is wanted, and came {answer!r}")
        cid = int(answer[4:])
        if self.trusted:
            slot = (self.table[q].tail - len(side.unfetched)) % self.entries
            must(cid == side.unfetched[0].cid, f"cid {side.unfetched[0].cid} is fetched, and not {cid}")
            self.same_pages(touched, [self.slot_page(q, "sq", slot)])
        side.rung = max(side.rung - 1, 0)
        entry = side.unfetched.pop(0) if side.unfetched else Entry(cid)
        if len(touched) < 2:
            self.controller.fetched(q, entry if entry.cid == cid else Entry(cid))

    def did_walk(self, q, cid, answer, touched):
        must(answer in ("more", "end") or re.fullmatch(r"fault \d:[0-9A-F]{2}", answer), f"'more', 'end' or 'fault' is wanted, and came {answer!r}")
        if self.trusted:
            must(not answer.startswith("fault"), f"the driver's own list has a fault: {answer!r}")
            for page in touched:
                must(self.owners[page : page + 1] in ([f"command {q} {cid} data"], [f"command {q} {cid} chain"]), f"page {page} is not of command {q} {cid}")
            must(len(touched) <= 2, f"too many pages: {touched}")
        job = self.controller.jobs.setdefault((q, cid), Entry(cid))
        if answer != "more":
            job.verdict = SUCCESS if answer == "end" else answer[6:]

    def did_complete(self, q, cid, answer, touched):
        must(answer == "ok", f"ok is wanted, and came {answer!r}")
        queue, side = self.table[q], self.controller.sides[q]
        job = self.controller.completed(q, cid)
        if not self.trusted:
            return
        must(side.tail == (queue.head + side.posted) % self.entries, "the controller's tail is the host's head and what was not reaped")
        self.same_pages(touched, [self.slot_page(q, "cq", side.tail)])
        status = None if job.request and job.request.kind == "compare" and job.verdict == SUCCESS else job.verdict
        queue.slots[side.tail] = Posted(cid, status, job.dw0, (queue.tail - len(side.unfetched)) % self.entries, side.phase)
        side.posted += 1
        side.tail = (side.tail + 1) % self.entries
        side.phase ^= side.tail == 0

    # The end.

    def end(self):
        """Ends the session."""
        _, told = self.process.communicate()
        must(self.process.returncode == 0 and not told, f"the program ended with status {self.process.returncode}: {told.decode(errors='replace')}")

    def tell(self, seed, why):
        """Tells a difference, with the steps so far in a file."""
        with tempfile.NamedTemporaryFile("w", prefix="nvmesgl-hostile-", suffix=".script", delete=False, encoding="ascii") as file:
            file.write(f"# options: {' '.join(self.options())}\n" + "".join(f"{line}\n" for line in self.script))
        print(f"seed {seed}, world {self.number}, {' '.join(self.options())}", f"step {len(self.script)}, {self.script[-1][:200]!r}: {why}", sep="\n", file=sys.stderr)
        print(f"nvmesgl steps {file.name}", file=sys.stderr)
