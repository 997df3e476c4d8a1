"""The part `entries` of bench/peers: what the shell traces of arbitrary commands, and what Wireshark's dissector reads in the same bytes.

An entry and a completion are given to it in a capture of NVMe over TCP, whose capsules hold them as they stand in a queue. A descriptor of a list is
given as the first one of an entry.
"""

import importlib.util
import os
import random
import re
import shutil
import struct
import subprocess
import tempfile

ROOT = os.path.dirname(os.path.dirname(os.path.abspath(__file__)))
BLOCK, PAGE, PORT, COMPARE = 512, 4096, 4420, 0x05
OPTIONS = ["--pages", "64", "--queues", "2", "--entries", "8", "--segment", "4", "--blocks", "64"]
# What blocks are filled with: few enough that a Compare now and then finds what it looks for.
FILLS = [bytes(at * step & 0xFF for at in range(BLOCK)) for step in (1, 7)]
BYTES = re.compile(r"    ((?:[0-9A-F]{2} ){15}[0-9A-F]{2})$")
OPCODE = re.compile(r"    OPC (\w+)h [^,]*, FUSE (\d+), PSDT (\d+), CID (\d+), NSID (\d+), MPTR (\w+)h$")
WORDS = re.compile(r"    CDW10 (\w+)h, CDW11 (\w+)h, CDW12 (\w+)h, CDW13 (\w+)h, CDW14 (\w+)h, CDW15 (\w+)h$")
DESCRIPTOR = re.compile(r"    (?:SGL1|\d+:) (Data Block|Bit Bucket|Segment|Last Segment)(?:, address (\w+)h)?, length (\d+)$")
COMPLETION = re.compile(r"    DW0 (\w+)h, SQHD (\d+), SQID (\d+), CID (\d+), P (\d), SF (\d):(\w+)\b.*$")
SEGMENT = re.compile(r"  segment at page (\d+) \+ (\w+)h$")
TYPES = {"Data Block": 0, "Bit Bucket": 1, "Segment": 2, "Last Segment": 3}


def shell_of(program, options=tuple(OPTIONS)):
    """A running shell, driven as examples/shell.py drives it."""
    spec = importlib.util.spec_from_file_location("shell", os.path.join(ROOT, "examples", "shell.py"))
    module = importlib.util.module_from_spec(spec)
    spec.loader.exec_module(module)
    return module.Shell([program, "shell", *options])


def pieces(rng, blocks, buckets, most):
    """Random pieces of so many blocks, each in one page; some of a Read's go nowhere."""
    left, found = blocks * BLOCK, []
    while left and len(found) < most:
        offset = rng.randrange(0, PAGE, 4)
        size = min(left, rng.choice([4, 64, 512, 512, 2048, PAGE]), PAGE - offset)
        found.append(f"x{size}" if buckets and rng.random() < 0.2 else f"{offset}+{size}")
        left -= size
    return found + [f"0+{left}"] * (left > 0)


def request(rng, most=12, buckets=True):
    """The lines that a command begins with, up to its submission, and its queue. It is alone, so it has identifier 0."""
    q, kind, blocks = rng.randrange(1, 3), rng.choice(["read", "write", "compare"]), rng.randrange(1, 9)
    lines = [f"reserve {q} {kind} {rng.randrange(60)} {blocks} {' '.join(pieces(rng, blocks, buckets and kind == 'read', most))}"]
    if kind != "read":
        lines.append(f"fill {q} 0 {FILLS[rng.randrange(256) % len(FILLS)].hex() * blocks}")
    return q, lines + [f"build {q} 0", f"submit {q} 0"]


def asked(shell, lines):
    """The answers to lines; none of them may be at fault or refused."""
    answers = [shell.ask(line) for line in lines]
    bad = [said for answer in answers for said in answer[:1] if said.startswith("line ") or " refused " in said]
    if bad:
        raise ValueError(f"the shell answers {bad[0]}")
    return answers


def raw_of(lines):
    """The first bytes that a trace shows."""
    rows = [bytes.fromhex(found[1]) for found in map(BYTES.match, lines) if found]
    return b"".join(rows)


def descriptor_of(line):
    """The fields of a descriptor that a line tells. A Bit Bucket's address is reserved, and is not told."""
    found = DESCRIPTOR.match(line)
    fields = {"cmd.sgl.type": TYPES[found[1]], "cmd.sgl1.len": int(found[3])}
    return fields if found[2] is None else {**fields, "cmd.sgl1.addr": int(found[2], 16)}


def blocks_of(opcode, low, high, count):
    """Which blocks an entry names. The dissector leaves the words of a Compare as they are."""
    if opcode == COMPARE:
        return {"cmd.dword10": low, "cmd.dword11": high, "cmd.dword12": count}
    return {"cmd.slba": high << 32 | low, "cmd.nlb": (count & 0xFFFF) + 1}


def entry_of(lines):
    """The fields that a trace tells of an entry."""
    fields = {}
    for line in lines:
        opcode, words = OPCODE.match(line), WORDS.match(line)
        if opcode:
            names = ["cmd.opc", "cmd.fuse_op", "cmd.psdt", "cmd.cid", "cmd.nsid", "cmd.mptr"]
            fields.update(zip(names, [int(opcode[1], 16), *map(int, opcode.groups()[1:5]), int(opcode[6], 16)]))
        elif words:
            fields.update(blocks_of(fields["cmd.opc"], *(int(words[at], 16) for at in (1, 2, 3))))
        elif line.startswith("    SGL1"):
            fields.update(descriptor_of(line))
    return fields


def completion_of(lines):
    """The fields that a trace tells of a completion."""
    found = next(filter(None, map(COMPLETION.match, lines)))
    dw0, sqhd, sqid, cid, phase, sct, sc = found.groups()
    names = ["cqe.sqhd", "cqe.sqid", "cqe.cid", "cqe.status.p", "cqe.status.sct", "cqe.status.sc"]
    return dict(zip(names, [int(sqhd), int(sqid), int(cid), int(phase), int(sct), int(sc, 16)]))


def page_bytes(shell, page):
    """The bytes of a page that is in."""
    data = bytearray(PAGE)
    for line in shell.ask(f".page {page}"):
        at, *row = line.split()
        if row:
            data[int(at, 16) : int(at, 16) + len(row)] = bytes.fromhex("".join(row))
    return bytes(data)


def lists_of(shell, lines):
    """Each descriptor of a traced list: its bytes in the pool, and its fields as they are told."""
    data, at = b"", 0
    for line in lines:
        found = SEGMENT.match(line)
        if found:
            data, at = page_bytes(shell, int(found[1])), int(found[2], 16)
        elif data and DESCRIPTOR.match(line) and not line.startswith("    SGL1"):
            yield data[at : at + 16], descriptor_of(line)
            at += 16


def carried(program, count):
    """Carries arbitrary commands through. For each: a kind, the bytes, and the fields that are told of them."""
    shell, rng = shell_of(program), random.Random(1)
    shell.ask(".trace on")
    for _ in range(count):
        q, lines = request(rng)
        traced = asked(shell, lines)[-1]
        entry = raw_of(traced)
        yield "entry", entry, entry_of(traced)
        for raw, fields in lists_of(shell, traced):
            yield "descriptor", entry[:24] + raw + entry[40:], fields
        traced = asked(shell, [f"ring {q}", ".serve", f"reap {q}"])[-1]
        yield "completion", raw_of(traced), completion_of(traced)
        asked(shell, [f"collect {q} 0", f"release {q} 0"])
    shell.close()


def frame(out, source, target, seqs, body):
    """Writes one TCP segment over Ethernet and IPv4."""
    hosts = [bytes([10, 0, 0, 1]), bytes([10, 0, 0, 2])]
    tcp = struct.pack(">HHIIBBHHH", source, target, seqs[target], seqs[source], 5 << 4, 0x18, 65535, 0, 0)
    addresses = b"".join(hosts if target == PORT else hosts[::-1])
    packet = struct.pack(">BBHHHBBH", 0x45, 0, 40 + len(body), 0, 0, 64, 6, 0) + addresses + tcp + body
    data = bytes(12) + b"\x08\0" + packet
    out.write(struct.pack("<IIII", 0, 0, len(data), len(data)) + data)
    seqs[target] += len(body)


def pdu(kind, header, data=b""):
    """A protocol data unit of NVMe over TCP."""
    size = 8 + len(header)
    return struct.pack("<BBBBI", kind, 0, size, size if data else 0, size + len(data)) + header + data


def capture(path, rows):
    """Writes a capture of a connection for an I/O queue: each entry in a command's capsule, each completion in an answer's."""
    connect = bytes([0x7F, 0x40, 0xFF, 0xFF, 1]) + bytes(37) + struct.pack("<HH", 1, 7) + bytes(18)
    units = [(0, bytes(120), b""), (1, bytes(120), b""), (4, connect, bytes(1024)), (5, bytes(12) + b"\xFF\xFF\0\0", b"")]
    units += [(5 if kind == "completion" else 4, raw, b"") for kind, raw, _ in rows]
    seqs = {PORT: 1, 50000: 1}
    with open(path, "wb") as out:
        out.write(struct.pack("<IHHiIII", 0xA1B2C3D4, 2, 4, 0, 0, 1 << 20, 1))
        for kind, header, data in units:
            source, target = (50000, PORT) if kind in (0, 4) else (PORT, 50000)
            frame(out, source, target, seqs, pdu(kind, header, data))


def dissected(path):
    """For each capsule behind the connection's own, what the dissector reads."""
    names = ["cmd.opc", "cmd.fuse_op", "cmd.psdt", "cmd.cid", "cmd.nsid", "cmd.mptr", "cmd.slba", "cmd.nlb", "cmd.sgl.type", "cmd.sgl1.addr", "cmd.sgl1.len"]
    names += ["cmd.dword10", "cmd.dword11", "cmd.dword12", "cqe.sqhd", "cqe.sqid", "cqe.cid", "cqe.status.p", "cqe.status.sct", "cqe.status.sc"]
    asked = ["tshark", "-r", path, "-d", f"tcp.port=={PORT},nvme-tcp", "-T", "fields", "-E", "occurrence=f"]
    ran = subprocess.run(asked + [word for name in names for word in ("-e", f"nvme.{name}")], capture_output=True, text=True, check=True)
    for line in ran.stdout.splitlines()[4:]:
        yield {name: int(text, 0) for name, text in zip(names, line.split("\t")) if text}


def entries(program, count=1000):
    """Whether the dissector reads the entries, descriptors and completions of arbitrary commands as they are traced."""
    if shutil.which("tshark") is None:
        print("entries: tshark is not there: apt-get install tshark")
        return False
    rows = list(carried(program, count))
    with tempfile.TemporaryDirectory() as folder:
        path = os.path.join(folder, "capsules.pcap")
        capture(path, rows)
        read = list(dissected(path))
    if len(read) != len(rows):
        print(f"entries: {len(rows)} were traced, and tshark read {len(read)}")
        return False
    alike, whole, shown = {}, {}, 0
    for number, ((kind, _, told), found) in enumerate(zip(rows, read)):
        others = {name: (value, found.get(name)) for name, value in told.items() if found.get(name) != value}
        whole[kind] = whole.get(kind, 0) + 1
        alike[kind] = alike.get(kind, 0) + (not others)
        if others and shown < 5:
            shown += 1
            print(f"entries: {kind} {number}: {others} (told, read)")
    for kind in whole:
        print(f"entries: {kind}: {alike[kind]} of {whole[kind]} as tshark reads them")
    return bool(whole) and alike == whole
