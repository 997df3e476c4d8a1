"""The part `headers` of bench/peers: what the shell traces of arbitrary commands, and where libnvme's headers find the same fields in the same bytes.

The first byte of each field that `admin_commands::identify` reads is compared with the offset of its member in libnvme's structs, and so are the members of a range of blocks
in c/nvmesgl.h, and the bytes that `io_commands::BlockRange::to_bytes` writes.

An entry lies in memory as `struct nvme_passthru_cmd` does up to its time limit: the address of that struct's data is the first word of SGL1, and the length of its
metadata the word behind. A completion's status is taken apart by `nvme_status_code_type` and `nvme_status_code`.
"""

import os
import re
import subprocess
import tempfile

from entries import COMPARE, carried

# Reads a line for each entry and completion, `e` or `c` and its bytes, and writes its fields, all in hexadecimal digits.
READS = r"""#include <libnvme.h>
#include <stddef.h>
#include <stdio.h>
#include <string.h>
int main(void) {
    char kind, text[129];
    while (scanf(" %c %128s", &kind, text) == 2) {
        unsigned char bytes[64] = {0};
        for (size_t i = 0; text[2 * i] && i < sizeof bytes; i++) sscanf(text + 2 * i, "%2hhx", &bytes[i]);
        if (kind == 'e') {
            struct nvme_passthru_cmd at;
            memset(&at, 0, sizeof at);
            memcpy(&at, bytes, offsetof(struct nvme_passthru_cmd, timeout_ms));
            printf("%x %x %x %x %llx %llx %x %x %x %x\n", at.opcode, at.flags, at.rsvd1, at.nsid, (unsigned long long)at.metadata,
                   (unsigned long long)at.addr, at.metadata_len, at.cdw10, at.cdw11, at.cdw12);
        } else {
            unsigned status = (bytes[14] | bytes[15] << 8) >> 1;
            printf("%x %x\n", nvme_status_code_type(status), nvme_status_code(status));
        }
    }
    return 0;
}
"""


ROOT = os.path.dirname(os.path.dirname(os.path.abspath(__file__)))

# The members of libnvme's structs that functions of `admin_commands::identify` read.
MEMBERS = {
    "controller": ("nvme_id_ctrl", {"serial_number": "sn", "model_number": "mn", "firmware_revision": "fr", "most_pages": "mdts", "namespaces": "nn",
                                    "optional_commands": "oncs", "has_volatile_cache": "vwc", "list_support": "sgls"}),
    "namespace": ("nvme_id_ns", {"blocks": "nsze", "last_format": "nlbaf", "format_number": "flbas", "format_of": "lbaf"}),
}

# The members of `nvmesgl_range`, and those of libnvme's `struct nvme_dsm_range`.
RANGE = {"attributes": "cattr", "blocks": "nlb", "slba": "slba"}


def compiled(text, lines=""):
    """What a C program over libnvme's headers prints, fed with lines; none where there are no headers."""
    with tempfile.TemporaryDirectory() as folder:
        source, program = os.path.join(folder, "reads.c"), os.path.join(folder, "reads")
        with open(source, "w", encoding="utf-8") as file:
            file.write(text)
        if subprocess.run(["cc", "-Wall", source, "-o", program], capture_output=True).returncode != 0:
            return None
        return subprocess.run([program], input=lines, capture_output=True, text=True, check=True).stdout.splitlines()


def first_byte(source, function):
    """The first byte that a function reads, as its source says it."""
    body = re.search(rf"fn {function}\(.*?\n}}\n", source, re.DOTALL).group(0)
    return int(re.search(r"bytes\[(\d+)|let at = (\d+)", body).group(1) or re.search(r"let at = (\d+)", body).group(1))


def identified():
    """How many fields of Identify begin where libnvme's structs have them, and how many there are; none where there are no headers."""
    alike = whole = 0
    for module, (struct, members) in MEMBERS.items():
        with open(os.path.join(ROOT, "crates", "admin_commands", "src", "identify", module + ".rt"), encoding="utf-8") as file:
            source = file.read()
        offsets = "".join(f'    printf("%zu\\n", offsetof(struct {struct}, {member}));\n' for member in members.values())
        lines = compiled(f"#include <libnvme.h>\n#include <stddef.h>\n#include <stdio.h>\nint main(void) {{\n{offsets}    return 0;\n}}\n")
        if lines is None:
            return None
        for (function, member), offset in zip(members.items(), lines):
            good = first_byte(source, function) == int(offset)
            whole, alike = whole + 1, alike + good
            if not good:
                print(f"headers: identify: {function} does not begin where {member} does, at {offset}")
    return alike, whole


def first_bytes_of_a_range():
    """The first byte of each member in what `BlockRange::to_bytes` writes, and how many bytes that is, as its source says it."""
    with open(os.path.join(ROOT, "crates", "io_commands", "src", "range.rt"), encoding="utf-8") as file:
        body = re.search(r"fn to_bytes\(.*?\n    }\n", file.read(), re.DOTALL).group(0)
    names = {member: re.search(rf"let (\w+) = self\.{member}\.to_le_bytes", body).group(1) for member in ("blocks", "slba")}
    written = re.search(r"\[\s*(0,[^;]*?),?\s*\]\s*}", body).group(1).split(", ")
    return {"attributes": written.index("0"), **{member: written.index(f"{name}[0]") for member, name in names.items()}, "": len(written)}


def ranged():
    """How many members of a range begin where libnvme's struct has them, in the C header and in what is written, and how many there are; none where there are no headers."""
    members = "".join(f"    TELL(offsetof(nvmesgl_range, {here}), offsetof(struct nvme_dsm_range, {there}));\n" for here, there in RANGE.items())
    lines = compiled(f"""#include <libnvme.h>
#include "{ROOT}/c/nvmesgl.h"
#include <stdio.h>
#define TELL(here, there) printf("%zu %zu\\n", here, there)
int main(void) {{
{members}    TELL(sizeof(nvmesgl_range), sizeof(struct nvme_dsm_range));
    return 0;
}}
""")
    if lines is None:
        return None
    alike, written = 0, first_bytes_of_a_range()
    for member, line in zip([*RANGE, ""], lines):
        here, there = map(int, line.split())
        good = here == there == written[member]
        alike += good
        if not good:
            print(f"headers: range: {member or 'the end'} is at {here} in C and at {written[member]} of what is written, and at {there} in libnvme")
    return alike, len(lines)


def of_entry(told, words):
    """The fields of an entry that libnvme's struct has, under the names of the trace."""
    opcode, flags, cid, nsid, metadata, address, length, low, high, count = words
    found = {"cmd.opc": opcode, "cmd.fuse_op": flags & 3, "cmd.psdt": flags >> 6, "cmd.cid": cid, "cmd.nsid": nsid, "cmd.mptr": metadata}
    found.update({"cmd.sgl1.addr": address, "cmd.sgl1.len": length})
    if opcode == COMPARE:
        found.update({"cmd.dword10": low, "cmd.dword11": high, "cmd.dword12": count})
    else:
        found.update({"cmd.slba": high << 32 | low, "cmd.nlb": (count & 0xFFFF) + 1})
    return {name: value for name, value in found.items() if name in told}


def read(rows):
    """What a C program over libnvme's headers reads in each row; none where there are no headers."""
    lines = compiled(READS, "".join(f"{kind[0]} {raw.hex()}\n" for kind, raw, _ in rows))
    return None if lines is None else [[int(word, 16) for word in line.split()] for line in lines]


def headers(program, count=1000):
    """Whether libnvme's headers have the fields of arbitrary entries and completions where they are traced."""
    rows = [row for row in carried(program, count) if row[0] != "descriptor"]
    lines = read(rows)
    if lines is None:
        print("headers: libnvme or a C compiler is not there: apt-get install libnvme-dev gcc")
        return False
    whole, alike = {}, {}
    for (kind, _, told), words in zip(rows, lines):
        if kind == "entry":
            found = of_entry(told, words)
        else:
            found = {"cqe.status.sct": words[0], "cqe.status.sc": words[1]}
        good = all(told[name] == value for name, value in found.items())
        whole[kind], alike[kind] = whole.get(kind, 0) + 1, alike.get(kind, 0) + good
        if not good:
            print(f"headers: {kind}: {told} is told, {found} is read")
    alike["field of Identify"], whole["field of Identify"] = identified()
    alike["member of a range, and its end"], whole["member of a range, and its end"] = ranged()
    for kind in whole:
        print(f"headers: {kind}: {alike[kind]} of {whole[kind]} as libnvme's headers have them")
    return len(lines) == len(rows) and alike == whole
