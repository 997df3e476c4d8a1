"""QEMU that runs no guest, driven over its qtest socket: memory and ports.

    with Qtest(["-device", "edu"]) as qemu:
        qemu.write(0x1000, b"AB")

QEMU is started stopped (`-S`): no instruction of a guest is ever run, and what stands in its memory is what was written there. Its clock stands
still; what a device does at once, as NVMe commands, it does all the same. Python 3.7 or later; Debian's `qemu-system-x86`.
"""

import base64
import os
import shutil
import socket
import subprocess
import tempfile

PROGRAM = "qemu-system-x86_64"
# What a machine without a guest still needs. No device stands there but the machine's own.
OPTIONS = ["-S", "-display", "none", "-nodefaults", "-vga", "none", "-qtest-log", "none"]
# The most bytes of one read or write, and how many seconds QEMU has for an answer.
MOST, PATIENCE = 1 << 18, 20.0


class Missing(Exception):
    """QEMU is not there."""


class Late(Exception):
    """QEMU, or a device of its, did not do in time what it should."""


class Qtest:
    """A QEMU that was started with `options`, and its socket. `close`, or the end of a `with`, ends both."""

    def __init__(self, options, machine="pc", memory="64M", patience=PATIENCE):
        if shutil.which(PROGRAM) is None:
            raise Missing(f"{PROGRAM} is not there: apt-get install qemu-system-x86")
        self.patience = patience
        self.folder = tempfile.TemporaryDirectory()
        self.log = open(os.path.join(self.folder.name, "log"), "w+b")
        path = os.path.join(self.folder.name, "qtest")
        said = [PROGRAM, "-machine", machine, "-m", memory, *OPTIONS, "-qtest", f"unix:{path}", *options]
        with socket.socket(socket.AF_UNIX) as door:
            door.bind(path)
            door.listen(1)
            door.settimeout(PATIENCE)
            self.process = subprocess.Popen(said, stdin=subprocess.DEVNULL, stdout=self.log, stderr=self.log)
            try:
                self.socket, _ = door.accept()
            except socket.timeout:
                self.process.kill()
                self.process.wait()
                raise Late(f"QEMU did not begin: {self.said()}") from None
        self.socket.settimeout(patience)
        self.file = self.socket.makefile("rb", buffering=1 << 16)

    def __enter__(self):
        return self

    def __exit__(self, *_):
        self.close()

    def close(self):
        """Ends QEMU, also one that does not answer any more."""
        self.file.close()
        self.socket.close()
        self.process.kill()
        self.process.wait()
        self.log.close()
        self.folder.cleanup()

    def said(self):
        """What QEMU printed so far."""
        self.log.seek(0)
        return self.log.read().decode(errors="replace").strip()

    def ask(self, *lines):
        """Sends commands, and answers what stands after `OK` in the answer to each."""
        self.socket.sendall("".join(line + "\n" for line in lines).encode())
        return [self._answer(line) for line in lines]

    def _answer(self, line):
        try:
            text = self.file.readline().decode()
            while text.startswith("IRQ"):
                text = self.file.readline().decode()
        except socket.timeout:
            raise Late(f"no answer to {line[:60]!r}") from None
        if not text.startswith("OK"):
            raise EOFError(f"{line[:60]!r}: {text.strip() or 'QEMU ended'} {self.said()}")
        return text[3:].strip()

    def read(self, at, size):
        """So many bytes of the guest's memory."""
        return b"".join(self.read_all([(at + done, min(MOST, size - done)) for done in range(0, size, MOST)]))

    def read_all(self, ranges):
        """The bytes of each range, an address and a size."""
        return [base64.b64decode(text) for text in self.ask(*(f"b64read {at:#x} {size:#x}" for at, size in ranges))]

    def write(self, at, data):
        """Puts bytes into the guest's memory."""
        self.write_all([(at + done, data[done : done + MOST]) for done in range(0, len(data), MOST)])

    def write_all(self, parts):
        """Puts each of the parts, an address and bytes, into the guest's memory."""
        self.ask(*(f"b64write {at:#x} {len(data):#x} {base64.b64encode(data).decode()}" for at, data in parts))

    def zero(self, at, size):
        """Puts zeros into the guest's memory."""
        self.ask(f"memset {at:#x} {size:#x} 0x0")

    def peek(self, at):
        """The 32 bits of a register that is mapped at an address."""
        return int(self.ask(f"readl {at:#x}")[0], 16)

    def poke(self, at, value):
        """Writes the 32 bits of a register that is mapped at an address."""
        self.ask(f"writel {at:#x} {value:#x}")

    def port(self, at):
        """The 32 bits of an I/O port."""
        return int(self.ask(f"inl {at:#x}")[0], 16)

    def set_port(self, at, value):
        """Writes the 32 bits of an I/O port."""
        self.ask(f"outl {at:#x} {value:#x}")
