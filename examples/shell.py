#!/usr/bin/env python3
"""Drives `nvmesgl shell` through a pipe: writes a block, reads it back, and counts the steps that this took.

    python3 examples/shell.py PROGRAM [ARGUMENT..]

PROGRAM with its arguments is what starts the shell, by default `nvmesgl shell`.
"""

import subprocess
import sys


class Shell:
    """A running shell. Each line is answered before the next one is sent."""

    def __init__(self, command):
        self.process = subprocess.Popen(
            command, stdin=subprocess.PIPE, stdout=subprocess.PIPE, text=True, bufsize=1
        )
        self.lines = 0

    def ask(self, line):
        """The lines that a line is answered with. A line that is printed after them shows where they end."""
        self.lines += 1
        mark = f"end of answer {self.lines}"
        self.process.stdin.write(f"{line}\n.print {mark}\n")
        self.process.stdin.flush()
        answer = []
        for said in self.process.stdout:
            if said == mark + "\n":
                return answer
            answer.append(said.rstrip("\n"))
        raise EOFError(f"the shell ended at {line!r}, with status {self.process.wait()}")

    def close(self):
        """Ends the session, and answers the program's exit status."""
        self.process.stdin.close()
        self.process.stdout.close()
        return self.process.wait()


def drive(shell):
    """Types the lesson, and answers the exit status of the shell."""
    # One line each.
    print(*shell.ask(".write 1 5 1 ABCD"))
    print(*shell.ask(".read 1 5 1"))
    # The same Read, step by step; the controller works by itself.
    for line in ["reserve 1 read 5 1 0+512", "build 1 0", "submit 1 0", "ring 1"]:
        print(*shell.ask(line))
    served = shell.ask(".serve")
    print(f"{len(served) - 1} steps of the controller, the last one: {served[-2]}")
    for line in ["reap 1", "collect 1 0", "gather 1 0", "release 1 0"]:
        print(*shell.ask(line))
    # A line that is at fault changes nothing.
    print(shell.ask("raed 1")[0])
    print(*shell.ask(".counts"))
    return shell.close()


def main():
    command = sys.argv[1:] or ["nvmesgl", "shell"]
    try:
        return drive(Shell(command))
    except (OSError, EOFError) as why:
        print(f"'{' '.join(command)}' does not answer as a shell does: {why}", __doc__, sep="\n\n", file=sys.stderr)
        return 1


if __name__ == "__main__":
    sys.exit(main())
