#!/usr/bin/env python3
"""count.py INPUT COMMAND..: the instructions that a program executes on an input, less those on an empty one; the same number each time.

COMMAND is the words that run an x86-64 program, which valgrind counts. Where the first is an emulator (qemu-x86_64) it says each instruction
as it is executed instead; a string instruction that repeats counts once there.
"""
import itertools
import os
import re
import subprocess
import sys
import tempfile
from pathlib import Path

HERE = Path(__file__).resolve().parent
PAGE = 4096
PLACE = re.compile(rb"^Trace \d+: 0x[0-9a-f]+ \[[0-9a-f]+/([0-9a-f]+)/", re.M)
CHUNK = 1 << 22


def words(program):
    """The words of the command that runs a program of the project."""
    return subprocess.run([HERE / "../run", "--command", program], capture_output=True, text=True, check=True).stdout.splitlines()


def is_emulated(command):
    return os.path.basename(command[0]).startswith("qemu-")


def traced(command, source, what, pattern):
    """What a pattern finds in the lines that the emulator says before each instruction: `exec`, its place, or `cpu`, the registers."""
    said = subprocess.Popen([command[0], "-one-insn-per-tb", "-d", f"{what},nochain", *command[1:]],
                            stdin=source, stdout=subprocess.DEVNULL, stderr=subprocess.PIPE)
    rest = b""
    while chunk := said.stderr.read(CHUNK):
        lines, _, rest = (rest + chunk).rpartition(b"\n")
        yield from pattern.findall(lines)
    yield from pattern.findall(rest)
    if said.wait():
        sys.exit(f"{command[-1]} failed")


def loaded_at(main, addresses, places):
    """Where a program was loaded, of whose code these addresses are: the shift at which the most of them are among the places executed."""
    shifts = {place - main for place in places if (place - main) % PAGE == 0}
    if not shifts:
        sys.exit("the program is not found where it ran")
    return max(shifts, key=lambda shift: sum(address + shift in places for address in addresses))


def by_emulator(command, source):
    return sum(1 for _ in itertools.groupby(traced(command, source, "exec", PLACE)))


def callgrind(command, source, *options):
    """What valgrind says of a run of a command, and the file of counts that it writes."""
    with tempfile.TemporaryDirectory() as room:
        out = Path(room) / "out"
        said = subprocess.run(["valgrind", "--tool=callgrind", f"--callgrind-out-file={out}", *options, *command],
                              stdin=source, stdout=subprocess.DEVNULL, stderr=subprocess.PIPE, text=True, check=True)
        return said.stderr, out.read_text()


def by_valgrind(command, source):
    said, _ = callgrind(command, source)
    return int(re.search(r"Collected : (\d+)", said)[1])


def instructions(command, name):
    """The instructions of a command on the input of that name, less those on an empty one."""
    counted = by_emulator if is_emulated(command) else by_valgrind
    with open(name, "rb") as source, open(os.devnull, "rb") as empty:
        return counted(command, source) - counted(command, empty)


if __name__ == "__main__":
    if len(sys.argv) < 3:
        sys.exit("usage: count.py INPUT COMMAND..")
    print(instructions(sys.argv[2:], sys.argv[1]))
