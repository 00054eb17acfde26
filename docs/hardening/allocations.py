#!/usr/bin/env python3
"""Refuses each allocation, each read, each write and each start of a thread of every command in turn, and says how the runs ended.

Usage: allocations.py [--program FILE] [--only WORD]    (a C compiler `cc` makes the library that refuses, refusing.c)

An allocation is refused alone, and then with the next 999 (not with all later ones: `serve` tries to close its desk until it has the
memory to). The end is status 6 with nothing written, or all is as before. A read that fails ends with 4 and nothing written, a write
that fails with 5 and a beginning of the answer; a thread that isn't started, a read or a write of one byte changes nothing. Input and
output are also tried in small pieces. Prints a table of the runs for docs/BENCHMARK.md, and ends with 1 where a run is out of line.
"""
import argparse
import collections
import os
import struct
import subprocess
import sys
import tempfile

from commands import OUT_OF_MEMORY, PROGRAM, answered, ended, oddities, small_commands
from transcripts import faults_of

HERE = os.path.dirname(os.path.abspath(__file__))
KINDS = ("allocation", "read", "write", "thread")
# So many numbers one after the other that no call had: then there are no more calls. With several threads their number varies.
LAST_RUNS = 3
# Input and output are cut into about so many pieces of at least so many bytes.
PIECES, LEAST_PIECE = 24, 64

# What is refused, how, and whether in pieces: a column of the table each.
COLUMNS = {
    "allocation, alone": ("allocation", "once", False),
    "allocation, and the next 999": ("allocation", "stretch", False),
    "read fails": ("read", "once", False),
    "read of one byte": ("read", "short", False),
    "read of a piece fails": ("read", "once", True),
    "write fails": ("write", "once", False),
    "write of one byte": ("write", "short", False),
    "write of a piece fails": ("write", "once", True),
    "thread, alone": ("thread", "once", False),
    "thread, and all later": ("thread", "stretch", False),
}


def library(folder):
    made = os.path.join(folder, "refusing.so")
    subprocess.run(["cc", "-shared", "-fPIC", "-O2", "-o", made, os.path.join(HERE, "refusing.c"), "-ldl"], check=True)
    return made


class Refusals:
    """Runs of one command with calls refused."""

    def __init__(self, program, made, folder, command):
        self.program, self.made, self.command = program, made, command
        self.counts = os.path.join(folder, "counts")
        self.source = tempfile.TemporaryFile()
        self.source.write(command.data)
        self.plain = answered(program, command.words, command.data)
        self.alone = self.plain
        if command.is_serve():
            self.alone = answered(program, ["batch", *command.words[1:3]], command.data)

    def run(self, kind, how, number, piece):
        """The end with this call refused, and how many calls there were of this kind and how many were refused."""
        with open(self.counts, "wb") as file:
            file.write(bytes(8 * (len(KINDS) + 1)))
        self.source.seek(0)
        end = ended(self.program, self.command.words, self.source, environment={
            "LD_PRELOAD": self.made, "REFUSING_KIND": kind, "REFUSING_HOW": how, "REFUSING_AT": str(number),
            "REFUSING_MOST": str(piece), "REFUSING_COUNTS": self.counts})
        with open(self.counts, "rb") as file:
            told = struct.unpack(f"={len(KINDS) + 1}Q", file.read())
        return end, told[KINDS.index(kind)], told[-1]

    def piece(self, kind):
        size = len(self.command.data if kind == "read" else self.plain.output)
        return max(LEAST_PIECE, size // PIECES)

    def is_as_before(self, end):
        if not self.command.is_serve():
            return end == self.plain
        return end.status == 0 and not faults_of(self.command.data, self.command.clients(), end.output, self.alone.output)

    def outcome(self, kind, how, end):
        """The name of an end that may be, or None."""
        if oddities(end):
            return None
        if self.is_as_before(end):
            return "as before"
        if end.status == OUT_OF_MEMORY and kind in ("allocation", "thread"):
            return "6"
        if end.status == 4 and (kind, how) == ("read", "once"):
            return "4"
        is_beginning = self.command.is_serve() or self.plain.output.startswith(end.output)
        return "5" if end.status == 5 and (kind, how) == ("write", "once") and is_beginning else None

    def column(self, name):
        """How many runs ended how, and those that are out of line."""
        kind, how, in_pieces = COLUMNS[name]
        piece = self.piece(kind) if in_pieces else 0
        ends, odd, number, idle = collections.Counter(), [], 1, 0
        while idle < LAST_RUNS:
            end, _, refused = self.run(kind, how, number, piece)
            found = self.outcome(kind, how, end)
            idle = 0 if refused else idle + 1
            if refused:
                ends[found] += 1
            if found is None or (not refused and found != "as before"):
                odd.append(f"{self.command.name}: {name} {number}: {end}: {oddities(end)}")
            number += 1
        return ends, odd


def shown(ends):
    """Such as `38: 37 6, 1 as before`."""
    parts = [f"{count} {'out of line' if name is None else name}" for name, count in sorted(ends.items(), key=lambda e: str(e[0]))]
    return f"{sum(ends.values())}: " + ", ".join(parts) if ends else ""


def main():
    options = argparse.ArgumentParser()
    options.add_argument("--program", default=PROGRAM)
    options.add_argument("--only", default="")
    given = options.parse_args()
    totals, odd = {name: collections.Counter() for name in COLUMNS}, []
    print("| Command | " + " | ".join(COLUMNS) + " |\n" + "|---" * (len(COLUMNS) + 1) + "|")
    with tempfile.TemporaryDirectory() as folder:
        made = library(folder)
        for command in small_commands(given.program):
            if not command.name.startswith(given.only):
                continue
            refusals, cells = Refusals(given.program, made, folder, command), []
            odd += [f"{command.name}: {odd}" for odd in oddities(refusals.plain)]
            for name in COLUMNS:
                ends, more = refusals.column(name)
                totals[name] += ends
                odd += more
                cells.append(shown(ends))
            print(f"| `{command.name}` | " + " | ".join(cells) + " |", flush=True)
    print("| together | " + " | ".join(map(shown, totals.values())) + " |")
    print(*odd, sep="\n")
    print(f"allocations: {sum(map(lambda ends: sum(ends.values()), totals.values()))} runs, {len(odd)} out of line")
    return 1 if odd else 0


if __name__ == "__main__":
    sys.exit(main())
