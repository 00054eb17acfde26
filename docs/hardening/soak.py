#!/usr/bin/env python3
"""Random commands over hostile bytes under a memory limit: every run must end, with a status that has a name, and with what that says.

Usage: soak.py MINUTES SEED [--program FILE]    runs for so many minutes, and prints how many runs of each command ended how
       soak.py --short [--program FILE]         the first runs of one seed, in some seconds, without the largest inputs
       soak.py --again SEED NUMBER              one run again, and how it ends

Run NUMBER of a seed is always the same one. Beside the status it tries that answers agree: what `place` and `export` write is
accepted by `check`, what `run` writes is admitted by `replay`, and `replay`, `place` and `list` refuse alike. What is out of line
is printed with its number, and the script ends with 1.
"""
import argparse
import collections
import os
import random
import subprocess
import sys
import tempfile
import time

import hostile
from commands import MOST_SECONDS, PROGRAM, STATUSES, TOP, End, ended, oddities, serves
from transcripts import faults_of

MEBIBYTE = 2**20
# Address space of a run, in bytes. The least one has room for the program and the C library, and for few threads.
MEMORIES = [48 * MEBIBYTE, 64 * MEBIBYTE, 128 * MEBIBYTE, 256 * MEBIBYTE, 1024 * MEBIBYTE, 4096 * MEBIBYTE]
SHORT_SEED, SHORT_RUNS = 1, 260
ODD_WORDS = ["", "replay", "--clients", "--workers", "--batch", "1", "0", "17", "9", "4294967296", "-1", "+1", "1 ", "--", "-h", "--help",
             "--version", "\udcff", "x" * 5_000, "--clients=1", "--clients=1=1"]
KNOWN = ("replay", "place", "list", "check", "run", "boot", "make", "trial", "batch", "export", "serve")


class Run:
    """The words, the input and the memory of a run, chosen by its seed and its number."""

    def __init__(self, seed, number, is_short, has_serve):
        self.rng = random.Random(f"{seed} {number}")
        self.is_short = is_short
        self.memory = self.rng.choice(MEMORIES)
        self.clients, self.blank = self.rng.choice((1, 1, 2, 4, 16)), 0
        makers = [self.files] * 5 + [self.certificates] * 4 + [self.texts] * 4 + [self.scripts] * 6 + [self.odd_words, self.bare]
        self.rng.choice(makers)()
        if has_serve and self.words[0] == "batch" and self.rng.random() < 0.6:
            self.words = ["serve", *self.words[1:], "--workers", str(self.rng.choice((1, 2, 3, 8)))]
        if not is_short and self.rng.random() < 0.004:
            self.blank, self.data = hostile.long_input(self.rng)
        self.stream = self.rng.choice(STREAMS) if self.rng.random() < 0.05 else "plain"

    def is_at_a_limit(self):
        return not self.is_short and self.rng.random() < 0.03

    def files(self):
        self.words = [self.rng.choice(("replay", "replay", "place", "list"))]
        self.data = hostile.file_at_a_limit(self.rng) if self.is_at_a_limit() else hostile.file(self.rng)

    def certificates(self):
        self.words = ["check"]
        self.data = hostile.certificate(self.rng)

    def texts(self):
        self.words = ["run"]
        self.data = hostile.text_at_a_limit(self.rng) if self.is_at_a_limit() else hostile.text(self.rng)

    def scripts(self):
        self.words = ["batch", "--clients", str(self.clients)]
        if self.rng.random() < 0.3:
            self.words = ["export", "--clients", str(self.clients), "--batch", str(self.rng.choice((0, 0, 1, 2**32 - 1)))]
        at_limit = self.is_at_a_limit()
        self.data = hostile.script_at_a_limit(self.rng) if at_limit else hostile.script(self.rng, self.clients)

    def odd_words(self):
        """Words of commands with others among them."""
        self.words = [self.rng.choice(KNOWN + ("frob", "REPLAY")), *self.rng.choices(ODD_WORDS, k=self.rng.randrange(6))]
        self.data = hostile.noise(self.rng)

    def bare(self):
        """A command that reads nothing."""
        most = 12 if self.is_short else 256
        jobs = str(self.rng.randint(0, most + 1))
        self.words = self.rng.choice((["boot"], ["make", jobs], ["trial", jobs]))
        self.data = b""

    def source(self):
        file = tempfile.TemporaryFile()
        file.write(self.data)
        while file.tell() < self.blank:
            file.write((self.data * (MEBIBYTE // len(self.data)))[:self.blank - file.tell()])
        file.seek(0)
        return file


# Streams

def plain(program, run):
    with run.source() as source:
        return ended(program, run.words, source, memory=run.memory)


def piped(program, run):
    """The input comes by a pipe, in pieces as the system cuts them."""
    with run.source() as source:
        feeder = subprocess.Popen(["cat"], stdin=source, stdout=subprocess.PIPE, stderr=subprocess.DEVNULL)
        end = ended(program, run.words, feeder.stdout, memory=run.memory)
        feeder.stdout.close()
        feeder.wait()
        return end


def directory(program, run):
    source = os.open(TOP, os.O_RDONLY)
    end = ended(program, run.words, source, memory=run.memory)
    os.close(source)
    return end


def to_full_device(program, run):
    with run.source() as source, open("/dev/full", "wb") as full:
        return as_written(ended(program, run.words, source, full, run.memory))


def to_closed_pipe(program, run):
    reader, writer = os.pipe()
    os.close(reader)
    with run.source() as source:
        end = ended(program, run.words, source, writer, run.memory)
    os.close(writer)
    return as_written(end)


def as_written(end):
    """What went to a stream that takes nothing isn't seen: an answer there would be a lie."""
    return End(end.status, b"an answer that could not be written\n" if end.status in (0, 1, 3) else b"", end.told)


STREAM_RUNS = {"plain": plain, "pipe": piped, "directory": directory, "full": to_full_device, "closed": to_closed_pipe}
STREAMS = [name for name in STREAM_RUNS if name != "plain"]


# Answers that agree

def follow_up(program, run, end):
    """What is out of line in the answer beside that of another command."""
    verb = run.words[0]

    def other(words, data):
        with tempfile.TemporaryFile() as source:
            source.write(data)
            source.seek(0)
            return ended(program, words, source)

    if end.status == 0 and verb in ("place", "export"):
        return [] if other(["check"], end.output).status == 0 else ["the certificate isn't accepted"]
    if end.status == 0 and verb == "run":
        return [] if other(["replay"], end.output).status == 0 else ["the file isn't admitted"]
    if end.status == 1 and verb in ("place", "list"):
        return [] if other(["replay"], run.data) == end else ["replay answers otherwise"]
    if end.status == 0 and verb == "serve" and run.words[1] == "--clients":
        return faults_of(run.data, int(run.words[2]), end.output, other(["batch", *run.words[1:3]], run.data).output)
    return []


def tried(program, run, is_deep):
    """The end of a run and what is out of line in it."""
    end = STREAM_RUNS[run.stream](program, run)
    if runs_on(run, end):
        return end, []
    odd = oddities(end)
    if run.stream in ("full", "closed") and end.status in (0, 1, 3):
        odd = [f"it ends with {end.status} though nothing could be written"]
    if not odd and is_deep and not run.blank and run.stream in ("plain", "pipe"):
        odd = follow_up(program, run, end)
    return end, odd


def runs_on(run, end):
    """Where no memory is left for the closing of its desk `serve` tries on: that is no end, and is counted as such."""
    return end.status is None and run.words[0] == "serve"


# Runs

def name_of(run):
    return run.words[0] if run.words[0] in KNOWN else "other words"


def table(ends):
    names = [f"{number} {name}" for number, (name, _, _) in STATUSES.items()]
    print("| Command | Runs | " + " | ".join(names) + " | ran on |\n" + "|---" * (len(STATUSES) + 3) + "|")
    for name in sorted(ends):
        counts = ends[name]
        cells = [counts[status] or "" for status in [*STATUSES, None]]
        print(f"| `{name}` | {sum(counts.values())} | " + " | ".join(map(str, cells)) + " |")


def soak(program, seed, last, is_short):
    """Runs until `last` says so, and tells how many ended how and how many were out of line."""
    has_serve = serves(program)
    ends, number, failed, longest = collections.defaultdict(collections.Counter), 0, 0, (0, 0)
    while not last(number):
        run = Run(seed, number, is_short, has_serve)
        begun = time.monotonic()
        end, odd = tried(program, run, not is_short or number % 4 == 0)
        longest = max(longest, (time.monotonic() - begun, number))
        ends[name_of(run)][end.status] += 1
        for each in odd:
            print(f"soak: run {number} of seed {seed}: {run.words} by {run.stream}, {run.memory // MEBIBYTE} MiB: {each}: {end}", flush=True)
        failed += bool(odd)
        number += 1
    if not is_short:
        table(ends)
        print(f"The longest run took {longest[0]:.1f} s: number {longest[1]}. A run was given {MOST_SECONDS} s.")
    print(f"soak: {number} runs of seed {seed}, {failed} out of line")
    return failed


def main():
    options = argparse.ArgumentParser()
    options.add_argument("minutes", nargs="?", type=float, default=1)
    options.add_argument("seed", nargs="?", type=int, default=SHORT_SEED)
    options.add_argument("--short", action="store_true")
    options.add_argument("--again", nargs=2, type=int)
    options.add_argument("--program", default=PROGRAM)
    given = options.parse_args()
    if not os.access(given.program, os.X_OK):
        print(f"soak: there is no program at {given.program}")
        return 1
    if given.again:
        run = Run(*given.again, False, serves(given.program))
        end, odd = tried(given.program, run, True)
        print(run.words, run.stream, run.memory, run.data[:400], end, odd)
        return 1 if odd else 0
    if given.short:
        return 1 if soak(given.program, SHORT_SEED, lambda number: number >= SHORT_RUNS, True) else 0
    until = time.monotonic() + 60 * given.minutes
    return 1 if soak(given.program, given.seed, lambda _: time.monotonic() >= until, False) else 0


if __name__ == "__main__":
    sys.exit(main())
