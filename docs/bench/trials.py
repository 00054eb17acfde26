#!/usr/bin/env python3
"""Times the commands that run scripts, and prints the tables for docs/BENCHMARK.md.

Usage: trials.py    (run it at the repository's top, after ./shared_prover has built the program)

`trial N` and `batch` on scripts of many lines run five times each; the least processor time counts, and the peak is the greatest
resident size. Where the time of `trial 256` goes is told by `perf`, if there is one, as the share of samples by crate.
"""
import collections
import os
import re
import shutil
import subprocess
import tempfile

PROGRAM = "crates/shared_prover/out/shared_prover"
ROUNDS = 5


def taken(words, text):
    """Processor time in seconds, elapsed time, and peak memory in KiB of one run over this input."""
    with tempfile.TemporaryFile() as source:
        source.write(text)
        source.seek(0)
        begun = os.times().elapsed
        process = subprocess.Popen([PROGRAM, *words], stdin=source, stdout=subprocess.DEVNULL)
        _, status, used = os.wait4(process.pid, 0)
        assert os.waitstatus_to_exitcode(status) == 0, words
        return used.ru_utime + used.ru_stime, os.times().elapsed - begun, used.ru_maxrss


def row(name, words, text=b""):
    runs = [taken(words, text) for _ in range(ROUNDS)]
    spent, elapsed, peak = min(r[0] for r in runs), min(r[1] for r in runs), max(r[2] for r in runs)
    print(f"| {name} | {spent * 1000:.0f} | {elapsed * 1000:.0f} | {peak:,} |")


def shares(words):
    """The share of samples by the crate that a symbol's name begins with."""
    with tempfile.TemporaryDirectory() as folder:
        data = os.path.join(folder, "perf.data")
        subprocess.run(["perf", "record", "-q", "-o", data, PROGRAM, *words], stdout=subprocess.DEVNULL, check=True)
        told = subprocess.run(["perf", "report", "-i", data, "--stdio", "-g", "none", "--sort", "symbol"],
                              stdout=subprocess.PIPE, stderr=subprocess.DEVNULL, check=True, text=True).stdout
    by_crate = collections.Counter()
    for share, symbol in re.findall(r"^ +([\d.]+)% +\[[.k]\] (\S+)", told, re.MULTILINE):
        by_crate[re.split(r"::|\.|\+", symbol)[0]] += float(share)
    for crate, share in by_crate.most_common(12):
        print(f"| `{crate}` | {share:.1f} |")


def main():
    print("| Run | Processor time (ms) | Elapsed (ms) | Peak memory (KiB) |\n|---|---|---|---|")
    for jobs in (16, 64, 256):
        row(f"`trial {jobs}`", ["trial", str(jobs)])
    for lines in (16_384, 65_536):
        row(f"`batch`, {lines:,} lines `status 0 0`", ["batch", "--clients", "1"], b"status 0 0\n" * lines)
    if shutil.which("perf"):
        print("\n| Crate | Share of the samples of `trial 256` (in 100) |\n|---|---|")
        shares(["trial", "256"])


main()
