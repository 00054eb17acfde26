#!/usr/bin/env python3
"""Times the checking of certificates in 1, 2, 4 and 8 chunks beside plain Rust in one run, and prints a table for docs/BENCHMARK.md.

Usage: chunks.py CHECKER PLAIN FILE [FILE ..]

CHECKER is the program of docs/bench/check_chunks.txt, built (0 chunks read the certificate and check nothing), and PLAIN
docs/bench/plain_check.rs, compiled. All take each file in turn, sixteen times; the least time of each counts, less that of reading:
the time that passes, and the processor time of all threads. What the machine allows is told by as many processes in one chunk each
as there are processors, side by side. A machine that does nothing else is wanted.
"""
import os
import subprocess
import sys
import time

ROUNDS = 16
CHUNKS = (1, 2, 4, 8)


def begun(command, path):
    with open(path, "rb") as source:
        return subprocess.Popen(command, stdin=source, stdout=subprocess.DEVNULL)


def ended(process):
    """The processor time and the peak memory in KiB."""
    _, status, used = os.wait4(process.pid, 0)
    process.returncode = os.waitstatus_to_exitcode(status)
    assert process.returncode == 0, (process.args, process.returncode)
    return used.ru_utime + used.ru_stime, used.ru_maxrss


def taken(command, path, copies=1):
    """The time that passed, the processor time, and the peak memory in KiB of so many runs at once."""
    first = time.monotonic()
    used = [ended(process) for process in [begun(command, path) for _ in range(copies)]]
    return time.monotonic() - first, max(u[0] for u in used), max(u[1] for u in used)


def main():
    checker, plain, paths = sys.argv[1], sys.argv[2], sys.argv[3:]
    processors = len(os.sched_getaffinity(0))
    commands = {str(k): ([checker, str(k)], 1) for k in (0, *CHUNKS)} | {"plain": ([plain], 1), "plain reads": ([plain, "read"], 1)}
    commands |= {"all": ([checker, "1"], processors), "all read": ([checker, "0"], processors)}
    print("| File | Chunks | Passes (ms) | Processors (ms) | Peak memory (KiB) | Sooner than one | Plain Rust (ms) | Ratio |")
    print("|---|---|---|---|---|---|---|---|")
    for path in paths:
        least = {}
        for _ in range(ROUNDS):
            for name, (command, copies) in commands.items():
                now = taken(command, path, copies)
                least[name] = tuple(map(min, now, least.get(name, now)))
        walk = {k: tuple(least[str(k)][i] - least["0"][i] for i in (0, 1)) for k in CHUNKS}
        theirs = least["plain"][0] - least["plain reads"][0]
        for k in CHUNKS:
            print(f"| {os.path.basename(path)} | {k} | {walk[k][0] * 1000:.1f} | {walk[k][1] * 1000:.1f} | {least[str(k)][2]} "
                  f"| {walk[1][0] / walk[k][0]:.2f} | {theirs * 1000:.1f} | {walk[k][0] / theirs:.2f} |")
        slower = (least["all"][0] - least["all read"][0]) / walk[1][0]
        print(f"{processors} processes at once take {slower:.2f} times as long as one, so {processors / slower:.2f} times as fast is what the machine allows.")


main()
