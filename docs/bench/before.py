#!/usr/bin/env python3
"""Times a command of two built programs in turn, and prints a table for docs/BENCHMARK.md.

Usage: before.py COMMAND ROUNDS BEFORE NOW FILE    (two programs, and a file for standard input)

Each round runs both programs over the file, the one that goes first in turn. Time is processor time (user and system); its median,
its least and the median of the ratios of a round count, since other work may take the processors at any time. Memory is the greatest
resident size, as GNU time tells it.
"""
import os
import statistics
import subprocess
import sys


def processor_time(program, command, path):
    with open(path, "rb") as source:
        process = subprocess.Popen([program, command], stdin=source, stdout=subprocess.DEVNULL)
        _, status, used = os.wait4(process.pid, 0)
        process.returncode = os.waitstatus_to_exitcode(status)
    if process.returncode != 0:
        sys.exit(f"{program} ended with {process.returncode}")
    return used.ru_utime + used.ru_stime


def peak_memory(program, command, path):
    with open(path, "rb") as source:
        timed = subprocess.run(
            ["/usr/bin/time", "-f", "%M", program, command],
            stdin=source, stdout=subprocess.DEVNULL, stderr=subprocess.PIPE, check=True, text=True)
    return int(timed.stderr.split()[-1])


def main():
    command, rounds, path = sys.argv[1], int(sys.argv[2]), sys.argv[5]
    programs = {"before": sys.argv[3], "now": sys.argv[4]}
    times = {"before": [], "now": []}
    for turn in range(rounds):
        for name in ("before", "now") if turn % 2 else ("now", "before"):
            times[name].append(processor_time(programs[name], command, path))
    ratio = statistics.median(now / before for now, before in zip(times["now"], times["before"]))
    print("| Program | Median (ms) | Least (ms) | Peak memory (KiB) |")
    print("|---|---|---|---|")
    for name, spent in times.items():
        peak = peak_memory(programs[name], command, path)
        print(f"| {name} | {statistics.median(spent) * 1000:.2f} | {min(spent) * 1000:.2f} | {peak} |")
    print(f"now / before, median of {rounds} rounds: {ratio:.3f}")


main()
