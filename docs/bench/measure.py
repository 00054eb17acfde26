#!/usr/bin/env python3
"""Times a command of the built program over files, and prints a table for docs/BENCHMARK.md.

Usage: measure.py COMMAND FILE [FILE ..]    (run it at the repository's top, after ./shared_prover has built the program)

Each file is given ten times on standard input; the least processor time counts (user and system), less that of an empty
input, which is the price of a process. Memory is the greatest resident size, as GNU time tells it.
"""
import os
import subprocess
import sys

PROGRAM = "crates/shared_prover/out/shared_prover"


def processor_time(command, path):
    with open(path, "rb") as source:
        process = subprocess.Popen([PROGRAM, command], stdin=source, stdout=subprocess.DEVNULL)
        _, status, used = os.wait4(process.pid, 0)
        process.returncode = os.waitstatus_to_exitcode(status)
    return used.ru_utime + used.ru_stime


def best_time(command, path):
    return min(processor_time(command, path) for _ in range(10))


def peak_memory(command, path):
    with open(path, "rb") as source:
        run = subprocess.run(
            ["/usr/bin/time", "-f", "%M", PROGRAM, command],
            stdin=source, stdout=subprocess.DEVNULL, stderr=subprocess.PIPE, check=True, text=True)
    return int(run.stderr.split()[-1])


def main():
    command, paths = sys.argv[1], sys.argv[2:]
    process = best_time(command, os.devnull)
    print("| File | Bytes | Time (ms) | Growth | Peak memory (KiB) | Growth |")
    print("|---|---|---|---|---|---|")
    last = None
    for path in paths:
        spent, peak = best_time(command, path) - process, peak_memory(command, path)
        grown = ("", "") if last is None else (f"{spent / last[0]:.1f}", f"{peak / last[1]:.1f}")
        size = os.path.getsize(path)
        print(f"| {os.path.basename(path)} | {size} | {spent * 1000:.2f} | {grown[0]} | {peak} | {grown[1]} |")
        last = (spent, peak)


main()
