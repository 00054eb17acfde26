#!/usr/bin/env python3
"""Times a command beside plain Rust in one run, and prints a table for docs/BENCHMARK.md.

Usage: beside.py COMMAND PLAIN SMALL FILE [FILE ..]    (at the repository's top, after the program is built)

PLAIN is docs/bench/plain_check.rs or plain_run.rs, compiled. Each file is given to both in turn forty times; the least processor
time of each counts (user and system), less that over SMALL, a certificate of a few rows or a short text, which is the price of a
process.
"""
import os
import subprocess
import sys

PROGRAM = "crates/shared_prover/out/shared_prover"


def processor_time(command, path):
    with open(path, "rb") as source:
        process = subprocess.Popen(command, stdin=source, stdout=subprocess.DEVNULL)
        _, status, used = os.wait4(process.pid, 0)
        process.returncode = os.waitstatus_to_exitcode(status)
    return used.ru_utime + used.ru_stime


def main():
    program, plain, small, paths = [PROGRAM, sys.argv[1]], [sys.argv[2]], sys.argv[3], sys.argv[4:]
    print(f"| File | `{sys.argv[1]}` (ms) | Plain Rust (ms) | Ratio |")
    print("|---|---|---|---|")
    for path in paths:
        least = {}
        for _ in range(40):
            for name, command, given in (("ours", program, path), ("plain", plain, path), ("a", program, small), ("b", plain, small)):
                spent = processor_time(command, given)
                least[name] = min(spent, least.get(name, spent))
        ours, theirs = least["ours"] - least["a"], least["plain"] - least["b"]
        print(f"| {os.path.basename(path)} | {ours * 1000:.2f} | {theirs * 1000:.2f} | {ours / theirs:.2f} |")


main()
