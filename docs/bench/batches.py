#!/usr/bin/env python3
"""Times the making and the certifying of batches of copies of one PIE, and prints a table for docs/BENCHMARK.md.

Usage: batches.py MAKER COPIES FILE [COPIES FILE ..]

MAKER is the program of docs/bench/make_batches.txt, built. Each batch is made twelve times; the least processor time of each counts.
Making is the time of a run that makes a certificate less that of one that only takes the batch out of a desk; certifying, in one
chunk, is what a run with it takes longer than one that only makes. Peak memory is told without and with the certificate made, beside
what its cells (16 bytes each) and states (24 bytes each) take; a desk and the parcel both hold the PIEs with their states.
"""
import os
import subprocess
import sys

ROUNDS = 12


def taken(command, path):
    with open(path, "rb") as source:
        process = subprocess.Popen(command, stdin=source, stderr=subprocess.PIPE, text=True)
        told = process.stderr.read()
        _, status, used = os.wait4(process.pid, 0)
        process.returncode = os.waitstatus_to_exitcode(status)
    assert process.returncode == 0, (command, path, process.returncode)
    return used.ru_utime + used.ru_stime, used.ru_maxrss, told


def main():
    maker, given = sys.argv[1], sys.argv[2:]
    print("| File | Tasks | States | Cells | Making (ms) | Certifying (ms) | Peak without it (KiB) | Peak with it (KiB) | Its cells and states (KiB) |")
    print("|---|---|---|---|---|---|---|---|---|")
    for copies, path in zip(given[::2], given[1::2]):
        runs = {name: [taken([maker, *words], path) for _ in range(ROUNDS)]
                for name, words in (("had", (copies, "1000")), ("made", (copies, "0")), ("one", (copies, "1")))}
        least = {name: min(run[0] for run in all_runs) * 1000 for name, all_runs in runs.items()}
        had, made = (min(run[1] for run in runs[name]) for name in ("had", "made"))
        tasks, states, cells = (int(n) for n in runs["made"][0][2].split()[1::2])
        size = (16 * cells + 24 * states) / 1024
        print(f"| {os.path.basename(path)} | {tasks} | {states:,} | {cells:,} | {least['made'] - least['had']:.1f} "
              f"| {least['one'] - least['made']:.1f} | {had:,} | {made:,} | {size:,.0f} |")


main()
