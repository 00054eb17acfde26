#!/usr/bin/env python3
"""Times `serve` with 1, 2, 4 and 8 workers beside `batch` over one script, in turn, and prints the table for docs/BENCHMARK.md.

Usage: serving.py [PROGRAM] [ROUNDS] [--full]    (run it at the repository's top, after ./shared_prover has built the program)

The script is that of `make 256`, with four clients, and under --full that of sixteen clients who are all at their quotas (sizes.py). In
each round every command runs once, so that what else the machine does meets all of them; the least time of all rounds counts, elapsed
and of the processors, and the greatest peak. How many times as fast a run is as `batch` is told by the two of the same round, and of
all rounds by the median.
"""
import os
import statistics
import subprocess
import sys
import tempfile
import time

PROGRAM = "crates/shared_prover/out/shared_prover"
ROUNDS = 7
JOBS, CLIENTS = 256, 4
HARDENING = os.path.join(os.path.dirname(os.path.abspath(__file__)), "..", "hardening")


def runs_of(clients):
    words = ["--clients", str(clients)]
    runs = {"`batch`": ["batch", *words]}
    runs.update({f"`serve`, workers: {n}": ["serve", *words, "--workers", str(n)] for n in (1, 2, 4, 8)})
    return runs


def full_script():
    """The script of the clients who are at their quotas, how many jobs it has, and how many clients."""
    sys.path.insert(0, HARDENING)
    import sizes

    with tempfile.TemporaryFile() as file:
        sizes.submits(*sizes.FULL_CLIENTS)(file)
        file.seek(0)
        return file.read(), sum(many for _, many, _ in sizes.FULL_CLIENTS), len(sizes.FULL_CLIENTS)


def taken(program, words, script, jobs):
    """Elapsed and processor time in seconds and the peak in KiB of one run, and whether it admitted every job."""
    with tempfile.TemporaryFile() as source, tempfile.TemporaryFile() as output:
        source.write(script)
        source.seek(0)
        begun = time.monotonic()
        process = subprocess.Popen([program, *words], stdin=source, stdout=output)
        _, status, used = os.wait4(process.pid, 0)
        elapsed = time.monotonic() - begun
        output.seek(0)
        text = output.read()
        assert status == 0, words
        assert text.count(b" submit admitted ") == jobs and text.endswith(b"\nend\n"), words
        return elapsed, used.ru_utime + used.ru_stime, used.ru_maxrss


def main():
    given = [word for word in sys.argv[1:] if word != "--full"]
    program = given[0] if given else PROGRAM
    rounds = int(given[1]) if len(given) > 1 else ROUNDS
    if "--full" in sys.argv:
        script, jobs, clients = full_script()
    else:
        script, jobs, clients = subprocess.run([program, "make", str(JOBS)], stdout=subprocess.PIPE, check=True).stdout, JOBS, CLIENTS
    found = {name: [] for name in runs_of(clients)}
    for _ in range(rounds):
        for name, words in runs_of(clients).items():
            found[name].append(taken(program, words, script, jobs))
    alone = [elapsed for elapsed, _, _ in found["`batch`"]]
    print("| Run | Elapsed (ms) | Times as fast as `batch` | Jobs a second | Processor time (ms) | Peak memory (KiB) |\n|---|---|---|---|---|---|")
    for name, runs in found.items():
        elapsed, spent, peak = min(r[0] for r in runs), min(r[1] for r in runs), max(r[2] for r in runs)
        times = statistics.median(one / run[0] for one, run in zip(alone, runs))
        print(f"| {name} | {elapsed * 1000:.0f} | {times:.2f} | {jobs / elapsed:,.0f} | {spent * 1000:.0f} | {peak:,} |")


main()
