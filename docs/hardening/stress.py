#!/usr/bin/env python3
"""Runs `serve` over random clients, workers and scripts on a busy machine, and tries each transcript beside that of `batch`.

Usage: stress.py RUNS [--seed N] [--at-once N] [--program FILE] [--stand-in]

Each client's lines must be there once, in order, with its submissions answered as `batch` answers them; each admitted job must stand in
one batch, and the facts must be the same (transcripts.py). A run that doesn't end within the seconds of commands.py fails. So many runs
go on at once, each with a thread for every client and worker. With --stand-in `batch` takes the place of `serve`, to try this script.
It first tries that a lost line and one that stands twice are found. Prints each run that failed, and ends with 1 where one did.
"""
import argparse
import collections
import concurrent.futures
import os
import random
import sys
import time

from commands import PROGRAM, answered, example, oddities
from transcripts import faults_of, missed_slips

NAMES = ("empty", "five", "five_minus_one", "back", "down_3", "down_14", "hash0", "range_7", "addr", "under", "five_short", "no_bytes")
FILES = [example(f"{name}.pie").hex() for name in NAMES]
FACTS = [
    "4ae2a31bf9da6dec8e814ee65e6495560d58ecd3a1727ee49e5279ace5919187", "644b2c86fee53a4ad40c21efa0e8524e34c75966cf12fcbfe5a3ae40d0a8bcbd 5",
    "644b2c86fee53a4ad40c21efa0e8524e34c75966cf12fcbfe5a3ae40d0a8bcbd 6", "060b44e15e5132b4502e85f89f14b6318fd596379663ff7752488ded43be6a50 1",
]


def random_line(rng, clients):
    client, pick = rng.randrange(clients), rng.random()
    if pick < 0.55:
        return f"submit {client} {rng.choice(FILES)}"
    if pick < 0.75:
        return f"ask {client} {rng.choice(FACTS)}"
    return f"status {client} {rng.randrange(6)}" if pick < 0.95 else f"settle {client}"


def random_script(rng):
    clients = rng.choice((1, 1, 2, 3, 4, 8, 16))
    lines = [random_line(rng, clients) for _ in range(rng.choice((0, 1, 5, 20, 60, 150)))]
    if rng.random() < 0.1:
        lines += [f"submit {rng.randrange(clients)} {FILES[0]}"] * 70
    return clients, "".join(line + "\n" for line in lines).encode()


def one_run(program, seed, number, is_stand_in):
    """The clients and workers of a run, how long it took, and what is out of line."""
    rng = random.Random(f"{seed} {number}")
    clients, script = random_script(rng)
    workers = rng.randint(1, 8)
    words = ["--clients", str(clients)]
    alone = answered(program, ["batch", *words], script)
    begun = time.monotonic()
    served = answered(program, ["batch", *words] if is_stand_in else ["serve", *words, "--workers", str(workers)], script)
    seconds = time.monotonic() - begun
    odd = oddities(served) or ([] if served.status == alone.status == 0 else [f"it ends with {served}, batch with {alone}"])
    return clients + workers, seconds, odd or faults_of(script, clients, served.output, alone.output)


def main():
    options = argparse.ArgumentParser()
    options.add_argument("runs", type=int)
    options.add_argument("--seed", type=int, default=1)
    options.add_argument("--at-once", type=int, default=2 * (os.cpu_count() or 4))
    options.add_argument("--program", default=PROGRAM)
    options.add_argument("--stand-in", action="store_true")
    given = options.parse_args()
    missed = missed_slips(example("four_clients.script"), 4, example("four_clients.transcript"))
    for each in missed:
        print(f"stress: a slip isn't found: {each}")
    failed, threads, longest = len(missed), collections.Counter(), 0.0
    with concurrent.futures.ThreadPoolExecutor(given.at_once) as pool:
        runs = [pool.submit(one_run, given.program, given.seed, number, given.stand_in) for number in range(given.runs)]
        for number, run in enumerate(runs):
            count, seconds, odd = run.result()
            threads[count] += 1
            longest = max(longest, seconds)
            failed += bool(odd)
            for each in odd[:3]:
                print(f"stress: run {number} of seed {given.seed}: {each}", flush=True)
    most = max(threads, default=0)
    print(f"stress: {given.runs} runs, {given.at_once} at once, up to {most} threads each, the longest {longest:.1f} s, {failed} out of line")
    return 1 if failed else 0


if __name__ == "__main__":
    sys.exit(main())
