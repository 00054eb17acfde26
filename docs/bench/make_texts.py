#!/usr/bin/env python3
"""Writes the assembly texts whose runs docs/BENCHMARK.md measures.

Usage: make_texts.py FOLDER    (writes straight_N.casm, count_N.casm and hash_N.casm there, each for three sizes N)

straight_N has N statements one after the other, each of which puts a cell. count_N counts N rounds down, as examples/down.casm does: 8
steps, and 4 more a round. hash_N puts the twelve inputs of a hash instance in each of N rounds, and reads an output that follows: 17
steps a round.
"""
import os
import sys

STRAIGHT = (6250, 12500, 25000)
ROUNDS = (4094, 8190, 16382)
INSTANCES = (500, 1000, 2000)
STOPS = "[ap] = [fp-5], ap++\n[ap] = [fp-4], ap++\n"


def straight(statements):
    return "[ap] = [fp-3], ap++\n" * (statements - 3) + STOPS + "[ap] = [fp-3], ap++\nret\n"


def count(rounds):
    return (f"[ap] = 1, ap++\n[ap] = 1, ap++\n[ap] = {rounds}, ap++\nloop:\n[ap] = [ap-2], ap++\n[ap] = [ap-3], ap++\n"
            "[ap] = [ap-3] + -1, ap++\njmp loop if [ap-1] != 0\n[ap-3] = [[fp-5]]\n[ap] = [fp-5] + 1, ap++\n[ap] = [fp-4], ap++\n"
            "[ap] = [fp-3], ap++\nret\n")


def hashes(rounds):
    inputs = "".join(f"[ap-1] = [[ap-3]+{k}]\n" for k in range(12))
    return (f"[ap] = [fp-3], ap++\n[ap] = {rounds}, ap++\n[ap] = 0, ap++\nloop:\n{inputs}[ap] = [[ap-3]+12], ap++\n"
            "[ap] = [ap-4] + 20, ap++\n[ap] = [ap-4] + -1, ap++\n[ap] = 0, ap++\njmp loop if [ap-2] != 0\n"
            f"{STOPS}[ap] = [ap-5], ap++\nret\n")


def main():
    for name, make, sizes in (("straight", straight, STRAIGHT), ("count", count, ROUNDS), ("hash", hashes, INSTANCES)):
        for size in sizes:
            with open(os.path.join(sys.argv[1], f"{name}_{size}.casm"), "w") as out:
                out.write(make(size))


main()
