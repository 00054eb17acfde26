#!/usr/bin/env python3
"""Writes the PIE files that docs/BENCHMARK.md measures.

Usage: make_pies.py FOLDER    (writes down_248.pie, down_1998.pie, down_4094.pie, down_16248.pie, hash_heavy.pie, range_heavy.pie
and words_65528.pie there)

The programs of the heavy files copy their three pointers to the end of their run and add to one of them as many cells as its
segment has. The others copy a cell and count their rounds down to 0: 8 steps, and 4 more a round. The last one has as many words
as a PIE has room for, all but four of them unreached.
"""
import hashlib
import json
import os
import sys

COPY = {2: 0x480A7FFB7FFF8000, 3: 0x480A7FFC7FFF8000, 4: 0x480A7FFD7FFF8000}
ADD = {2: 0x482680017FFB8000, 3: 0x482680017FFC8000, 4: 0x482680017FFD8000}
SET = 0x480680017FFF8000
RETURN = 0x208B7FFF7FFF7FFE
PRIME = 2**64 - 2**32 + 1
# [ap] = [ap-2], ap++; [ap] = [ap-3], ap++; [ap] = [ap-3] + -1, ap++; jmp rel -7 if [ap-1] != 0
ROUND = [0x48127FFE7FFF8000, 0x48127FFD7FFF8000, 0x482480017FFD8000, PRIME - 1, 0x020680017FFF7FFF, PRIME - 4]
OUTPUT = 0x400280007FFB7FFD
INSTANCES = 3276
RANGE_CELLS = 65500
ROUNDS = (248, 1998, 4094, 16248)
WORDS = 65528


def place(segment, offset):
    return 1, segment << 32 | offset


def numbers(values):
    return [(0, value) for value in values]


def frame():
    return [place(2 + k, 0) for k in range(5)]


def instance(number):
    words = [(number * 2654435761 + k) % 2**32 for k in range(8)]
    inputs = [(number * 11400714819323198485 + k) % PRIME for k in range(4)]
    text = b"".join(w.to_bytes(4, "big") for w in words) + b"".join(n.to_bytes(8, "big") for n in inputs)
    digest = hashlib.sha256(text).digest()
    return words + inputs + [int.from_bytes(digest[4 * k:4 * k + 4], "big") for k in range(8)]


def pie(steps, segments):
    sizes = [len(segments.get(s, [])) for s in range(7)]
    text = json.dumps({"main": 0, "sizes": sizes, "steps": steps, "version": 1}, separators=(",", ":")).encode()
    cells = b"".join(
        segment.to_bytes(2, "big") + offset.to_bytes(4, "big") + tag.to_bytes(2, "big") + value.to_bytes(8, "big")
        for segment in sorted(segments) for offset, (tag, value) in enumerate(segments[segment]))
    return (bytes.fromhex("4350494536340001") + len(text).to_bytes(4, "big") + text
            + (len(cells) // 16).to_bytes(4, "big") + cells)


def full_of(full, values):
    code = []
    for segment in (2, 3, 4):
        code += [ADD[segment], len(values)] if segment == full else [COPY[segment]]
    stack = frame() + [place(s, len(values) if s == full else 0) for s in (2, 3, 4)]
    return pie(4, {0: numbers(code + [RETURN]), 1: stack, full: numbers(values)})


def counting_segments(rounds):
    code = [SET, 1, SET, 1, SET, rounds, *ROUND, OUTPUT, ADD[2], 1, COPY[3], COPY[4], RETURN]
    stack = frame() + numbers([1, 1, rounds])
    for left in range(rounds - 1, -1, -1):
        stack += numbers([1, 1, left])
    stack += [place(2, 1), place(3, 0), place(4, 0)]
    return {0: numbers(code), 1: stack, 2: numbers([1])}


def counting_down(rounds):
    return pie(8 + 4 * rounds, counting_segments(rounds))


def long_program(words):
    code = [COPY[2], COPY[3], COPY[4], RETURN] + [SET, 1] * ((words - 4) // 2)
    return pie(4, {0: numbers(code), 1: frame() + [place(s, 0) for s in (2, 3, 4)]})


def main():
    folder = sys.argv[1]
    files = {f"down_{rounds}.pie": counting_down(rounds) for rounds in ROUNDS}
    files["hash_heavy.pie"] = full_of(4, [n for k in range(INSTANCES) for n in instance(k)])
    files["range_heavy.pie"] = full_of(3, [(k * 2654435761) % 2**32 for k in range(RANGE_CELLS)])
    files["words_65528.pie"] = long_program(WORDS)
    for name, data in files.items():
        with open(os.path.join(folder, name), "wb") as out:
            out.write(data)
        print(name, len(data), "bytes")


if __name__ == "__main__":
    main()
