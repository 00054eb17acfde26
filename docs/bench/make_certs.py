#!/usr/bin/env python3
"""Writes the certificate of a run that counts so many rounds down, as docs/BENCHMARK.md measures it.

Usage: make_certs.py FILE ROUNDS    (a million rounds are four million rows, 144 MB)

The program is that of `make_pies.py`. No PIE has room for a run this long, so the certificate is written directly: for a run that
a PIE has room for, it is byte for byte what `place` writes for the PIE.
"""
import struct
import sys

from make_pies import counting_segments

MAGIC = bytes.fromhex("4343525436340001")
SEGMENTS = 7
FRAME = 5
FIRST_ROUND = 6


def bases_of(segments):
    bases, free = [], 1
    for segment in range(SEGMENTS):
        bases.append(free)
        free += len(segments.get(segment, [])) + 1
    return bases


def relocated(bases, value):
    is_place, number = value
    return bases[number >> 32] + number % 2**32 if is_place else number


# A state for each word that a run begins a statement at: so far behind the code's start, and so many cells behind the frame.
def steps_of(rounds):
    yield from ((2 * k, k) for k in range(3))
    for done in range(rounds):
        ap = 3 + 3 * done
        yield from ((FIRST_ROUND, ap), (FIRST_ROUND + 1, ap + 1), (FIRST_ROUND + 2, ap + 2), (FIRST_ROUND + 4, ap + 3))
    end, ap = FIRST_ROUND + 6, 3 + 3 * rounds
    yield from ((end, ap), (end + 1, ap), (end + 3, ap + 1), (end + 4, ap + 2), (end + 5, ap + 3))


def states_of(bases, rounds):
    frame, ap = bases[1] + FRAME, 0
    for at, ap in steps_of(rounds):
        yield bases[0] + at, frame + ap, frame
    yield bases[6], frame + ap, bases[5]


def write(out, rounds):
    segments = counting_segments(rounds)
    bases = bases_of(segments)
    out.write(MAGIC + b"\0")
    for segment in (2, 3, 4):
        out.write(struct.pack(">QQ", bases[segment], bases[segment] + len(segments.get(segment, []))))
    out.write(struct.pack(">II", 0, sum(map(len, segments.values()))))
    for segment in sorted(segments):
        for offset, value in enumerate(segments[segment]):
            out.write(struct.pack(">QQ", bases[segment] + offset, relocated(bases, value)))
    out.write(struct.pack(">I", 9 + 4 * rounds))
    for state in states_of(bases, rounds):
        out.write(struct.pack(">QQQ", *state))


if __name__ == "__main__":
    with open(sys.argv[1], "wb") as made:
        write(made, int(sys.argv[2]))
