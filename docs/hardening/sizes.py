#!/usr/bin/env python3
"""For each limit the largest input that it allows and the least that it doesn't, through the program, with time and peak memory.

Usage: sizes.py [--program FILE] [--only WORD]    (needs GNU time; prints a table, and ends with 1 where an answer is another)

Time is elapsed time of one process, peak the greatest resident size of the program. The largest inputs take some hundreds of megabytes
on disk. The table is for docs/BENCHMARK.md.
"""
import argparse
import re
import subprocess
import sys
import tempfile
import time

from commands import PROGRAM, example, serves
from hostile import CERTIFICATE_MAGIC, parts_of, put_together
from make_certs import write as write_certificate
from make_pies import COPY, RETURN, counting_down, frame, long_program, numbers, pie, place

TIME = "/usr/bin/time"
MOST_PIE, MOST_INPUT = 2_097_152, 201_326_592
MOST_STEPS, MOST_ROUNDS, LONGEST = 65_536, 16_382, 65_528
# [fp-3] = [fp-3]
SAME = 0x400B7FFD7FFF7FFD


# Inputs: each writes itself to a file.

def bytes_of(data):
    return lambda file: file.write(data)


def padded_file(length):
    """The file `examples/empty.pie` with blanks behind its metadata, so many bytes long."""
    text, cells = parts_of(example("empty.pie"))
    return bytes_of(put_together(text + b" " * (length - 16 - len(text) - 16 * len(cells)), cells))


def with_sizes(sizes):
    text, cells = parts_of(example("empty.pie"))
    return bytes_of(put_together(text.replace(b"4,8,0,0,0,0,0", ",".join(map(str, sizes)).encode()), cells))


def with_steps(steps):
    data = counting_down(MOST_ROUNDS)
    return bytes_of(data.replace(b'"steps":65536', f'"steps":{steps}'.encode()))


def with_place(offset):
    """The same run with a place of this offset in an eighth segment."""
    stack = frame() + [place(segment, 0) for segment in (2, 3, 4)]
    data = pie(4, {0: numbers([COPY[2], COPY[3], COPY[4], RETURN]), 1: stack})
    text, cells = parts_of(data)
    eighth = bytes.fromhex("0007000000000001") + (7 << 32 | offset).to_bytes(8, "big")
    return bytes_of(put_together(text.replace(b"4,8,0,0,0,0,0", b"4,8,0,0,0,0,0,1"), cells + [eighth]))


def dearest_pie():
    """A program as long as there is room for, each of whose words is a step: it asserts of a cell that it is itself, and returns."""
    code = [SAME] * (LONGEST - 4) + [COPY[2], COPY[3], COPY[4], RETURN]
    return pie(LONGEST, {0: numbers(code), 1: frame() + [place(segment, 0) for segment in (2, 3, 4)]})


def submits(*counted):
    """A script: of each part so many lines by a client, the same file each."""
    return bytes_of("".join(f"submit {client} {data.hex()}\n" * count for client, count, data in counted).encode())


def filled(beginning, filling, end, length):
    """So many bytes: a beginning, a filling as often as there is room for, and an end."""
    def write(file):
        file.write(beginning)
        left = length - len(beginning) - len(end)
        block = filling * (1_000_000 // len(filling))
        while left > 0:
            left -= file.write(block[:left])
        file.write(end)
    return write


def long_certificate(rounds):
    return lambda file: write_certificate(file, rounds)


EMPTY_PIE, LONG_RUN, LONG_PROGRAM = example("empty.pie"), counting_down(MOST_ROUNDS), long_program(LONGEST)
FULL_CLIENTS = [(client, 4, dearest_pie()) for client in range(16)]
FIVE_TEXT = b"\n" + example("five.casm")
FULL_STEPS = "batch 0 steps 262144 jobs 0.0 0.1 0.2 0.3"
BATCH, REPLAY = "batch --clients {}", "replay"

# The limit, what is tried, words, input, status, and the line of the answer that tells.
ROWS = [
    ("bytes of a PIE", "2,097,152", REPLAY, padded_file(MOST_PIE), 0, "admitted program .*"),
    ("", "2,097,153", REPLAY, padded_file(MOST_PIE + 1), 1, "refused 1 2097153"),
    ("steps of a PIE", "65,536", REPLAY, with_steps(MOST_STEPS), 0, "admitted program .* outputs 1"),
    ("", "65,537", REPLAY, with_steps(MOST_STEPS + 1), 1, "refused 9 65537"),
    ("segments of a PIE", "6", REPLAY, with_sizes([4, 8, 0, 0, 0, 0]), 1, "refused 6"),
    ("", "7", REPLAY, with_sizes([4, 8] + [0] * 5), 0, "admitted program .*"),
    ("", "64", REPLAY, with_sizes([4, 8] + [0] * 62), 0, "admitted program .*"),
    ("", "65", REPLAY, with_sizes([4, 8] + [0] * 63), 1, "refused 7 65"),
    ("sum of sizes of a PIE", "65,536", REPLAY, bytes_of(LONG_PROGRAM), 0, "admitted program .*"),
    ("", "65,537", REPLAY, bytes_of(LONG_PROGRAM.replace(b"[65528,8", b"[65529,8")), 1, "refused 8 65537"),
    ("offset of a place", "2,147,483,647", REPLAY, with_place(2**31 - 1), 0, "admitted program .*"),
    ("", "2,147,483,648", REPLAY, with_place(2**31), 1, "refused 10 12"),
    ("PIEs per batch", "16", BATCH.format(1), submits((0, 16, EMPTY_PIE)), 0, "batch 0 steps 64 jobs.* 0.15"),
    ("", "17", BATCH.format(1), submits((0, 17, EMPTY_PIE)), 0, "batch 1 steps 4 jobs 0.16"),
    ("steps per batch", "262,144", BATCH.format(2), submits((0, 4, LONG_RUN)), 0, FULL_STEPS),
    ("", "262,148", BATCH.format(2), submits((0, 4, LONG_RUN), (1, 1, EMPTY_PIE)), 0, "batch 1 steps 4 jobs 1.0"),
    ("sum of sizes per batch", "262,144", BATCH.format(2), submits((0, 4, LONG_PROGRAM)), 0, "batch 0 steps 16 jobs 0.0 0.1 0.2 0.3"),
    ("", "262,156", BATCH.format(2), submits((0, 4, LONG_PROGRAM), (1, 1, EMPTY_PIE)), 0, "batch 1 steps 4 jobs 1.0"),
    ("admitted PIEs per client", "64", BATCH.format(1), submits((0, 64, EMPTY_PIE)), 0, "client 0 submit admitted 63 .*"),
    ("", "65", BATCH.format(1), submits((0, 65, EMPTY_PIE)), 0, "client 0 submit quota 1 65 64"),
    ("admitted steps per client", "262,144", BATCH.format(1), submits((0, 4, LONG_RUN)), 0, FULL_STEPS),
    ("", "262,148", BATCH.format(1), submits((0, 4, LONG_RUN), (0, 1, EMPTY_PIE)), 0, "client 0 submit quota 2 262148 262144"),
    ("admitted sizes per client", "262,144", BATCH.format(1), submits((0, 4, LONG_PROGRAM)), 0, "client 0 submit admitted 3 .*"),
    ("", "262,156", BATCH.format(1), submits((0, 4, LONG_PROGRAM), (0, 1, EMPTY_PIE)), 0, "client 0 submit quota 3 262156 262144"),
    ("clients", "0", BATCH.format(0), bytes_of(b""), 2, None),
    ("", "16, all at their quotas", BATCH.format(16), submits(*FULL_CLIENTS), 0, "batch 15 steps 262112 jobs 15.0 15.1 15.2 15.3"),
    ("", "17", BATCH.format(17), bytes_of(b""), 2, None),
    ("workers", "0", "serve --clients 16 --workers 0", bytes_of(b""), 2, None),
    ("", "8, 16 clients at their quotas", "serve --clients 16 --workers 8", submits(*FULL_CLIENTS), 0,
     "client 15 submit admitted 3 .*"),
    ("", "9", "serve --clients 16 --workers 9", bytes_of(b""), 2, None),
    ("lines of a script", "65,536", BATCH.format(1), bytes_of(b"status 0 0\n" * 65_536), 0, "client 0 status 0 unknown"),
    ("", "65,537", BATCH.format(1), bytes_of(b"status 0 0\n" * 65_537), 3, "script 65537 7"),
    ("bytes of an input", "201,326,592, a file", REPLAY, filled(b"", b"\0", b"", MOST_INPUT), 1, "refused 1 201326592"),
    ("", "201,326,593", REPLAY, filled(b"", b"\0", b"", MOST_INPUT + 1), 7, None),
    ("", "201,326,589, a certificate", "check", long_certificate(1_398_096), 0, "accepted alone 5592392 outputs 1"),
    ("", "201,326,593", "check", filled(CERTIFICATE_MAGIC, b"\0", b"", MOST_INPUT + 1), 7, None),
    ("", "201,326,592, a text", "run", filled(b"//", b"x", FIVE_TEXT, MOST_INPUT), 0, None),
    ("", "201,326,593", "run", filled(b"//", b"x", FIVE_TEXT, MOST_INPUT + 1), 7, None),
    ("", "201,326,592, a script", BATCH.format(1), filled(b"submit 0 ", b"00", b"\n", MOST_INPUT), 0, "client 0 submit refused 1 100663291"),
    ("", "201,326,593", BATCH.format(1), filled(b"submit 0 ", b"0", b"\n", MOST_INPUT + 1), 7, None),
]


def measured(program, words, file):
    """Status, output, seconds and the peak in KiB of one run over this file. `time` tells the peak of the program alone."""
    file.seek(0)
    with tempfile.TemporaryFile() as output, tempfile.NamedTemporaryFile() as peak:
        begun = time.monotonic()
        run = subprocess.run([TIME, "-q", "-f", "%M", "-o", peak.name, program, *words.split()],
                             stdin=file, stdout=output, stderr=subprocess.DEVNULL, check=False)
        seconds = time.monotonic() - begun
        output.seek(0)
        return run.returncode, output.read(), seconds, int(peak.read().split()[-1])


def shown(output, wanted):
    """The line that tells, or how long the answer is."""
    lines = output.decode("ascii", "replace").split("\n")
    told = [line for line in lines if wanted and re.fullmatch(wanted, line)]
    text = told[0] if told else lines[0] if len(output) < 200 else f"{len(output):,} bytes"
    return text if len(text) < 48 else text[:24] + " .. " + text[-16:]


def main():
    options = argparse.ArgumentParser()
    options.add_argument("--program", default=PROGRAM)
    options.add_argument("--only", default="")
    given = options.parse_args()
    has_serve, odd, limit = serves(given.program), 0, ""
    print("| Limit | Input | Bytes | Words | Status | Answer | Time (ms) | Peak memory (KiB) |\n" + "|---" * 8 + "|")
    for begun, tried, words, write, wanted, line in ROWS:
        limit = begun or limit
        if not limit.startswith(given.only) or (words.startswith("serve") and not has_serve):
            continue
        with tempfile.TemporaryFile() as file:
            write(file)
            size = file.tell()
            status, output, seconds, peak = measured(given.program, words, file)
        is_told = line is None or any(re.fullmatch(line, each) for each in output.decode("ascii", "replace").split("\n"))
        if status != wanted or not is_told:
            odd += 1
            print(f"sizes: {limit}, {tried}: {status} {output[:200]!r} in place of {wanted} {line}")
        answer = f"`{shown(output, line)}`" if output else "nothing"
        print(f"| {begun} | {tried} | {size:,} | `{words.split()[0]}` | {status} | {answer} | {seconds * 1000:.0f} | {peak:,} |", flush=True)
    print(f"sizes: {odd} answers are others")
    return 1 if odd else 0


if __name__ == "__main__":
    sys.exit(main())
