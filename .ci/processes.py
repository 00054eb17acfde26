#!/usr/bin/env python3
"""Tries the built program as real processes: words, exit statuses, standard output and standard error.

Usage: processes.py    (anywhere; where `rt ci` left no program, the launcher builds it first)

What the clauses don't reach stands here: the lines on standard error, streams of the system that fail, the launcher, and inputs of
tens of kilobytes, which are made here beside their answers. Prints each case that failed, and ends with 1 where one did.
"""
import os
import re
import shutil
import subprocess
import sys
import tempfile

from roomy import certificate, facts_line, pie, roomy_run

TOP = os.path.dirname(os.path.dirname(os.path.abspath(__file__)))
PROGRAM = os.path.join(TOP, "crates/shared_prover/out/shared_prover")
LAUNCHER = os.path.join(TOP, "shared_prover")
EXAMPLES = os.path.join(TOP, "examples")

BATCH = (
    b"accepted batch 364 outputs 3 9 1256366875 4191841772 2390839014 1583650134 223931603 2708635364 "
    b"2656205228 3851522439 10 1682648198 4276435530 3557564911 2699579982 885479782 3474128063 "
    b"3852709440 3500719293 5 10 1682648198 4276435530 3557564911 2699579982 885479782 3474128063 "
    b"3852709440 3500719293 5\n"
)
ADMITTED = b"admitted program 644b2c86fee53a4ad40c21efa0e8524e34c75966cf12fcbfe5a3ae40d0a8bcbd outputs 5\n"
USAGE = b"shared_prover: usage: shared_prover replay | place | list | check | run | boot | make N | batch --clients C | export --clients C --batch B | trial N | serve --clients C --workers W\n"
UNREADABLE = b"shared_prover: the input could not be read\n"

failures = []


def expect(name, found, wanted):
    if found != wanted:
        failures.append(name)
        print(f"processes: {name}: {found!r:.300} in place of {wanted!r:.300}")


def run(words, program=PROGRAM, **streams):
    """The status, standard output and standard error of the program with these words."""
    if "input" not in streams:
        streams.setdefault("stdin", subprocess.DEVNULL)
    streams.setdefault("stdout", subprocess.PIPE)
    try:
        done = subprocess.run([program, *words], stderr=subprocess.PIPE, timeout=120, **streams)
    except (OSError, subprocess.TimeoutExpired) as fault:
        return None, None, str(fault)
    return done.returncode, done.stdout, done.stderr


def example(name):
    with open(os.path.join(EXAMPLES, name), "rb") as file:
        return file.read()


def try_words(five):
    for words in ([], ["frob"], ["Replay"], [""], ["replay", "extra"], ["check", "--audit"], ["boot", "1"], ["make"], ["make", "257"], ["make", "00000000003"], [b"\xff"]):
        expect(f"the words {words}", run(words, input=five), (2, b"", USAGE))


def try_examples(five):
    expect("replay of an example", run(["replay"], input=five), (0, ADMITTED, b""))
    expect("place of an example", run(["place"], input=five), (0, example("five.cert"), b""))
    expect("list of an example", run(["list"], input=five), (0, example("five.listing"), b""))
    expect("check of an example", run(["check"], input=example("five.cert")), (0, b"accepted alone 6 outputs 5\n", b""))
    expect("check of a batch", run(["check"], input=example("batch.cert")), (0, BATCH, b""))
    expect("replay of no bytes", run(["replay"]), (1, b"refused 3 0\n", b""))
    expect("place of a refused file", run(["place"], input=example("addr.pie")), (1, b"refused 26 0 9\n", b""))
    expect("list of a refused file", run(["list"], input=example("addr.pie")), (1, b"refused 26 0 9\n", b""))
    expect("check of no certificate", run(["check"], input=five), (1, b"refused certificate 1\n", b""))


def try_texts(five):
    """`run` makes the PIE of a text, or names the line or the step that is wrong."""
    expect("run of an example", run(["run"], input=example("five.casm")), (0, five, b""))
    expect("run of a loop", run(["run"], input=example("down.casm")), (0, example("down_3.pie"), b""))
    expect("run of its listing", run(["run"], input=example("down.listing")), (0, example("down_3.pie"), b""))
    for name, text in {
        "latin_1.casm": b"assembly 1 2", "no_label.casm": b"assembly 2 3",
        "conflict.casm": b"execution 2 0 4:0 4", "forever.casm": b"execution 4 65536",
    }.items():
        expect(f"run of {name}", run(["run"], input=example(name)), (1, b"refused " + text + b"\n", b""))
    for text, refusal in {
        b"": b"execution 3 0 1", b"word -1 // \xe2\x82\n": b"assembly 1 1", b"\n[ap] = 1\n\xff": b"assembly 1 3",
        b"[ap] = [ap+32768]\n": b"assembly 3 1", b"[ap] = [ap+1], ap++\n": b"execution 1 0",
    }.items():
        expect(f"run of {text}", run(["run"], input=text), (1, b"refused " + refusal + b"\n", b""))


def boot_lines():
    """What `boot` prints, made of the words as they stand in the source of the bootloader."""
    with open(os.path.join(TOP, "crates/boot_program/src/words.rt"), encoding="utf-8") as file:
        words = re.findall(r"^    0x([0-9a-f_]{19}),$", file.read(), re.MULTILINE)
    return "".join(f"{address} {word.replace('_', '')}\n" for address, word in enumerate(words, 1)).encode()


def try_boot():
    """`boot` prints the words whatever its standard input is, and reads none of it."""
    lines = boot_lines()
    expect("the lines of the bootloader", (lines.count(b"\n"), len(lines)), (117, 2349))
    with open(os.path.join(TOP, "crates/worked_texts/src/boot_text.rt"), "rb") as file:
        expect("the text in a test is the example's", b'"' + example("boot.casm") + b'"' in file.read(), True)
    expect("boot", run(["boot"]), (0, lines, b""))
    expect("boot with its input closed", run(["boot"], stdin=None, preexec_fn=lambda: os.close(0)), (0, lines, b""))
    source = os.open(EXAMPLES, os.O_RDONLY)
    expect("boot with a directory as input", run(["boot"], stdin=source), (0, lines, b""))
    os.close(source)
    with open(os.path.join(EXAMPLES, "five.pie"), "rb") as file:
        expect("boot with a file as input", run(["boot"], stdin=file), (0, lines, b""))
        expect("that it leaves the file unread", os.lseek(file.fileno(), 0, os.SEEK_CUR), 0)
    with open("/dev/full", "wb") as full:
        expect("boot with a full device as output", run(["boot"], stdout=full), (5, None, b""))


def try_make():
    """`make 1` hands in one countdown of fourteen rounds, whatever zeros the number begins with."""
    line = b"submit 0 " + example("down_14.pie").hex().encode() + b"\n"
    expect("make of one job", run(["make", "1"]), (0, line, b""))
    expect("make of one job with zeros", run(["make", "0000000001"]), (0, line, b""))


def try_scripts():
    """`batch` writes the transcript of a script, `export` a batch's certificate and `trial` its numbers; a bad line is named."""
    for name, clients in {"three": 1, "asks": 1, "two_clients": 2, "four_clients": 4}.items():
        expect(f"batch of {name}", run(["batch", "--clients", str(clients)], input=example(f"{name}.script")),
               (0, example(f"{name}.transcript"), b""))
    expect("batch of no lines", run(["batch", "--clients", "1"]), (0, b"end\n", b""))
    for script, text in {
        example("bad_client.script"): b"script 2 4\n", b"settle 0\nsettle 0": b"script 2 1\n", b"submit 0 0\n": b"script 1 5\n",
    }.items():
        expect(f"batch of {script[:20]}", run(["batch", "--clients", "1"], input=script), (3, text, b""))
    hash_of_five = ADMITTED.split()[2]
    for name, (script, answer) in {
        "as many lines as a script has": (b"settle 0\n" * 65_536, (0, b"end\n", b"")),
        "a line more": (b"settle 0\n" * 65_537, (3, b"script 65537 7\n", b"")),
        "one line of 190 MB that doesn't end": (b"submit 0 " + b"0" * 190_000_000, (3, b"script 1 1\n", b"")),
        "a fact with a million outputs": (b"ask 0 " + hash_of_five + b" 5" * 1_000_000 + b"\n", (0, b"client 0 ask no\nend\n", b"")),
    }.items():
        expect(f"batch of {name}", run(["batch", "--clients", "1"], input=script), answer)
    three = example("three.script")
    status, certificate, _ = run(["export", "--clients", "1", "--batch", "0"], input=three)
    expect("export of a batch", (status, run(["check"], input=certificate or b"")), (0, (0, BATCH, b"")))
    status, certificate, _ = run(["export", "--batch=0", "--clients=1"], input=three)
    expect("export with its options the other way", (status, run(["check"], input=certificate or b"")), (0, (0, BATCH, b"")))
    expect("serve of no lines", run(["serve", "--workers=2", "--clients", "3"]), (0, b"end\n", b""))
    expect("serve of a bad line", run(["serve", "--clients", "1", "--workers", "1"], input=b"settle 1\n"), (3, b"script 1 4\n", b""))
    expect("export of a batch too many", run(["export", "--clients", "1", "--batch", "1"], input=three), (1, b"refused batch 1 1\n", b""))
    expect("trial of 4", run(["trial", "4"]), (0, b"jobs 4\nbatches 1\nfacts 4\nsteps 4312\n", b""))
    expect("trial of 40", run(["trial", "40"]), (0, b"jobs 40\nbatches 3\nfacts 40\nsteps 39840\n", b""))
    for words in (["batch"], ["batch", "--clients", "0"], ["batch", "--clients", "17"], ["batch", "--clients", "1", "--clients", "1"], ["batch", "--help"], ["export", "--clients", "1"], ["trial", "0"],
                  ["serve", "--clients", "3"], ["serve", "--clients", "3", "--workers", "0"], ["serve", "--clients", "3", "--workers", "9"], ["serve", "--clients", "3", "--workers", "2", "more"]):
        expect(f"the words {words}", run(words, input=three), (2, b"", USAGE))


def try_streams(five):
    source = os.open(EXAMPLES, os.O_RDONLY)
    expect("a directory as input", run(["replay"], stdin=source), (4, b"", UNREADABLE))
    os.close(source)
    with open("/dev/full", "wb") as full:
        expect("a full device as output", run(["replay"], input=five, stdout=full), (5, None, b""))
    reader, writer = os.pipe()
    os.close(reader)
    expect("a closed pipe as output", run(["replay"], input=five, stdout=writer), (5, None, b""))
    os.close(writer)
    with open("/dev/zero", "rb") as zeros:
        expect("an input without an end", run(["replay"], stdin=zeros),
               (7, b"", b"shared_prover: the input is longer than 201326592 bytes\n"))


def try_launcher(five):
    """The launcher passes words, input and status through, and adds nothing to standard output."""
    expect("the launcher on a good file", run(["replay"], program=LAUNCHER, input=five)[:2], (0, ADMITTED))
    expect("the launcher on a refused file", run(["replay"], program=LAUNCHER)[:2], (1, b"refused 3 0\n"))
    expect("the launcher without words", run([], program=LAUNCHER)[:2], (2, b""))


# Stands for `rt` where the launcher builds: what it makes as the program tells its words and its input, and ends with 3.
FAKE_BUILD = """#!/bin/sh
echo noise
mkdir -p out
printf '%s\\n' '#!/bin/sh' 'echo "$@"' 'cat' 'exit 3' > out/shared_prover
chmod +x out/shared_prover
"""


def try_building():
    """Where there is no program, the launcher builds it and tells so on standard error, or ends with 70."""
    with tempfile.TemporaryDirectory() as top:
        launcher = shutil.copy(LAUNCHER, top)
        shutil.copy(os.path.join(TOP, "crates.txt"), top)
        os.makedirs(os.path.join(top, "crates/shared_prover"))
        path = {"PATH": "/usr/bin:/bin"}
        expect("the launcher without rt", run(["replay"], program=launcher, env=path),
               (70, b"", b"shared_prover: cannot build: rt, the command of the Rattle toolchain, is not on the PATH\n"))
        with open(os.path.join(top, "rt"), "w", encoding="utf-8") as fake:
            fake.write(FAKE_BUILD)
        os.chmod(os.path.join(top, "rt"), 0o755)
        path["PATH"] = top + ":" + path["PATH"]
        status, output, told = run(["one", "two"], program=launcher, env=path, input=b"input")
        expect("the launcher that builds", (status, output), (3, b"one two\ninput"))
        expect("that it tells of building", [line.startswith(b"shared_prover: ") for line in told.splitlines()], [True, True])


def try_roomy():
    """Files with main above 0, nine segments, several outputs, range cells and instances."""
    for name, counts in {"few": (3, 3, 1), "many": (500, 1500, 60), "no instance": (1, 2000, 0)}.items():
        made = roomy_run(*counts)
        expect(f"replay of a roomy file with {name}", run(["replay"], input=pie(made)),
               (0, b"admitted program " + facts_line(made), b""))
        expect(f"place of a roomy file with {name}", run(["place"], input=pie(made)), (0, certificate(made), b""))
        expect(f"check of a roomy file with {name}", run(["check"], input=certificate(made)),
               (0, b"accepted alone 4" + facts_line(made)[64:], b""))


def main():
    if not os.access(PROGRAM, os.X_OK):
        subprocess.run([LAUNCHER, "boot"], stdin=subprocess.DEVNULL, stdout=subprocess.DEVNULL, check=False)
    if not os.access(PROGRAM, os.X_OK):
        print(f"processes: there is no program at {PROGRAM}")
        return 1
    five = example("five.pie")
    try_words(five)
    try_examples(five)
    try_texts(five)
    try_boot()
    try_make()
    try_scripts()
    try_streams(five)
    try_launcher(five)
    try_building()
    try_roomy()
    print(f"processes: {len(failures)} failed" if failures else "processes: all as wanted")
    return 1 if failures else 0


sys.exit(main())
