#!/usr/bin/env python3
"""Runs each command of docs/TOUR.md, in order and in one shell, and compares what it prints and how it ends with the page.

Usage: tour.py    (anywhere; the program is built already)

A block of the page that is fenced as `console` has commands, after `$ `, each followed by what it prints. A line `(status N)` is the
exit status where it isn't 0. The commands run in a copy of examples/ beside the program. Prints each that went otherwise, and ends with 1.
"""
import os
import re
import shutil
import subprocess
import sys
import tempfile

TOP = os.path.dirname(os.path.dirname(os.path.abspath(__file__)))
MARK = "-- next command --"


def commands():
    """The commands of the page, each with what it should print, the status in the last line."""
    with open(os.path.join(TOP, "docs/TOUR.md"), encoding="utf-8") as page:
        blocks = re.findall(r"^```console\n(.*?)^```$", page.read(), re.MULTILINE | re.DOTALL)
    for part in re.split(r"^\$ ", "".join(blocks), flags=re.MULTILINE)[1:]:
        command, _, printed = part.partition("\n")
        if not re.search(r"^\(status \d+\)$", printed, re.MULTILINE):
            printed += "(status 0)\n"
        yield command, printed


def run(lines):
    """What each command prints, run by one shell in a folder with the launcher and the examples."""
    script = "".join(f"{line}\necho \"(status $?)\"\necho '{MARK}'\n" for line in lines)
    with tempfile.TemporaryDirectory() as folder:
        shutil.copytree(os.path.join(TOP, "examples"), os.path.join(folder, "examples"))
        os.symlink(os.path.join(TOP, "crates/shared_prover/out/shared_prover"), os.path.join(folder, "shared_prover"))
        done = subprocess.run(["sh", "-c", script], cwd=folder, stdout=subprocess.PIPE, timeout=600, check=False)
    return done.stdout.decode("utf-8", "replace").split(MARK + "\n")[:-1]


def main():
    wanted = list(commands())
    printed = run([command for command, _ in wanted])
    failures = 0
    for (command, text), found in zip(wanted, printed + [None] * len(wanted)):
        if found != text:
            failures += 1
            print(f"tour: {command}\n  wanted {text!r:.300}\n  found  {found!r:.300}")
    print(f"tour: {failures} of {len(wanted)} commands failed" if failures or not wanted else "tour: all as shown")
    return 1 if failures or not wanted else 0


sys.exit(main())
