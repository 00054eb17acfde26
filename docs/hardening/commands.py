"""The program as the scripts of this folder run it: its commands over small inputs, and what an end of it must look like."""
import os
import re
import resource
import signal
import subprocess
import sys
import tempfile

TOP = os.path.dirname(os.path.dirname(os.path.dirname(os.path.abspath(__file__))))
PROGRAM = os.path.join(TOP, "crates/shared_prover/out/shared_prover")
sys.path.append(os.path.join(TOP, "docs/bench"))

# Exit statuses: what they are called, whether anything stands on standard output, and whether a line stands on standard error.
STATUSES = {
    0: ("Done", True, False), 1: ("Refused", True, False), 2: ("Usage", False, True), 3: ("Script", True, False),
    4: ("ReadFault", False, True), 5: ("WriteFault", None, False), 6: ("OutOfMemory", False, True), 7: ("TooLong", False, True),
}
OUT_OF_MEMORY = 6
LINES = {1: rb"refused( [a-z]+)?( [0-9:-]+)+\n", 3: rb"script [0-9]+ [1-7]\n"}
TOLD = rb"shared_prover: [^\n]+\n"
# A process that runs for so many seconds counts as one that doesn't end.
MOST_SECONDS = 120


def example(name):
    with open(os.path.join(TOP, "examples", name), "rb") as file:
        return file.read()


class End:
    """How a process ended: its status (a signal's number less than 0, None where it ran on), and what it wrote."""

    def __init__(self, status, output, told):
        self.status, self.output, self.told = status, output, told

    def __eq__(self, other):
        return (self.status, self.output) == (other.status, other.output)

    def __str__(self):
        return f"status {self.status}, output {self.output[:120]!r}, error {self.told[:120]!r}"


# No process that these scripts start leaves a core file.
resource.setrlimit(resource.RLIMIT_CORE, (0, resource.getrlimit(resource.RLIMIT_CORE)[1]))


def limited(memory):
    """Has a process begin with so many bytes of address space at most. A script with threads gives no limit: none could begin so."""
    return (lambda: resource.setrlimit(resource.RLIMIT_AS, (memory, memory))) if memory else None


def ended(program, words, source=subprocess.DEVNULL, output=subprocess.PIPE, memory=None, environment=None,
          seconds=MOST_SECONDS):
    """The end of the program with these words and streams."""
    process = subprocess.Popen([program, *words], stdin=source, stdout=output, stderr=subprocess.PIPE,
                               preexec_fn=limited(memory), env=environment)
    try:
        written, told = process.communicate(timeout=seconds)
    except subprocess.TimeoutExpired:
        process.send_signal(signal.SIGKILL)
        written, told = process.communicate()
        return End(None, written or b"", told)
    return End(process.returncode, written or b"", told)


def answered(program, words, data, **more):
    """The same over these bytes."""
    with tempfile.TemporaryFile() as source:
        source.write(data)
        source.seek(0)
        return ended(program, words, source, **more)


def oddities(end):
    """What is out of line in an end: its status has no name, or its output or its line isn't as the status says."""
    if end.status not in STATUSES:
        return ["it ran on" if end.status is None else f"the status {end.status} has no name"]
    _, writes, tells = STATUSES[end.status]
    odd = []
    if writes is not None and writes != bool(end.output):
        odd.append("standard output isn't as the status says")
    if end.status in LINES and not re.fullmatch(LINES[end.status], end.output):
        odd.append("the answer isn't a line of that status")
    if not re.fullmatch(TOLD if tells else rb"", end.told):
        odd.append("standard error isn't as the status says")
    return odd


def serves(program):
    """Whether this program has the command `serve`."""
    return ended(program, ["serve", "--clients", "1", "--workers", "1"]).status == 0


class Command:
    """Words with a small input."""

    def __init__(self, words, data, name=""):
        self.words, self.data = words.split(), data
        self.name = words + name

    def is_serve(self):
        return self.words[0] == "serve"

    def clients(self):
        return int(self.words[2])


def long_certificate(program):
    """The certificate of 64,000 rows, which are checked in eight chunks."""
    from make_pies import counting_down
    return answered(program, ["place"], counting_down(15_998)).output


def small_commands(program):
    """Every command of the program over small inputs, `serve` where the program has it."""
    five, addr = example("five.pie"), example("addr.pie")
    three, asks, four = example("three.script"), example("asks.script"), example("four_clients.script")
    found = [
        Command("replay", five),
        Command("replay", addr, " of a refused file"),
        Command("replay", example("hash0.pie"), " with a hash instance"),
        Command("place", five),
        Command("list", five),
        Command("check", example("five.cert")),
        Command("check", example("batch.cert"), " of a batch"),
        Command("check", long_certificate(program), " of 64,000 rows"),
        Command("run", example("five.casm")),
        Command("run", example("down.casm"), " of a loop"),
        Command("run", example("no_label.casm"), " of a refused text"),
        Command("boot", b""),
        Command("make 1", b""),
        Command("trial 4", b""),
        Command("batch --clients 1", three),
        Command("batch --clients 1", asks, " with questions"),
        Command("batch --clients 4", four),
        Command("batch --clients 1", example("bad_client.script"), " of a bad line"),
        Command("export --clients 1 --batch 0", three),
        Command("export --clients 1 --batch 1", three),
    ]
    if serves(program):
        found += [Command("serve --clients 1 --workers 1", three), Command("serve --clients 4 --workers 2", four)]
    return found
