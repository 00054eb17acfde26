#!/usr/bin/env python3
"""Makes PIE files with rooms that the examples leave empty, and what the program must answer to them.

Usage: roomy.py OUTPUTS RANGE INSTANCES FOLDER    (writes roomy.pie and roomy.cert there, and prints the line of the fact)

The program begins two words into its code, copies its three pointers to the end of its run and adds to each as many cells as
the segment has. Two more segments have a number, and a place in the other. Nothing here is taken from the program under test:
the rules are those of docs/PIE.md, BUILTINS.md and CERTIFICATE.md.
"""
import hashlib
import os
import struct
import sys

PRIME = 2**64 - 2**32 + 1
MAIN = 2
MASK = 7
COPY = {2: 0x480A7FFB7FFF8000, 3: 0x480A7FFC7FFF8000, 4: 0x480A7FFD7FFF8000}
ADD = {2: 0x482680017FFB8000, 3: 0x482680017FFC8000, 4: 0x482680017FFD8000}
RETURN = 0x208B7FFF7FFF7FFE


def digest(words, numbers):
    return struct.unpack(">8I", hashlib.sha256(struct.pack(">8I4Q", *words, *numbers)).digest())


def program_hash(code):
    numbers = [1, MAIN, len(code), MASK] + code
    words = (0, 0, 0, 0, 0, 0, 0, len(numbers))
    for start in range(0, len(numbers), 4):
        group = numbers[start:start + 4]
        words = digest(words, group + [0] * (4 - len(group)))
    return "".join(f"{word:08x}" for word in words)


def instance(number):
    words = [(number * 2654435761 + k) % 2**32 for k in range(8)]
    numbers = [(number * 11400714819323198485 + k) % PRIME for k in range(4)]
    return words + numbers + list(digest(words, numbers))


class Run:
    """The segments, each a list of numbers and of places (segment, offset), with the states of the run."""

    def __init__(self, outputs, range_cells, instances):
        numbers = {2: outputs, 3: range_cells, 4: [n for cells in instances for n in cells]}
        self.outputs = outputs
        self.code = [5, 5]
        states = []
        for segment in (2, 3, 4):
            states.append(len(self.code))
            count = len(numbers[segment])
            self.code += [ADD[segment], count] if count else [COPY[segment]]
        states.append(len(self.code))
        self.code.append(RETURN)
        frame = [(2, 0), (3, 0), (4, 0), (5, 0), (6, 0)]
        stops = [(segment, len(numbers[segment])) for segment in (2, 3, 4)]
        self.segments = [self.code, frame + stops, numbers[2], numbers[3], numbers[4], [], [], [7], [(7, 0)]]
        self.states = [((0, pc), (1, 5 + k), (1, 5)) for k, pc in enumerate(states)]
        self.states.append(((6, 0), (1, 8), (5, 0)))


def roomy_run(outputs, range_cells, instances):
    return Run(
        [(k * k * 1000003 + 17) % PRIME for k in range(outputs)],
        [(k * 2654435761) % 2**32 for k in range(range_cells)],
        [instance(k) for k in range(instances)])


def facts_line(run):
    """The hash and the outputs, as `replay` prints them."""
    return (program_hash(run.code) + " outputs" + "".join(f" {n}" for n in run.outputs) + "\n").encode()


def pie(run):
    sizes = ",".join(str(len(cells)) for cells in run.segments)
    text = f'{{"main":{MAIN},"sizes":[{sizes}],"steps":{len(run.states) - 1},"version":1}}'.encode()
    cells = b""
    for segment, values in enumerate(run.segments):
        for offset, value in enumerate(values):
            tag, number = (1, value[0] << 32 | value[1]) if isinstance(value, tuple) else (0, value)
            cells += struct.pack(">HIHQ", segment, offset, tag, number)
    return b"CPIE64\0\1" + struct.pack(">I", len(text)) + text + struct.pack(">I", len(cells) // 16) + cells


def bases_of(run):
    bases = [1]
    for cells in run.segments[:-1]:
        bases.append(bases[-1] + len(cells) + 1)
    return bases


def certificate(run):
    """The certificate of the run where the layout alone puts it."""
    bases = bases_of(run)

    def placed(value):
        return bases[value[0]] + value[1] if isinstance(value, tuple) else value

    cells = [(bases[segment] + offset, placed(value))
             for segment, values in enumerate(run.segments) for offset, value in enumerate(values)]
    text = b"CCRT64\0\1\0"
    for segment in (2, 3, 4):
        text += struct.pack(">2Q", bases[segment], bases[segment] + len(run.segments[segment]))
    text += struct.pack(">2I", 0, len(cells)) + b"".join(struct.pack(">2Q", *cell) for cell in cells)
    text += struct.pack(">I", len(run.states))
    return text + b"".join(struct.pack(">3Q", *map(placed, state)) for state in run.states)


def main():
    outputs, range_cells, instances, folder = sys.argv[1:]
    run = roomy_run(int(outputs), int(range_cells), int(instances))
    for name, data in {"roomy.pie": pie(run), "roomy.cert": certificate(run)}.items():
        with open(os.path.join(folder, name), "wb") as file:
            file.write(data)
    sys.stdout.write(facts_line(run).decode())


if __name__ == "__main__":
    main()
