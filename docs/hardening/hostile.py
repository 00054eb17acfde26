"""Inputs that an attacker might send: files, certificates, texts and scripts that are changed, cut, filled up or made of nonsense."""
import glob
import os
import struct

from commands import TOP, example
from make_pies import ADD, COPY, PRIME, RETURN, SET, counting_down, full_of, instance, long_program

# Numbers at which something may turn over.
EDGES = [0, 1, 2, 7, 64, 65, 255, 65_535, 65_536, 65_537, 2**31 - 1, 2**31, 2**32 - 1, 2**32, 2**63 - 1, 2**63, PRIME - 1, PRIME, 2**64 - 1]
MOST_PIE = 2_097_152
MOST_LINES = 65_536
MAGIC = bytes.fromhex("4350494536340001")
CELL, HEAD = 16, 12
CERTIFICATE_MAGIC = bytes.fromhex("4343525436340001")


def examples(ending):
    return [example(os.path.basename(path)) for path in sorted(glob.glob(os.path.join(TOP, "examples", "*" + ending)))]


def edge(rng):
    return rng.choice(EDGES) if rng.random() < 0.8 else rng.getrandbits(rng.choice((8, 16, 32, 64)))


# Bytes of any kind

def flipped(rng, data):
    changed = bytearray(data)
    for _ in range(rng.randint(1, 6) if changed else 0):
        changed[rng.randrange(len(changed))] = rng.choice((0, 1, 2, 7, 127, 128, 255, rng.randrange(256)))
    return bytes(changed)


def cut(rng, data):
    return data[:rng.randint(0, len(data))]


def filled_up(rng, data):
    return data + rng.choice((b"\0", b"\n", bytes(rng.randint(1, 64)), data, rng.getrandbits(128).to_bytes(16, "big")))


def rearranged(rng, data):
    places = sorted(rng.randint(0, len(data)) for _ in range(3))
    first, second = data[places[0]:places[1]], data[places[1]:places[2]]
    return data[:places[0]] + rng.choice((second + first, first + first + second, second, b"")) + data[places[2]:]


def with_edge(rng, data):
    """A number at an edge in the place of 2, 4 or 8 bytes."""
    width = rng.choice((2, 4, 8))
    if len(data) < width:
        return data
    place = rng.randrange(len(data) - width + 1)
    return data[:place] + (edge(rng) % 2**(8 * width)).to_bytes(width, "big") + data[place + width:]


def changed_bytes(rng, data):
    for _ in range(rng.randint(1, 3)):
        data = rng.choice((flipped, flipped, with_edge, with_edge, cut, filled_up, rearranged))(rng, data)
    return data


def noise(rng):
    size = rng.choice((0, 1, 7, 8, 12, 100, 5_000))
    return bytes(rng.getrandbits(8) for _ in range(size))


# Files

def json_value(rng, depth=0):
    pick = rng.randrange(9 if depth < 4 else 6)
    if pick < 2:
        return str(edge(rng))
    if pick < 6:
        return rng.choice(JSON_WORDS)
    parts = [json_value(rng, depth + 1) for _ in range(rng.randint(0, 4))]
    if pick < 8:
        return "[" + ",".join(parts) + "]"
    return "{" + ",".join(f'{rng.choice(KEYS)}:{part}' for part in parts) + "}"


JSON_WORDS = ["null", "true", "-1", "1e9", "6.0", "-0", "1e999", "0x1", "01", '"\\u006dain"', '"\\ud800"', '"\x01"', '""', "9" * 400,
              '"' + "k" * 3000 + '"']
KEYS = ['"main"', '"sizes"', '"steps"', '"version"', '"builtins"', '"\\u006dain"', '""', '"x"']


SIZES = [[8, 9, 1, 0, 0, 0, 0], [4, 8, 0, 0, 0, 0, 0], [1] * 64, [1] * 65, [4, 65_532] + [0] * 5, [4, 65_533] + [0] * 5, [], [0] * 7]


def metadata(rng):
    pick = rng.randrange(6)
    if pick == 0:
        return json_value(rng).encode("utf-8", "replace")
    if pick == 1:
        depth = rng.choice((1, 126, 127, 128, 129, 1_000, 500_000))
        return (rng.choice("[{") * depth).encode()
    if pick == 2:
        return b'{"main":0,"sizes":' + b"[" * rng.choice((127, 128, 100_000)) + b'],"steps":6,"version":1}'
    fields = {
        "main": rng.choice((0, 0, edge(rng))), "sizes": rng.choice(SIZES + [[edge(rng) for _ in range(7)]]),
        "steps": rng.choice((6, 4, 65_536, 65_537, edge(rng))), "version": rng.choice((1, 1, 1, 2, edge(rng)))}
    parts = [f'"{key}":{str(value).replace(" ", "")}' for key, value in fields.items()]
    for _ in range(rng.randrange(3)):
        parts.append(f"{rng.choice(KEYS)}:{json_value(rng)}")
    rng.shuffle(parts)
    blank = rng.choice(("", "", " ", "\n\t "))
    return (blank + "{" + ("," + blank).join(parts) + "}" + blank).encode("utf-8", "replace")


def parts_of(file):
    """The metadata and the cells of a file that is one, else nothing."""
    length = int.from_bytes(file[8:12], "big")
    cells = file[16 + length:]
    if file[:8] != MAGIC or len(cells) % CELL:
        return None
    return file[HEAD:HEAD + length], [cells[k:k + CELL] for k in range(0, len(cells), CELL)]


def put_together(text, cells):
    return MAGIC + len(text).to_bytes(4, "big") + text + len(cells).to_bytes(4, "big") + b"".join(cells)


def other_cell(rng, cell):
    segment, offset, tag, value = struct.unpack(">HIHQ", cell)
    pick = rng.randrange(5)
    if pick == 0:
        segment = rng.choice((segment + 1, 0, 1, 6, 7, 63, 64, 65_535)) % 65_536
    elif pick == 1:
        offset = rng.choice((offset + 1, 0, edge(rng))) % 2**32
    elif pick == 2:
        tag = rng.choice((0, 1, 2, 65_535))
    elif pick == 3:
        value = (value + rng.choice((1, -1, 2**32, 2**48, 2**63))) % 2**64
    else:
        value = edge(rng) % 2**64
    return struct.pack(">HIHQ", segment, offset, tag, value)


def with_other_cells(rng, cells):
    cells = list(cells)
    for _ in range(rng.randint(1, 3) if cells else 0):
        place = rng.randrange(len(cells))
        pick = rng.randrange(6)
        if pick < 4:
            cells[place] = other_cell(rng, cells[place])
        elif pick == 4 and len(cells) > 1:
            del cells[place]
        else:
            cells.insert(place, cells[rng.randrange(len(cells))])
    return cells


def sound_file(rng):
    """A file that is admitted, mostly, of one of many programs."""
    pick = rng.randrange(8)
    if pick < 5:
        return rng.choice(examples(".pie"))
    if pick == 5:
        return counting_down(rng.randint(1, 400))
    if pick == 6:
        return full_of(3, [edge(rng) % 2**33 for _ in range(rng.randint(0, 40))])
    return full_of(4, [n for k in range(rng.randint(0, 4)) for n in instance(k)][:rng.choice((80, 79, 20, 19))])


def file_at_a_limit(rng):
    """One that has as many bytes, steps or cells as a file may, or one more."""
    pick = rng.randrange(4)
    if pick == 0:
        text, cells = parts_of(example("five.pie"))
        wanted = MOST_PIE + rng.choice((0, 1)) - 16 - CELL * len(cells)
        return put_together(text + b" " * (wanted - len(text)), cells)
    if pick == 1:
        return counting_down(rng.choice((16_382, 16_381, 16_383)))
    if pick == 2:
        return long_program(rng.choice((65_528, 65_530)))
    return MAGIC + bytes.fromhex("001ffff0") + b"[" * 2_000_000 + bytes(97_140)


def file(rng):
    pick = rng.randrange(20)
    if pick == 0:
        return noise(rng)
    if pick == 1:
        return MAGIC + noise(rng)
    base = sound_file(rng)
    if pick < 4:
        return base
    if pick < 11:
        return changed_bytes(rng, base)
    parts = parts_of(base)
    if parts is None:
        return changed_bytes(rng, base)
    text, cells = parts
    if pick < 16:
        return put_together(text, with_other_cells(rng, cells))
    return put_together(metadata(rng), cells)


# Certificates

def certificate_of_equal_states(rng):
    """Many states, none a step, over few cells, with wide spans."""
    spans = [rng.choice((0, 1, 5, PRIME - 1)) for _ in range(6)]
    count = rng.choice((0, 1, 3_000, 100_000))
    cells = sorted({edge(rng) % PRIME for _ in range(rng.randint(0, 12))})
    data = CERTIFICATE_MAGIC + bytes([rng.choice((0, 0, 1))]) + struct.pack(">6Q", *spans) + bytes(4)
    data += struct.pack(">I", len(cells)) + b"".join(struct.pack(">2Q", at, edge(rng) % PRIME) for at in cells)
    return data + struct.pack(">I", count) + struct.pack(">3Q", 1, 5, 5) * count


def certificate_of_many_marks(rng):
    count = rng.choice((1, 17, 5_000))
    marks = b"".join(struct.pack(">2I", edge(rng) % 2**32, 2) + struct.pack(">2Q", edge(rng) % PRIME, 1) for _ in range(count))
    announced = rng.choice((count, count + 1, 2**32 - 1))
    return CERTIFICATE_MAGIC + b"\1" + bytes(48) + struct.pack(">I", announced) + marks + bytes(8)


def certificate(rng):
    pick = rng.randrange(12)
    if pick == 0:
        return noise(rng)
    if pick == 1:
        return CERTIFICATE_MAGIC + noise(rng)
    if pick == 2:
        return certificate_of_equal_states(rng)
    if pick == 3:
        return certificate_of_many_marks(rng)
    base = rng.choice(examples(".cert"))
    if pick == 4:
        return base
    if pick < 9:
        return changed_bytes(rng, base)
    place = 9 + 8 * rng.randrange((len(base) - 9) // 8)
    return base[:place] + struct.pack(">Q", edge(rng) % 2**64) + base[place + 8:]


# Assembly texts

def cell_text(rng):
    register = rng.choice(("ap", "fp"))
    return f"[{register}{rng.choice(('', '+1', '-1', '-5', '-3', '+0', '-32768', '+32767', '+32768', f'-{rng.randint(0, 9)}'))}]"


def operand(rng):
    return cell_text(rng) if rng.random() < 0.5 else rng.choice(("0", "1", "-1", "5", str(PRIME - 1), str(PRIME), "-" + str(PRIME), str(edge(rng))))


def label(rng):
    return f"l{rng.randint(0, 4)}"


def statement(rng):
    more = rng.choice((", ap++", ", ap++", ""))
    return rng.choice((
        f"{cell_text(rng)} = {operand(rng)}{more}", f"[ap] = {operand(rng)}, ap++", f"{cell_text(rng)} = [[fp-5]]{more}",
        f"{cell_text(rng)} = [{cell_text(rng)} + {rng.randint(0, 3)}]{more}",
        f"{cell_text(rng)} = {cell_text(rng)} {rng.choice('+*')} {operand(rng)}{more}",
        f"jmp rel {operand(rng)}", f"jmp abs {operand(rng)}", f"jmp rel {operand(rng)} if {cell_text(rng)} != 0",
        f"call rel {operand(rng)}", f"call abs {operand(rng)}", "ret", f"ap += {operand(rng)}", f"word {operand(rng)}",
        f"jmp {label(rng)}", f"call {label(rng)}", f"jmp {label(rng)} if {cell_text(rng)} != 0", f"{label(rng)}:", "main:", "// nothing", ""))


TAIL = ["[ap] = [fp-5], ap++", "[ap] = [fp-4], ap++", "[ap] = [fp-3], ap++", "ret"]


def text_at_a_limit(rng):
    """As many words as a program may have, or one more; numbers, labels and lines without measure; a text that grows its run."""
    return rng.choice((
        "word 1\n" * rng.choice((65_536, 65_537)), "[ap] = 1, ap++\n" * rng.choice((32_768, 32_769)), "[ap] = " + "9" * 500_000,
        "l" * 1_000_000 + ":", "[ap] = 5, ap++ " * 50_000, "\n" * 1_000_000, "".join(f"l{k}:\n" for k in range(60_000)), "a:\n" * 60_000,
        "jmp a\n" * 60_000 + "a:\n", "[ap] = 1, ap++\njmp rel -2", "call rel 0", "ap += 65536\n[ap] = 1", "ap += 60000\n[ap] = 1\nret",
        "[" * 500_000, "//" + "\x00" * 500_000)).encode()


def text(rng):
    pick = rng.randrange(12)
    if pick == 0:
        return noise(rng)
    lines = [statement(rng) for _ in range(rng.randint(0, 12))]
    if pick < 5:
        lines = [f"[ap] = {rng.randint(0, 9)}, ap++" for _ in range(rng.randint(0, 5))] + lines[:2]
    if pick < 9:
        lines += TAIL
    if pick == 9:
        lines = rng.choice(examples(".casm")).decode("latin-1").split("\n")
        rng.shuffle(lines)
    data = rng.choice(("\n", "\n", "\n", "\r\n", "\n\n")).join(lines).encode("latin-1") + rng.choice((b"", b"\n"))
    return changed_bytes(rng, data) if pick in (10, 11) else data


# Scripts

HASHES = ["644b2c86fee53a4ad40c21efa0e8524e34c75966cf12fcbfe5a3ae40d0a8bcbd",
          "4ae2a31bf9da6dec8e814ee65e6495560d58ecd3a1727ee49e5279ace5919187", "0" * 64]


def digits(rng, data):
    return data.hex() if rng.random() < 0.8 else data.hex().upper()


def line(rng, clients):
    client = rng.randrange(clients)
    pick = rng.randrange(10)
    if pick < 4:
        return f"submit {client} {digits(rng, rng.choice(examples('.pie')))}"
    if pick == 4:
        return f"submit {client} {digits(rng, changed_bytes(rng, example('five.pie')))}"
    if pick == 5:
        return f"submit {client} {digits(rng, counting_down(rng.randint(1, 60)))}"
    if pick == 6:
        return f"ask {client} {rng.choice(HASHES)}" + "".join(f" {rng.choice((5, 1, edge(rng) % PRIME))}" for _ in range(rng.randrange(3)))
    if pick < 9:
        return f"status {client} {rng.choice((0, 1, 2, 5, 2**32 - 1))}"
    return f"settle {client}"


def bad_line(rng, clients):
    return rng.choice((
        f"submit {clients} 00", "submit 0 0", "submit 0 0g", "submit 00 00", "submit 0  00", " submit 0 00", "submit 0 00 ", "Submit 0 00",
        "submit 0", f"status 0 {2**32}", "status 0 01", "status 0 -1", "status 0 0 0", f"ask 0 {HASHES[0][:-1]} 5",
        f"ask 0 {HASHES[0]} {PRIME}", f"ask 0 {HASHES[0]} 05", "settle", "settle 0 0", "settle 99999999999999999999", "", "\x00", "end",
        "frob 0", f"ask 0 {HASHES[0]}" + " 1" * 3_000, "submit 0 " + "0" * 20_001))


def good_script(rng, clients):
    lines = [line(rng, clients) for _ in range(rng.choice((0, 1, 3, 10, 40)))]
    if rng.random() < 0.1:
        lines += [f"submit {rng.randrange(clients)} {example('empty.pie').hex()}"] * rng.choice((17, 64, 65))
    return "".join(each + "\n" for each in lines).encode()


def script_at_a_limit(rng):
    """As many lines as a script may have, or one more; a line without measure."""
    return rng.choice((b"status 0 0\n" * MOST_LINES, b"settle 0\n" * (MOST_LINES + 1), b"submit 0 " + b"0" * 6_000_000 + b"\n",
                       b"submit 0 \n" * 5_000, f"ask 0 {HASHES[0]}".encode() + b" 5" * 200_000 + b"\n", b"\n" * 70_000, b"x" * 3_000_000))


def script(rng, clients):
    pick = rng.randrange(12)
    if pick == 0:
        return noise(rng)
    data = good_script(rng, clients)
    if pick < 6:
        return data
    if pick < 10:
        lines = data.decode().split("\n")[:-1]
        lines.insert(rng.randint(0, len(lines)), bad_line(rng, clients))
        return (rng.choice(("\n", "\n", "\r\n")).join(lines) + rng.choice(("\n", ""))).encode()
    return changed_bytes(rng, data)


def long_input(rng):
    """As many bytes as an input may have, one more, or without an end."""
    return rng.choice((201_326_592, 201_326_593)), rng.choice((b"0", b"\n", b"[", b"// ", MAGIC, CERTIFICATE_MAGIC))
