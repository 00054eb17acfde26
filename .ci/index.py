#!/usr/bin/env python3
"""Writes docs/INDEX.md: each public call with its clauses, the definitions that they cite, the laws and the wrong bodies.

index.py            writes the page
index.py --check    writes nothing; fails where the page is stale, a definition outside Working/ is reached from no public
                    contract, a law isn't in docs/CLAIMS.md, a public name stands twice, or a limit stands without its name

Names are resolved by the import lists of each file, so the page says what a reader finds who follows them.
"""
import pathlib
import re
import sys
from collections import defaultdict
from typing import NamedTuple

TOP = pathlib.Path(__file__).resolve().parent.parent
PAGE = TOP / "docs" / "INDEX.md"
CLAIMS = TOP / "docs" / "CLAIMS.md"

# Limits that must have a name wherever a clause, a definition or a body needs them.
LIMITS = r"65[_]?536|2[_]?097[_]?152|201[_]?326[_]?592|262[_]?144|2[_]?147[_]?483[_]?648|2 ?\^ ?31\b|1 << 31\b"
# Where the numbers of segments stand in definitions.
SEGMENTS = r"\bplace [0-7] |\bsegment_size pie [0-7]\b|\bvalue_at (?:pie\.)?cells [0-7]\b|\bHoldsNumbers \S+ [0-7] "
# Files that give limits and segments their names, and worked examples.
NAMING = re.compile(r"(^|/)([Ll]imits|[Ss]egments|tests)\.(rt|antt)$|/worked_\w+/")

WORD = re.compile(r"[^\s(){}\[\],;:`]+")
HEAD = re.compile(r"^ *(?:(?:abbrev|unfoldable) pub|pub (?:record|data)|pub)\s+(?!mod\b|use\b)([^\s({:]+)")
FIELD_PARENT = re.compile(r"^ *pub (?:record|data)\b")
IMPORT = re.compile(r"use Rattle\.(\w+)\.specs\.([\w.]+)\.\{([^}]*)\}")
MODULE = re.compile(r"use Rattle\.(\w+)\.specs\.([\w.]+) as (\w+)")
FUNCTION = re.compile(r"^( *)(pub(?:\(\w+\))? )?fn (\w+)")
CLAUSE = re.compile(r"\s*(?:///?[^\n]*\n\s*)*(requires|ensures)\s+(?:(\w+)\s+)?\{")


class Definition(NamedTuple):
    crate: str
    module: str
    name: str


class Call(NamedTuple):
    crate: str
    owner: str
    name: str
    place: str
    clauses: list  # (kind, name, definitions)
    is_law: bool

    def title(self):
        return f"{self.owner}::{self.name}" if self.owner else self.name


def crates():
    lines = (TOP / "crates.txt").read_text().splitlines()
    return [line.split(":")[0].split()[0] for line in lines if ":" in line and not line.startswith("#")]


def imports_of(text):
    found = {}
    for crate, module, names in IMPORT.findall(text):
        for item in names.split(","):
            name, _, alias = item.strip().partition(" as ")
            if name:
                found[alias or name] = Definition(crate, module, name)
    for crate, module, alias in MODULE.findall(text):
        for name in re.findall(rf"\b{alias}\.([^\s(){{}},;]+)", text):
            found[f"{alias}.{name}"] = Definition(crate, module, name)
    return found


def indent(line):
    return len(line) - len(line.lstrip())


def definitions_in(text):
    """Each definition's name with its first line's number and its whole text."""
    found, record_at = [], None
    for number, line in enumerate(text.splitlines(), 1):
        if line.strip() and not line.lstrip().startswith("--"):
            if record_at is not None and indent(line) <= record_at:
                record_at = None
            head = HEAD.match(line)
            if head and record_at is None:
                found.append([head.group(1), number, ""])
                if FIELD_PARENT.match(line):
                    record_at = indent(line)
            if found:
                found[-1][2] += line + "\n"
    return found


class Specs:
    """All definitions of the repository, and which ones each one cites."""

    def __init__(self):
        self.place, self.cites = {}, {}
        texts = []
        for crate in crates():
            root = TOP / "crates" / crate / "specs"
            for path in sorted(root.rglob("*.antt")):
                module = ".".join(path.relative_to(root).with_suffix("").parts)
                text = path.read_text()
                for name, line, body in definitions_in(text):
                    key = Definition(crate, module, name)
                    self.place[key] = (path.relative_to(TOP), line)
                    texts.append((key, body, imports_of(text)))
        for key, body, imports in texts:
            self.cites[key] = self.resolved(body, imports, key) - {key}

    def resolved(self, text, imports, here=None):
        found = set()
        words = set(WORD.findall(text))
        # an operator stands between its operands, and has a place for each in its name
        operators = {f"◌{word}◌" for word in words}
        for word in words | operators | {part for word in words for part in word.split(".")}:
            target = imports.get(word)
            own = here and Definition(here.crate, here.module, word)
            if target in self.place:
                found.add(target)
            elif own in self.place:
                found.add(own)
        return found

    def reached_from(self, seeds):
        reached, waiting = set(), list(seeds)
        while waiting:
            key = waiting.pop()
            if key not in reached:
                reached.add(key)
                waiting.extend(self.cites[key])
        return reached


def braced(text, start):
    """The text in the braces that open at start, and where they end."""
    depth = 0
    for place in range(start, len(text)):
        depth += {"{": 1, "}": -1}.get(text[place], 0)
        if depth == 0:
            return text[start + 1:place], place + 1
    return text[start + 1:], len(text)


def contract_at(text, start):
    """The clauses of a function whose signature begins at start."""
    ends = re.compile(r"\n\s*(?:requires|ensures)\b|[{;]").search(text, start)
    place, clauses = (ends.start() if ends else len(text)), []
    while (clause := CLAUSE.match(text, place)):
        body, place = braced(text, clause.end() - 1)
        clauses.append((clause.group(1), clause.group(2) or "", body))
    return clauses


def exported_by(root):
    """The names that a crate's root makes public, and the modules whose public items all are."""
    text = root.read_text()
    groups = re.findall(r"^pub use [\w:]+?::(?:\{([^}]*)\}|(\w+));", text, re.M)
    names = {name.strip() for many, one in groups for name in (many or one).split(",")}
    own = re.findall(r"^pub (?:struct|enum|trait|fn) (\w+)", text, re.M)
    modules = re.findall(r"^pub mod (\w+)", text, re.M)
    return {*names, *own}, {"lib", *modules}


def sources(crate):
    root = TOP / "crates" / crate / "src"
    return sorted(p for p in root.rglob("*.rt") if not NAMING.search(str(p)) or p.stem in ("limits", "segments"))


class Surface:
    """The public calls of a crate, and the definitions that its contracts and facts of types cite."""

    def __init__(self, crate, specs):
        self.calls, self.seeds = [], set()
        src = TOP / "crates" / crate / "src"
        root = src / "lib.rt" if (src / "lib.rt").exists() else src / "main.rt"
        self.crate, self.specs = crate, specs
        self.exported, self.open_modules = exported_by(root)
        for path in sources(crate):
            self.read(path)

    def read(self, path):
        text = path.read_text()
        imports = imports_of(text)
        is_open = path.stem in self.open_modules
        block, of_trait, start = "", False, 0
        for number, line in enumerate(text.splitlines(keepends=True), 1):
            opened = re.match(r"(?:pub )?(impl|trait)\b(?:<.*?>+)? *(?:(.*?) for )?(\w+)", line)
            if opened:
                block, of_trait = opened.group(3), opened.group(1) == "trait" or bool(opened.group(2))
            elif line.startswith("}"):
                block, of_trait = "", False
            shown = is_open or (block or "") in self.exported
            ghost = re.match(r" *(?:pub )?ghost (?!use\b)\w+", line)
            function = FUNCTION.match(line)
            if ghost and (shown or of_trait):
                fact, _ = braced(text, text.index("{", start)) if "{" in line else (line, 0)
                self.seeds |= specs_of(self.specs, fact, imports)
            elif function and self.is_public(function, block, of_trait, shown):
                self.add(path, number, block, function.group(3), contract_at(text, start), imports)
            start += len(line)

    def is_public(self, function, block, of_trait, shown):
        said = function.group(2) == "pub "
        if block:
            return shown and (said or of_trait)
        return said and (shown or function.group(3) in self.exported)

    def add(self, path, number, owner, name, clauses, imports):
        told = [(kind, label, specs_of(self.specs, body, imports)) for kind, label, body in clauses]
        place = f"{path.relative_to(TOP / 'crates' / self.crate)}:{number}"
        self.calls.append(Call(self.crate, owner, name, place, told, path.stem == "laws"))
        for _, _, cited in told:
            self.seeds |= cited


def specs_of(specs, text, imports):
    return specs.resolved(text, imports)


def wrong_bodies(crate):
    return sorted(p.stem.replace("-", " ") for p in (TOP / "crates" / crate / "must-fail").glob("*.edit"))


def row(call, specs):
    def cited(definitions):
        places = (f"`{d.name}` ({specs.place[d][0].relative_to('crates')}:{specs.place[d][1]})" for d in sorted(definitions))
        return ", ".join(places)

    if not call.clauses:
        return [f"- `{call.title()}` ({call.place})"]
    lines = [f"- `{call.title()}` ({call.place})"]
    for kind, label, definitions in call.clauses:
        head = f"{kind} {label}".strip()
        lines.append(f"  - {head}: {cited(definitions)}" if definitions else f"  - {head}")
    return lines


def page_of(surfaces, specs):
    lines = [
        "# Index",
        "",
        "Made by `.ci/index.py` and checked after the gate. Each public call with its clauses and the definitions that a clause",
        "cites, then the laws, then the wrong bodies that the gate tries. Paths of calls are below their crate's folder, those of",
        "definitions below `crates/`.",
    ]
    for surface in surfaces:
        laws = [c for c in surface.calls if c.is_law]
        lines += ["", f"## {surface.crate}", ""]
        lines += [line for call in surface.calls if not call.is_law for line in row(call, specs)]
        if laws:
            lines += ["", "Laws:", ""] + [line for call in laws for line in row(call, specs)]
        bodies = wrong_bodies(surface.crate)
        if bodies:
            lines += ["", "Wrong bodies: " + "; ".join(bodies) + "."]
    return "\n".join(lines) + "\n"


def unreached(surfaces, specs):
    reached = specs.reached_from(set().union(*(s.seeds for s in surfaces)))
    for key, (path, line) in sorted(specs.place.items()):
        if key not in reached and not key.module.startswith("Working"):
            yield f"{path}:{line}: {key.name} is reached from no public contract: cite it, or move it to Working/"


def twice(surfaces, specs):
    places = defaultdict(list)
    for key, (path, line) in specs.place.items():
        if not key.module.startswith("Working"):
            places[key.name].append(f"{path}:{line}")
    for call in (c for s in surfaces for c in s.calls if c.is_law):
        places[call.name].append(f"crates/{call.crate}/{call.place}")
    for name, found in sorted(places.items()):
        if len(found) > 1:
            yield f"{name} is a public name twice: {', '.join(found)}"


def unclaimed(surfaces):
    claims = CLAIMS.read_text()
    for call in (c for s in surfaces for c in s.calls if c.is_law):
        if not re.search(rf"\b{call.name}\b", claims):
            yield f"crates/{call.crate}/{call.place}: the law {call.name} is not in docs/CLAIMS.md"


def code_of(path):
    """The lines of a file, each without its texts and its comment."""
    mark = "--" if path.suffix == ".antt" else "//"
    return [re.sub(r'"[^"]*"', '""', line).split(mark)[0] for line in path.read_text().splitlines()]


def unnamed_limits():
    for crate in crates():
        root = TOP / "crates" / crate
        for path in sorted([*root.glob("specs/**/*.antt"), *root.glob("src/**/*.rt")]):
            if NAMING.search(str(path)):
                continue
            for number, line in enumerate(code_of(path), 1):
                bare = re.search(LIMITS, line) or (path.suffix == ".antt" and re.search(SEGMENTS, line))
                if bare:
                    yield f"{path.relative_to(TOP)}:{number}: the limit or segment '{bare.group().strip()}' has no name"


def main(words):
    specs = Specs()
    surfaces = [Surface(crate, specs) for crate in crates()]
    page = page_of(surfaces, specs)
    if words == []:
        PAGE.write_text(page)
        return 0
    if words != ["--check"]:
        print(__doc__)
        return 2
    faults = [*unreached(surfaces, specs), *twice(surfaces, specs), *unclaimed(surfaces), *unnamed_limits()]
    if not PAGE.exists() or PAGE.read_text() != page:
        faults.append("docs/INDEX.md is stale: run .ci/index.py")
    for fault in faults:
        print(fault)
    print(f"index: {len(specs.place)} definitions, {sum(len(s.calls) for s in surfaces)} public calls, {len(faults)} faults")
    return 1 if faults else 0


if __name__ == "__main__":
    sys.exit(main(sys.argv[1:]))
