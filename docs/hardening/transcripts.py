"""What a transcript of `serve` owes to the transcript that `batch` writes of the same script.

The order of different clients' lines is free, and so is which jobs share a batch. Everything else is told by the script: nothing is
lost, nothing stands twice, and each client's submissions are answered alike.
"""
import re

LINE = re.compile(r"client (\d+) (submit|ask|status)(?: (.*))?")
BATCH = re.compile(r"batch (\d+) steps (\d+) jobs((?: \d+\.\d+)+)")
PHASES = ("waiting", "sealed", "taken", "registered")


class Transcript:
    """The lines of the clients, of the batches and of the facts, with what doesn't belong to one."""

    def __init__(self, text):
        self.answers, self.batches, self.facts, self.odd = {}, [], [], []
        lines = text.decode("ascii", "replace").split("\n")
        if lines[-2:] != ["end", ""]:
            self.odd.append("the last line isn't `end`")
        part = 0
        for line in lines[:-2]:
            kind, where = self.put(line)
            if where < part:
                self.odd.append(f"a line stands behind a later part: {kind}")
            part = max(part, where)

    def put(self, line):
        told, batch = LINE.fullmatch(line), BATCH.fullmatch(line)
        if told:
            self.answers.setdefault(int(told[1]), []).append((told[2], told[3] or ""))
            return "client", 0
        if batch:
            self.batches.append((int(batch[1]), int(batch[2]), batch[3].split()))
            return "batch", 1
        if line.startswith("fact "):
            self.facts.append(line)
            return "fact", 2
        self.odd.append(f"a line of no kind: {line[:80]}")
        return "none", 2

    def submissions(self, client):
        return [text for verb, text in self.answers.get(client, []) if verb == "submit"]

    def admitted(self):
        """The jobs that were admitted, as the lines of the batches name them."""
        return sorted(f"{client}.{text.split()[1]}" for client in self.answers
                      for text in self.submissions(client) if text.startswith("admitted "))


def requests_of(script):
    """The verbs and numbers of each client's lines but those that settle, with the facts asked for, in order."""
    found = {}
    for line in script.decode("ascii").split("\n")[:-1]:
        verb, client, *rest = line.split(" ")
        if verb != "settle":
            found.setdefault(int(client), []).append((verb, rest))
    return found


def answer_faults(client, requests, answers, facts):
    """What is out of line in the answers to one client's requests, taken in order."""
    if [verb for verb, _ in requests] != [verb for verb, _ in answers]:
        return [f"client {client} has other answers than lines"]
    odd, count, shown = [], 0, set()
    for (verb, rest), (_, text) in zip(requests, answers):
        if verb == "submit":
            count += text.startswith("admitted ")
        elif verb == "ask":
            fact = f"fact {rest[0].lower()} outputs" + "".join(f" {v}" for v in rest[1:])
            if text not in ("yes", "no") or (text == "yes" and fact not in facts) or (text == "no" and fact in shown):
                odd.append(f"client {client} asks for a fact and is told {text}")
            shown |= {fact} if text == "yes" else set()
        else:
            number, phase = text.split(" ") if " " in text else ("", text)
            if number != rest[0] or phase not in (PHASES if int(number) < count else ("unknown",)):
                odd.append(f"client {client} asks for job {rest[0]} and is told {text}")
    return odd


def faults_of(script, clients, served, alone):
    """What is out of line in the transcript `served`, beside the transcript `alone` of `batch`."""
    found, wanted, requests = Transcript(served), Transcript(alone), requests_of(script)
    odd = list(found.odd)
    odd += [f"client {client} isn't there" for client in found.answers if client >= clients]
    for client in range(clients):
        odd += answer_faults(client, requests.get(client, []), found.answers.get(client, []), set(found.facts))
        if found.submissions(client) != wanted.submissions(client):
            odd.append(f"client {client}'s submissions are answered otherwise")
    if found.facts != wanted.facts:
        odd.append("there are other facts")
    if [number for number, _, _ in found.batches] != list(range(len(found.batches))):
        odd.append("the batches aren't numbered in order")
    if sorted(job for _, _, jobs in found.batches for job in jobs) != found.admitted():
        odd.append("the batches don't have each admitted job once")
    if sum(steps for _, steps, _ in found.batches) != sum(steps for _, steps, _ in wanted.batches):
        odd.append("the batches have other steps")
    return odd


def slips(text):
    """Transcripts that are wrong in one way each: what `faults_of` must find."""
    lines = text.decode().split("\n")[:-2]
    for place, line in enumerate(lines):
        for changed in (lines[:place] + lines[place + 1:], lines[:place + 1] + lines[place:]):
            yield f"{line[:40]} is lost or stands twice", "\n".join(changed + ["end", ""]).encode()
    yield "no end", "\n".join(lines + [""]).encode()
    yield "the first line last", "\n".join(lines[1:] + lines[:1] + ["end", ""]).encode()


def missed_slips(script, clients, alone):
    """The wrong transcripts that `faults_of` takes: there is none, if it works. The right one is found to be right."""
    missed = [name for name, wrong in slips(alone) if not faults_of(script, clients, wrong, alone)]
    return missed + [f"the right one: {odd}" for odd in faults_of(script, clients, alone, alone)]
