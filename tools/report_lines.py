"""Reports, read into one value for each cycle."""

from collections import defaultdict
from dataclasses import dataclass, field


@dataclass
class Cycle:
    """What a report says of one cycle; elements are numbers, ports too."""
    number: int
    rejoin: tuple | None = None                                  # (element, "taken" or "refused")
    full: list = field(default_factory=list)                     # processors whose post was refused
    reads: list = field(default_factory=list)                    # (processor, packet or None)
    patterns: dict = field(default_factory=dict)                 # element -> eight words
    decision: dict = field(default_factory=lambda: {"act": "idle"})
    results: dict = field(default_factory=dict)                  # element -> packet or "none"
    update: str | None = None
    handed: dict = field(default_factory=dict)                   # element -> (port, "stored" or "overrun")
    notes: dict = field(default_factory=lambda: defaultdict(list))   # element -> [(kind, accused, other)]
    faulty: int | None = None                                    # as far as the report tells

    def take(self, words):
        """One line of the report."""
        what, rest = words[0], words[1:]
        if what == "rejoin":
            self.rejoin = (int(rest[0]), rest[1])
        elif what == "post-full":
            self.full.append(rest[0])
        elif what == "read":
            self.reads.append((rest[0], None if rest[1] == "none" else rest[5]))
        elif what == "pattern":
            self.patterns[int(rest[0])] = rest[1:]
        elif what in ("serve", "discard"):
            self.decision = decision(what, rest)
        elif what == "result":
            self.results[int(rest[0])] = rest[1]
        elif what == "update":
            self.update = " ".join(rest)
        elif what == "deliver":
            element, port = rest[0].split(".")
            self.handed[int(element)] = (int(port), rest[1])
        elif what == "syndrome":
            self.notes[int(rest[0])].append((rest[1], int(rest[2]), int(rest[3])))
        elif what != "idle":
            raise ValueError(f"no line of a report: {' '.join(words)}")


def decision(what, words):
    """`G to DEST class CLASS kind K waited W admitted ..`, with `reason R` in a discard."""
    return {"act": what, "sender": int(words[0]), "dest": int(words[2]), "class": int(words[4]),
            words[5]: words[6], "waited": int(words[8]), "admitted": [int(word) for word in words[10:]]}


def read_report(text):
    """The cycles of a report, and its end line."""
    cycles, end = [], ""
    for line in text.split("\n"):
        words = line.split(" ")
        if words[0] == "cycle":
            cycles.append(Cycle(int(words[1])))
        elif words[0] == "end":
            end = line
        elif line and cycles:
            cycles[-1].take(words)
        elif line:
            raise ValueError(f"no line of a report: {line}")
    name_faulty(cycles)
    return cycles, end


def name_faulty(cycles):
    """Says which element was faulty in each cycle, where the report tells.

    The faulty one has no `result` line, and is the one that rejoins. It changes only where a rejoin is taken.
    """
    stretch, told = [], None
    for cycle in [*cycles, None]:
        if cycle is None or (cycle.rejoin and cycle.rejoin[1] == "taken"):
            told = cycle.rejoin[0] if cycle else told
            for each in stretch:
                each.faulty = told
            stretch, told = [], None
        if cycle is None:
            return
        stretch.append(cycle)
        missing = set(cycle.patterns) - set(cycle.results)
        if cycle.results and missing:
            told = min(missing)
        if cycle.rejoin and cycle.rejoin[1] == "refused":
            told = cycle.rejoin[0]
