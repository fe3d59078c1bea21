"""One cycle of a trace, with its frames read into cells."""

from dataclasses import dataclass

KINDS = {"A1": 0xA1, "A2": 0xA2, "B1": 0xB1, "B2": 0xB2}
PAYLOAD = {"A1": 32, "A2": 32, "B1": 64, "B2": 64}
HEAD = 6


@dataclass
class Frame:
    """A frame as it was delivered: its cells, each None or its bytes, or None where it can't be read."""
    data: bytes
    cells: list | None


def cells_of(data, round_, cycle, sender, elements):
    """The cells of a frame; None where it isn't spelled as its round, cycle and sender demand."""
    size, count = PAYLOAD[round_] + 1, 1 if round_[1] == "1" else elements
    head = bytes([KINDS[round_]]) + cycle.to_bytes(4, "big") + bytes([sender])
    if len(data) != HEAD + size * count or data[:HEAD] != head:
        return None
    cells = [data[HEAD + size * k:HEAD + size * (k + 1)] for k in range(count)]
    if any(cell[0] > 1 or (cell[0] == 0 and any(cell)) for cell in cells):
        return None
    return [cell[1:] if cell[0] else None for cell in cells]


def read_cycle(text, cycle):
    """The frames of a cycle by (round, sender, receiver), and the number of elements."""
    found = {}
    for line in text.split("\n"):
        words = line.split(" ")
        if len(words) == 6 and words[0] == "frame" and int(words[1]) == cycle:
            found[words[2], int(words[3]), int(words[4])] = b"" if words[5] == "-" else bytes.fromhex(words[5])
    if not found:
        raise ValueError(f"no cycle {cycle} in the trace")
    elements = 1 + max(sender for _, sender, _ in found)
    if len(found) != 4 * elements * (elements - 1):
        raise ValueError(f"cycle {cycle} of the trace is not whole")
    return {(round_, sender, to): Frame(data, cells_of(data, round_, cycle, sender, elements))
            for (round_, sender, to), data in found.items()}, elements


def vote(cells):
    """None unless more than half are present; else each bit as more than half of the present ones have it."""
    rows = [cell for cell in cells if cell is not None]
    if 2 * len(rows) <= len(cells):
        return None
    return bytes(sum(1 << bit for bit in range(8) if 2 * sum(row[k] >> bit & 1 for row in rows) > len(rows))
                 for k in range(len(rows[0])))


class Exchange:
    """A first round and its echoes: what each element was sent, and what it relayed."""

    def __init__(self, frames, elements, letter):
        self.frames, self.elements = frames, elements
        self.first, self.second = letter + "1", letter + "2"
        self.voted = [vote([self.copy(to, source) for to in self.others(source)]) for source in range(elements)]

    def others(self, element):
        return [e for e in range(self.elements) if e != element]

    def copy(self, holder, source):
        """What a frame of the first round reads as at an element."""
        cells = self.frames[self.first, source, holder].cells
        return cells[0] if cells else None

    def echo(self, relay, to, source):
        """What an element was told of a source in the second round."""
        cells = self.frames[self.second, relay, to].cells
        return cells[source] if cells else None

    def relays(self, source):
        """Whether anything is relayed of a source at all."""
        return any(self.echo(k, to, source) is not None for k in self.others(source) for to in self.others(k))

    def values(self, source):
        """The different rows that are told of a source, those of the first round first."""
        rows = [self.copy(to, source) for to in self.others(source)]
        rows += [self.echo(k, to, source) for k in self.others(source) for to in self.others(k)]
        return list(dict.fromkeys(row for row in rows if row is not None))
