"""The four rounds of one cycle of a trace as a picture."""

from svg import Drawing
from trace_lines import Exchange, read_cycle

LEFT = 56
BOX, TALL = 17, 18          # the box of a cell
GAP = 10                    # between entries
ROW = 30
GREY = "#707070"
TITLES = {"A1": "A1: its own pattern", "A2": "A2: the patterns that came",
          "B1": "B1: its packet", "B2": "B2: the packets that came"}


def pattern_text(row):
    """A pattern as a report writes it; bytes outside the format as they are, in brackets."""
    return " ".join(entry_text(row[4 * port:4 * port + 4]) for port in range(8))


def entry_text(four):
    flags, *request = four
    if flags > 3 or (not flags & 1 and any(request)):
        return f"[{four.hex()}]"
    return f"{flags}:{request[0]}:{request[1]}:{request[2]}" if flags & 1 else str(flags)


def packet_text(row):
    return row.rstrip(b"\0").hex() or "zeros"


class Panel:
    """One round: a row for each sender, a column for each receiver, a box for each cell."""

    def __init__(self, exchange, round_):
        self.x, self.round = exchange, round_
        self.is_first = round_ == exchange.first
        self.names = [exchange.values(source) for source in range(exchange.elements)]

    def entry_width(self):
        return BOX * (2 if self.is_first else self.x.elements) + GAP

    def width(self):
        return LEFT + self.x.elements * self.entry_width()

    def draw(self, d, left, top):
        d.text(left, top, TITLES[self.round], size=13, bold=True)
        for to in range(self.x.elements):
            at = left + LEFT + to * self.entry_width()
            d.text(at, top + 20, f"to {to}", size=11)
            if not self.is_first:
                for source in range(self.x.elements):
                    d.text(at + BOX * source + BOX / 2, top + 32, str(source), size=8, anchor="middle", fill=GREY)
        for sender in range(self.x.elements):
            y = top + 38 + sender * ROW
            d.text(left, y + 13, f"from {sender}", size=11)
            for to in self.x.others(sender):
                self.draw_entry(d, left + LEFT + to * self.entry_width(), y, sender, to)

    def draw_entry(self, d, x, y, sender, to):
        frame = self.x.frames[self.round, sender, to]
        if frame.cells is None:
            d.box(x, y, self.entry_width() - GAP, TALL, fill="url(#hatch)")
            d.text(x + 2, y + 13, "none" if not frame.data else "bad", size=10, bold=True)
        elif self.is_first:
            self.draw_cell(d, x, y, sender, frame.cells[0], frame.cells[0] != self.x.voted[sender], False)
        else:
            for source, cell in enumerate(frame.cells):
                self.draw_echo(d, x + BOX * source, y, sender, source, cell)

    def draw_echo(self, d, x, y, relay, source, cell):
        """An echo; what a relay says of itself counts nowhere."""
        if source == relay:
            d.text(x + BOX / 2, y + 13, "·", size=12, anchor="middle", fill=GREY)
            return
        counts = self.x.relays(source)
        is_false = counts and cell != self.x.copy(relay, source)
        self.draw_cell(d, x, y, source, cell, counts and cell != self.x.voted[source], is_false)

    def draw_cell(self, d, x, y, source, cell, differs, is_false):
        if cell is None:
            name = "–"
        else:
            name = "abcdefghijklmnopqrstuvwxyz"[min(self.names[source].index(cell), 25)]
        d.box(x + 1, y + 1, BOX - 2, TALL - 2, fill="black" if is_false else "white",
              stroke="black" if differs else "#b0b0b0", line=2.5 if differs else 1)
        d.text(x + BOX / 2, y + 13, name, size=12, bold=differs, anchor="middle", fill="white" if is_false else "black")


def draw_values(d, top, exchange, text):
    """What the letters stand for, and what the copies are voted to; gives where it ends."""
    for source in range(exchange.elements):
        named = [f"{letter} = {text(row)}" for letter, row in zip("abcdefghijklmnopqrstuvwxyz", exchange.values(source))]
        if not named:
            continue
        d.text(8, top, f"of {source}", size=11)
        for line in named:
            d.text(LEFT, top, line, size=11, mono=True)
            top += 15
        voted = exchange.voted[source]
        if len(named) > 1:
            d.text(LEFT, top, "voted: " + ("nothing" if voted is None else text(voted)), size=11, bold=True, mono=True)
            top += 15
    return top


def draw_legend(d, top):
    """What the marks mean; gives where it ends."""
    d.text(8, top, "How to read it", size=12, bold=True)
    marks = [
        (("a", False, False), "what a sender says of an element: a letter for each different row, listed under the rounds"),
        (("b", True, False), "differs from the row that the copies are voted to: it is noted where it came (P1, P2, D1, D2, V)"),
        (("b", True, True), "a false echo: not what its sender was sent"),
        (("–", False, False), "nothing;  · is what an element says of itself in the second round, which counts nowhere"),
    ]
    y = top + 10
    for (name, differs, is_false), meaning in marks:
        d.box(9, y + 1, BOX - 2, TALL - 2, fill="black" if is_false else "white",
              stroke="black" if differs else "#b0b0b0", line=2.5 if differs else 1)
        d.text(8 + BOX / 2, y + 13, name, size=12, bold=differs, anchor="middle", fill="white" if is_false else "black")
        d.text(36, y + 13, meaning, size=11)
        y += 22
    d.box(8, y, 34, TALL, fill="url(#hatch)")
    d.text(10, y + 13, "none", size=10, bold=True)
    d.text(50, y + 13, "no bytes came, or (bad) bytes that are no frame of this round and sender: read as nothing", size=11)
    return y + 34


def draw_cycle(text, cycle):
    """The whole picture of a cycle as SVG."""
    frames, elements = read_cycle(text, cycle)
    d = Drawing()
    d.text(8, 22, f"Frames of cycle {cycle}", size=14, bold=True)
    top, widest = 50, 640
    for letter, text_of in (("A", pattern_text), ("B", packet_text)):
        exchange = Exchange(frames, elements, letter)
        first, second = Panel(exchange, exchange.first), Panel(exchange, exchange.second)
        first.draw(d, 8, top)
        second.draw(d, 8 + first.width() + 24, top)
        widest = max(widest, 8 + first.width() + 24 + second.width())
        top = draw_values(d, top + 38 + elements * ROW + 16, exchange, text_of) + 22
    return d.svg(widest + 10, draw_legend(d, top))
