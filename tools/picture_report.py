"""A report as a picture: a row for each element, a column for each cycle."""

from itertools import groupby

from svg import Drawing

LEFT, TOP = 78, 46
PORT = 17                  # the width of a port's box
WIDTH = 8 * PORT + 20      # of a column
HEAD = 66
STEP = 15                  # between lines
SHOWN = 14                 # hexadecimal digits of a packet that are shown


def short(packet):
    """A packet's first bytes."""
    if packet == "-":
        return "zeros"
    return packet if len(packet) <= SHOWN else packet[:SHOWN] + "…"


def note_lines(notes):
    """Notes of one kind against one element on one line: `P2 e3 on e0 e1 e2`."""
    lines = []
    for (kind, accused), same in groupby(notes, key=lambda note: note[:2]):
        others = [f"e{other}" for _, _, other in same]
        lines.append((kind, f"e{accused}" + (f" on {' '.join(others)}" if kind in ("P2", "D2") else "")))
    return lines


class Cell:
    """What one element shows, is handed and notes in one cycle."""

    def __init__(self, cycle, element):
        self.cycle, self.element = cycle, element
        own = f"{element}."
        self.acts = [f"post at .{proc[2]} refused" for proc in cycle.full if proc.startswith(own)]
        for proc, packet in cycle.reads:
            if proc.startswith(own):
                self.acts.append(f".{proc[2]} reads " + ("nothing" if packet is None else short(packet)))
        self.notes = note_lines(cycle.notes[element])
        self.is_admitted = element in cycle.decision.get("admitted", ())
        self.result = cycle.results.get(element)

    def is_faulty(self):
        return self.cycle.faulty == self.element

    def rejoins(self):
        return self.cycle.rejoin and self.cycle.rejoin[0] == self.element

    def lines(self):
        return len(self.acts) + self.is_admitted + (self.result is not None) + len(self.notes) + bool(self.rejoins())

    def draw(self, d, x, y, height):
        d.box(x, y, WIDTH, height, fill="url(#hatch)" if self.is_faulty() else "white", stroke="#808080")
        left = x + (WIDTH - 8 * PORT) / 2
        for port, word in enumerate(self.cycle.patterns.get(self.element, ())):
            draw_port(d, left + port * PORT, y + 8, word)
        at = y + 8 + PORT + STEP
        if self.rejoins():
            d.line(x + 2, y, x + 2, y + height, 5)
            d.text(left + 2, at, f"rejoin {self.cycle.rejoin[1]}", bold=True)
            at += STEP
        for act in self.acts:
            d.text(left, at, act, size=10)
            at += STEP
        if self.is_admitted:
            d.up(left, at)
            d.text(left + 14, at, "admitted")
            at += STEP
        at = self.draw_result(d, left, at)
        for note in self.notes:
            draw_note(d, left, at, *note)
            at += STEP

    def draw_result(self, d, left, at):
        if self.result is None:
            return at
        if self.element in self.cycle.handed:
            port, what = self.cycle.handed[self.element]
            (d.down if what == "stored" else d.lost)(left, at)
            d.text(left + 14, at, f".{port}" + ("" if what == "stored" else " overrun"), bold=True)
            d.text(left + (32 if what == "stored" else 85), at, short(self.result), mono=True)
        else:
            d.text(left + 14, at, "= ", fill="#606060")
            d.text(left + 32, at, short(self.result), mono=True, fill="#606060")
        return at + STEP


def draw_note(d, x, y, kind, rest):
    """A note: its kind, and whom it accuses."""
    d.box(x, y - 11, 22 + 6.5 * len(rest) + 6, 14, round_=3)
    d.text(x + 4, y, kind, bold=True, size=10)
    d.text(x + 24, y, rest, size=10)


def draw_port(d, x, y, word):
    """A port's box: the destination that its request names; crossed where its input is full."""
    flags, *request = word.split(":")
    has_room = int(flags) & 2
    d.box(x, y, PORT - 2, PORT - 2, fill="black" if request else "white")
    if request:
        size = 10 if len(request[0]) < 3 else 7
        d.text(x + (PORT - 2) / 2, y + 11.5, request[0], size=size, bold=True, anchor="middle", fill="white")
    if not has_room:
        stroke = "white" if request else "black"
        d.line(x + 1, y + PORT - 3, x + PORT - 3, y + 1, 1.5, stroke=stroke)
        if not request:
            d.line(x + 1, y + 1, x + PORT - 3, y + PORT - 3, 1.5)


def draw_head(d, x, y, cycle):
    """What was decided in a cycle."""
    decided = cycle.decision
    d.text(x + 8, y + 14, f"cycle {cycle.number}", size=12, bold=True)
    if decided["act"] == "idle":
        d.text(x + 8, y + 31, "idle", size=12, fill="#606060")
        return
    to = "table" if decided["class"] == 3 else f"group {decided['dest']}"
    verb = "" if decided["act"] == "serve" else "discards "
    d.text(x + 8, y + 31, f"{verb}{decided['sender']} → {to}", size=12, bold=True)
    how = decided.get("kind") or f"reason {decided['reason']}"
    d.text(x + 8, y + 45, f"class {decided['class']}, {how}", size=10)
    if cycle.update:
        d.text(x + 8, y + 59, f"waited {decided['waited']}, update {cycle.update}", size=10)
        return
    d.text(x + 8, y + 59, f"waited {decided['waited']}", size=10)
    for tick in range(min(decided["waited"], 10)):
        d.box(x + 62 + 8 * tick, y + 52, 5, 7, fill="black", line=0)


def draw_band(d, y, cycles, elements):
    """Some cycles side by side; gives where they end."""
    cells = {element: [Cell(cycle, element) for cycle in cycles] for element in elements}
    for place, cycle in enumerate(cycles):
        draw_head(d, LEFT + place * WIDTH, y, cycle)
    y += HEAD
    for element in elements:
        height = 8 + PORT + 8 + STEP * max(cell.lines() for cell in cells[element])
        d.text(8, y + 20, f"element {element}", size=12, bold=True)
        for place, cell in enumerate(cells[element]):
            cell.draw(d, LEFT + place * WIDTH, y, height)
        y += height
    return y


def draw_legend(d, y):
    """What the marks mean, in two columns; gives where it ends."""
    d.text(8, y, "How to read it", size=12, bold=True)
    left, right, first = 16, 330, y + 20
    draw_port(d, left, first - 12, "2")
    d.text(left + 24, first, "port 0 to 7: room, no request")
    draw_port(d, left, first + 8, "3:3:1:0")
    d.text(left + 24, first + 20, "asks to send to this group (0: the table)")
    draw_port(d, left, first + 28, "0")
    d.text(left + 24, first + 40, "its input is full")
    d.box(left, first + 48, 15, 15, fill="url(#hatch)", stroke="#808080")
    d.text(left + 24, first + 60, "the faulty element, where the report tells")
    d.line(left + 8, first + 66, left + 8, first + 82, 5)
    d.text(left + 24, first + 80, "was reset and took the others' state")
    d.up(right, first)
    d.text(right + 24, first, "its member was admitted: its request is taken off")
    d.down(right, first + 20)
    d.text(right + 24, first + 20, "port .2 was handed this packet")
    d.lost(right, first + 40)
    d.text(right + 24, first + 40, "the input was full: an overrun")
    d.text(right, first + 60, "=", fill="#606060")
    d.text(right + 24, first + 60, "this result, and no member to hand it to")
    draw_note(d, right - 6, first + 80, "D2", "e1 on e3")
    d.text(right + 84, first + 80, "a note: its kind, the element accused, and on whom its echo was")
    return first + 96


def draw_report(cycles, end, wide):
    """The whole picture as SVG."""
    d = Drawing()
    elements = sorted(cycles[0].patterns)
    y = 12
    for first in range(0, len(cycles), wide):
        y = draw_band(d, y, cycles[first:first + wide], elements) + 22
    d.text(8, y - 4, end, mono=True)
    bottom = draw_legend(d, y + 22)
    return d.svg(max(LEFT + WIDTH * min(wide, len(cycles)) + 10, 800), bottom)
