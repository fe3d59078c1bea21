"""The house as pictures: the crates by their floors, and the way of data through a cycle."""

from svg import Drawing

GREY = "#606060"


# --- floors -----------------------------------------------------------------

def read_floors(text):
    """The floors of crates.txt, from the ground up: their names and their crates."""
    floors = []
    for line in text.split("\n"):
        if line.startswith("# floor"):
            floors.append((line[2:], []))
        elif ":" in line and not line.startswith("#"):
            floors[-1][1].append(line.split(":")[0].split()[0])
    return floors


def draw_floors(text, width=900):
    """A band for each floor, the highest on top, with a box for each crate."""
    d = Drawing()
    y = 12
    for name, crates in reversed(read_floors(text)):
        x, top = 150, y
        y += 10
        for crate in crates:
            wide = 6.7 * len(crate) + 18
            if x + wide > width - 10:
                x, y = 150, y + 32
            d.box(x, y, wide, 24, round_=3)
            d.text(x + 8, y + 16, crate, mono=True)
            x += wide + 8
        y += 34
        d.text(16, top + 27, name, size=13, bold=True)
        d.line(8, y, width - 8, y, stroke=GREY)
    d.text(8, y + 20, "A crate stands on crates of lower floors alone.", fill=GREY)
    return d.svg(width, y + 32)


# --- a cycle ----------------------------------------------------------------

# the steps of a cycle, by column: what is made, and the crate that makes it
PATTERNS = [
    ("what the ports show", "element_ports"),
    ("A1: the own pattern", "local_pattern, frame_format"),
    ("frames over the links", "link_fabric"),
    ("copies of all patterns", "two_round"),
    ("A2: echoes of them", "frame_format, link_fabric"),
    ("the vote over the others' words", "two_round, bit_vote"),
    ("the agreed pattern", "pattern_exchange"),
]
CHOICE = [
    ("votes of each group", "flag_vote, config_table"),
    ("who asks, since when, who is full", "scoreboard"),
    ("the oldest request that may go", "sender_choice"),
    ("the decision", "scoreboard"),
]
PACKETS = [
    ("B1: the member's packet", "element_ports, frame_format"),
    ("copies of the packets", "link_fabric, two_round"),
    ("B2: echoes, in two rounds", "two_round"),
    ("the entry", "data_exchange, bit_vote"),
    ("taken off, delivered", "element_ports"),
    ("an update of the table", "table_update"),
    ("notes of the others", "element_notes, syndrome_log"),
]
STEP, TALL, WIDE = 62, 42, 244


def draw_steps(d, x, y, title, steps):
    """A column of steps, one under the other; gives where its last one ends."""
    d.text(x, y, title, size=13, bold=True)
    y += 14
    for place, (what, crates) in enumerate(steps):
        if place:
            draw_arrow(d, x + WIDE / 2, y - (STEP - TALL), x + WIDE / 2, y)
        d.box(x, y, WIDE, TALL, round_=4)
        d.text(x + 10, y + 17, what, size=12)
        d.text(x + 10, y + 34, crates, size=10, mono=True, fill=GREY)
        y += STEP
    return y - (STEP - TALL)


def draw_arrow(d, x1, y1, x2, y2):
    d.line(x1, y1, x2, y2)
    if x1 == x2:
        d.shape([(x2 - 4, y2 - 7), (x2 + 4, y2 - 7), (x2, y2)])
    else:
        d.shape([(x2 - 7, y2 - 4), (x2 - 7, y2 + 4), (x2, y2)])


def draw_bridge(d, x, low, high):
    """From the last step of a column to the first one of the next."""
    d.line(x + WIDE, low - TALL / 2, x + WIDE + 18, low - TALL / 2)
    d.line(x + WIDE + 18, low - TALL / 2, x + WIDE + 18, high)
    draw_arrow(d, x + WIDE + 18, high, x + WIDE + 36, high)


def draw_data():
    """One element's way through a cycle."""
    d = Drawing()
    first = 38 + TALL / 2
    low = draw_steps(d, 12, 24, "All agree on what is shown", PATTERNS)
    draw_bridge(d, 12, low, first)
    middle = 12 + WIDE + 36
    chosen = draw_steps(d, middle, 24, "One request is chosen", CHOICE)
    draw_bridge(d, middle, chosen, first)
    right = middle + WIDE + 36
    draw_steps(d, right, 24, "Its packet goes, and what follows", PACKETS)
    d.text(middle, chosen + 40, "Each element does all of this by itself, in", size=11)
    d.text(middle, chosen + 56, "element_core; what it keeps for the next cycle", size=11)
    d.text(middle, chosen + 72, "are its ports, the table, the scoreboard, its log.", size=11)
    d.text(middle, chosen + 96, "cluster joins the elements by a fabric;", size=11)
    d.text(middle, chosen + 112, "report_text writes what a cycle shows.", size=11)
    return d.svg(right + WIDE + 12, low + 14)
