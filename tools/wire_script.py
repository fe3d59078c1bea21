"""Scripts, as `tools/wire` plays them: the acts of the processors and the edits of the faulty element's frames.

A script that `ftpp trace` takes is read to the same acts and edits. Where a line can't be read or played, Unplayable names it.
"""

import re
from collections import defaultdict
from dataclasses import dataclass, field

ROUNDS = ["A1", "A2", "B1", "B2"]
PORTS = 8
PACKET_SIZE = 64
FRAME_LIMIT = 331
ACTS_IN_A_CYCLE = 80


class Unplayable(Exception):
    """A line of a script that can't be played, with the reason."""

    def __init__(self, line, reason):
        super().__init__(f"line {line}: {reason}")


@dataclass
class Edit:
    """One change of the faulty element's frames; a round or a receiver of None means all."""
    round: str | None
    to: int | None
    change: object      # (frame, frame of the cycle before) -> frame

    def is_for(self, round_, to):
        return self.round in (None, round_) and self.to in (None, to)


@dataclass
class Script:
    """What is done in each cycle. An act is its element and its bytes in a node's input."""
    cycles: int
    faulty: int | None = None
    acts: dict = field(default_factory=lambda: defaultdict(list))
    edits: dict = field(default_factory=lambda: defaultdict(list))


def words_of(text):
    """The number and the words of each line that is not skipped."""
    for number, line in enumerate(text.split(b"\n"), 1):
        words = re.split(rb"[ \t]+", line.removesuffix(b"\r").strip(b" \t"))
        if words[0] and not words[0].startswith(b"#"):
            yield number, [word.decode("latin-1") for word in words]


def number(word, most):
    if not re.fullmatch(r"[0-9]{1,10}", word) or int(word) > most:
        raise ValueError(f"{word} is no number up to {most}")
    return int(word)


def hexadecimal(word, most):
    """Bytes in hexadecimal, `-` for none."""
    if word == "-":
        return b""
    if not re.fullmatch(r"([0-9a-fA-F]{2}){1,%d}" % most, word):
        raise ValueError(f"{word} is not 1 to {most} bytes in hexadecimal")
    return bytes.fromhex(word)


def processor(word, elements):
    """The element and the port of `E.P`."""
    if not re.fullmatch(r"[0-9]\.[0-9]", word) or int(word[0]) >= elements or int(word[2]) >= PORTS:
        raise ValueError(f"{word} is no processor of {elements} elements")
    return int(word[0]), int(word[2])


def post(words, elements):
    proc, dest, class_, source, packet = words
    element, port = processor(proc, elements)
    head = bytes([1, port, number(dest, 255), number(class_, 255), number(source, 255)])
    return element, head + hexadecimal(packet, PACKET_SIZE).ljust(PACKET_SIZE, b"\0")


def read(words, elements):
    element, port = processor(words[0], elements)
    return element, bytes([2, port])


def flipped(offset, bits):
    def change(frame, _before):
        if offset >= len(frame):
            return frame
        return frame[:offset] + bytes([frame[offset] ^ bits]) + frame[offset + 1:]
    return change


def edit(words, elements, faulty):
    """`drop ROUND TO`, `flip ROUND TO OFFSET BITS`, `send ROUND TO FRAME`, `repeat ROUND TO`."""
    what, round_, to, *more = words
    if round_ not in [*ROUNDS, "any"]:
        raise ValueError(f"{round_} is no round")
    receiver = None if to == "all" else number(to, elements - 1)
    if receiver == faulty:
        raise ValueError(f"element {to} is the faulty one")
    if what == "drop":
        change = lambda frame, before: b""
    elif what == "repeat":
        change = lambda frame, before: before
    elif what == "send":
        sent = hexadecimal(more[0], FRAME_LIMIT)
        change = lambda frame, before: sent
    else:
        bits = hexadecimal(more[1], 1)
        if not bits:
            raise ValueError("- is no byte")
        change = flipped(number(more[0], FRAME_LIMIT - 1), bits[0])
    return Edit(None if round_ == "any" else round_, receiver, change)


# the words of each form behind `at C`
EDIT_LENGTHS = {"drop": 3, "flip": 5, "send": 4, "repeat": 3}
ACTS = {"post": (post, 6), "read": (read, 2)}


class Reader:
    """Reads a script line by line."""

    def __init__(self, elements):
        self.elements = elements
        self.script = None
        self.cycle = None

    def line(self, words):
        if words[0] == "cycles" and len(words) == 2 and self.script is None:
            self.script = Script(number(words[1], 100_000))
            if self.script.cycles == 0:
                raise ValueError("no cycles")
        elif self.script is None:
            raise ValueError("the first line is `cycles C`")
        elif words[0] == "faulty" and len(words) == 2 and self.script.faulty is None and self.cycle is None:
            self.script.faulty = number(words[1], self.elements - 1)
        elif words[0] == "at" and len(words) > 2:
            self.at(number(words[1], 2**32), words[2:])
        else:
            raise ValueError("no line of a script")

    def at(self, cycle, words):
        if cycle >= self.script.cycles or cycle < (self.cycle or 0):
            raise ValueError(f"cycle {cycle} is not in its place")
        self.cycle = cycle
        make, length = ACTS.get(words[0], (None, None))
        if make and len(words) == length:
            self.act(make(words[1:], self.elements))
        elif EDIT_LENGTHS.get(words[0]) == len(words):
            self.change(words)
        elif words[0] == "rejoin":
            raise ValueError("a node keeps its state to its end, so it can't rejoin")
        else:
            raise ValueError("no act and no edit")

    def act(self, act):
        acts = self.script.acts[self.cycle]
        if len(acts) == ACTS_IN_A_CYCLE:
            raise ValueError(f"more than {ACTS_IN_A_CYCLE} posts and reads in a cycle")
        acts.append(act)

    def change(self, words):
        if self.script.faulty is None:
            raise ValueError("no element is faulty")
        self.script.edits[self.cycle].append(edit(words, self.elements, self.script.faulty))


def read_script(text, elements):
    """The script in these bytes, for so many elements."""
    reader = Reader(elements)
    for line, words in words_of(text):
        try:
            reader.line(words)
        except ValueError as refused:
            raise Unplayable(line, refused) from None
    if reader.script is None:
        raise Unplayable(1 + text.count(b"\n"), "no line `cycles C`")
    return reader.script
