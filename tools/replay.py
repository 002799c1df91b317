#!/usr/bin/env python3
"""Prints what passline must print for the blocks on standard input.

Written from docs/RULES.md and docs/FORMAT.md alone: it replays the items one after another by the step of their kind,
and joins nothing. Only the standard library is used.
"""
import sys

BLOCK, RECORD, ROOM = 512, 16, 512
T = 2**40 - 1
MOST_SERVICE = 2**24 - 1
TALLY = 2**32


class Fault(Exception):
    """A refusal: the layer, the number and the layer's places."""

    def __init__(self, layer, number, *places):
        super().__init__(layer, number, *places)
        self.line = " ".join(map(str, (layer, number) + places))


def number(data, start, end):
    return int.from_bytes(data[start:end], "little")


# Steps, by the kind's letter: start state, step, and how a state is printed.

def capped(x, y):
    return min(x + y, T)


def step_server(state, item):
    arrival, service = item
    return capped(max(arrival, state), service)


def step_tandem(state, item):
    arrival, first, second = item
    done = capped(max(arrival, state[0]), first)
    return done, capped(max(done, state[1]), second)


def step_buffer(state, item):
    queue, lost, served = state
    arrivals, service, limit = item
    kept = min(limit, queue + arrivals)
    out = min(service, kept)
    return kept - out, (lost + queue + arrivals - kept) % TALLY, (served + out) % TALLY


NEXT = {
    "G": (1, 2, 3, 3, 3, 3, 3, 7),
    "B": (0, 0, 0, 4, 5, 6, 0, 7),
    "L": (0, 0, 0, 0, 0, 0, 0, 7),
    "S": (7, 7, 7, 7, 7, 7, 7, 7),
    "T": (0, 1, 2, 3, 4, 5, 6, 0),
}


def step_lock(state, letter):
    return NEXT[letter][state]


def step_counts(state, count):
    last, missing, repeats, late = state
    if last is not None:
        d = (count - last) % 16384
        if d == 0:
            repeats = (repeats + 1) % TALLY
        elif 2 <= d <= 8192:
            missing = (missing + d - 1) % TALLY
        elif d > 8192:
            late = (late + 1) % TALLY
    return count, missing, repeats, late


def numbers_text(state):
    return " ".join(str(n) for n in state)


def counts_text(state):
    return numbers_text(("-" if state[0] is None else state[0],) + state[1:])


START_COUNTS = (None, 0, 0, 0)


def beside(first, second):
    return lambda state, item: (first(state[0], item[0]), second(state[1], item[1]))


KINDS = {
    "F": (0, step_server, str),
    "T": ((0, 0), step_tandem, numbers_text),
    "B": ((0, 0, 0), step_buffer, numbers_text),
    "S": (0, step_lock, str),
    "C": (START_COUNTS, step_counts, counts_text),
    "P": ((START_COUNTS, (0, 0)), beside(step_counts, step_tandem), lambda s: counts_text(s[0]) + " " + numbers_text(s[1])),
    "Q": ((0, (0, 0, 0)), beside(step_lock, step_buffer), lambda s: str(s[0]) + " " + numbers_text(s[1])),
}


# Records: where the unused bytes begin, and the fields as (start, end, greatest value); a letter has no greatest value.

ARRIVAL, SERVICE, SECOND = (0, 6, T), (6, 10, MOST_SERVICE), (10, 14, MOST_SERVICE)
SLOT = [(0, 2, 65535), (2, 4, 65535), (4, 6, 65535)]
LAYOUT = {
    "F": (10, [ARRIVAL, SERVICE]),
    "T": (14, [ARRIVAL, SERVICE, SECOND]),
    "B": (6, SLOT),
    "S": (1, [(0, 1, None)]),
    "C": (2, [(0, 2, 16383)]),
    "P": (16, [ARRIVAL, SERVICE, SECOND, (14, 16, 16383)]),
    "Q": (7, SLOT + [(6, 7, None)]),
}


def item_of(kind, values):
    if kind in "FT":
        return tuple(values)
    if kind == "B":
        return tuple(values)
    if kind in "SC":
        return values[0]
    if kind == "P":
        return values[3], tuple(values[:3])
    return values[3], tuple(values[:3])


def read_record(kind, index, data):
    unused, fields = LAYOUT[kind]
    for place in range(unused, RECORD):
        if data[place]:
            raise Fault("record", 9, index, place)
    values = []
    for start, end, greatest in fields:
        value = number(data, start, end)
        if greatest is None:
            value = chr(value)
            if value not in NEXT:
                raise Fault("record", 5, index, start)
        elif value > greatest:
            raise Fault("record", 5, index, start)
        values.append(value)
    return item_of(kind, values)


def check_of(block):
    return 1 + sum((i + 1) * block[i] for i in range(508))


def read_block(block):
    """The kind's letter and the bytes of the records, or None for a note."""
    if len(block) != BLOCK:
        raise Fault("block", 7, len(block))
    if number(block, 508, 512) != check_of(block):
        raise Fault("block", 8, 508)
    letter, count, text = chr(block[0]), block[1], number(block, 2, 4)
    if letter == "N":
        if count:
            raise Fault("block", 9, 1)
        if text > 496:
            raise Fault("block", 9, 2)
        end = 12 + text
    elif letter in KINDS:
        if count > 31:
            raise Fault("block", 9, 1)
        if text:
            raise Fault("block", 9, 2)
        end = 12 + RECORD * count
    else:
        raise Fault("block", 9, 0)
    for place in [*range(4, 12), *range(end, 508)]:
        if block[place]:
            raise Fault("block", 9, place)
    return None if letter == "N" else (letter, block[12:end])


def load(items, kind, block):
    """The kind and the items with those of one more block."""
    held = read_block(block)
    if held is None:
        return kind
    letter, data = held
    if kind is None:
        kind = letter
    if letter != kind:
        raise Fault("load", 10, len(items))
    new = [read_record(kind, i, data[RECORD * i:RECORD * (i + 1)]) for i in range(len(data) // RECORD)]
    if len(items) + len(new) > ROOM:
        raise Fault("load", 2, len(items))
    items.extend(new)
    return kind


def report(data):
    items, kind = [], None
    for index in range((len(data) + BLOCK - 1) // BLOCK):
        try:
            kind = load(items, kind, data[BLOCK * index:BLOCK * (index + 1)])
        except Fault as fault:
            return f"FAULT {index} {fault.line}\n"
    lines = [f"PASS {kind or '-'} {len(items)}"]
    if kind:
        state, step, text = KINDS[kind]
        for position, item in enumerate(items):
            state = step(state, item)
            lines.append(f"{position} {text(state)}")
    return "\n".join(lines + ["END", ""])


if __name__ == "__main__":
    sys.stdout.write(report(sys.stdin.buffer.read()))
