"""`describe` beside a reading of control tables, rule lists and readings of its own."""
import random
import struct

from common import compare, damaged, pair, run


class Fault(Exception):
    """A cause, a place, and True for the reading's own fault."""


def there(data, end):
    if len(data) < end:
        raise Fault(1, len(data), False)


def table(data):
    there(data, 1)
    if data[0] >> 2:
        raise Fault(2, 0, False)
    there(data, 3)
    states = pair(data, 1)
    if not 1 <= states <= 1024:
        raise Fault(3, 1, False)
    there(data, 5)
    arrows = pair(data, 3)
    if not 1 <= arrows <= 16384:
        raise Fault(3, 3, False)
    at, words, initial, columns = 5, [0] * states, [s == 0 for s in range(states)], []
    if data[0] & 1:
        there(data, at + 2 * states)
        words = [pair(data, at + 2 * s) for s in range(states)]
        at += 2 * states
        columns.append("words")
    if data[0] & 2:
        size = (states + 7) // 8
        there(data, at + size)
        bits = [data[at + i // 8] >> i % 8 & 1 for i in range(8 * size)]
        if any(bits[states:]):
            raise Fault(3, at + size - 1, False)
        initial = [bit == 1 for bit in bits[:states]]
        at += size
        columns.append("initial")
    there(data, at + 2 * states)
    ends = [0]
    for s in range(states):
        end = pair(data, at + 2 * s)
        if end <= ends[-1] or end > arrows or (s == states - 1 and end != arrows):
            raise Fault(4, at + 2 * s, False)
        ends.append(end)
    at += 2 * states
    there(data, at + 2 * arrows)
    targets = [pair(data, at + 2 * k) for k in range(arrows)]
    for k, target in enumerate(targets):
        if target >= states:
            raise Fault(5, at + 2 * k, False)
    at += 2 * arrows
    if len(data) > at:
        raise Fault(6, at, False)
    rows = [targets[a:b] for a, b in zip(ends, ends[1:])]
    return words, initial, rows, f"columns {' '.join(columns) or 'none'}\n"


def rules(data):
    there(data, 1)
    if data[0] > 1:
        raise Fault(2, 0, False)
    there(data, 2)
    if not 1 <= data[1] <= 10:
        raise Fault(3, 1, False)
    there(data, 3)
    if data[2] > 64:
        raise Fault(3, 2, False)
    states, at, start = 1 << data[1], 3, 0
    if data[0]:
        there(data, 5)
        at, start = 5, pair(data, 3)
        if start >= states:
            raise Fault(3, 3, False)
    listed = []
    for _ in range(data[2]):
        place = at
        there(data, at + 1)
        if data[at] > 15:
            raise Fault(2, place, False)
        at, masks = at + 1, []
        for k in range(4):
            if data[place] >> k & 1:
                there(data, at + 2)
                masks.append(pair(data, at))
                at += 2
            else:
                masks.append(0)
        if max(masks) >= states or masks[2] & masks[3]:
            raise Fault(7, place, False)
        listed.append(masks)
    if len(data) > at:
        raise Fault(6, at, False)
    rows = []
    for s in range(states):
        row = [(s | up) & ~down for on, off, up, down in listed if s & on == on and not s & off]
        rows.append(row or [s])
    return list(range(states)), [s == start for s in range(states)], rows, ""


def text(words, initial, rows, columns):
    lines = [f"states {len(words)}\n", f"arrows {sum(map(len, rows))}\n", columns]
    for s, row in enumerate(rows):
        mark = " initial" if initial[s] else ""
        lines.append(f"state {s}{mark} word {words[s]:04x} to {' '.join(map(str, row))}\n")
    return "".join(lines)


def expected(data, by_rules, layer):
    try:
        words, initial, rows, columns = (rules if by_rules else table)(data)
        if layer:
            bit, mask = layer
            if bit > 15:
                raise Fault(3, 0, True)
            words = [w | 1 << bit if w & mask else w & ~(1 << bit) for w in words]
        return 0, text(words, initial, rows, columns)
    except Fault as fault:
        cause, place, own = fault.args
        height = 1 if layer and not own else 0
        return 1, f"describe: fault {cause} at {place} height {height}"


def some_table():
    states, map_byte = random.choice([1, 2, 3, 7, 8, 9, 16, 17, 40]), random.randrange(4)
    degrees = [random.randrange(1, 4) for _ in range(states)]
    data = bytes([map_byte]) + struct.pack(">HH", states, sum(degrees))
    if map_byte & 1:
        data += random.randbytes(2 * states)
    if map_byte & 2:
        data += random.getrandbits(states).to_bytes((states + 7) // 8, "little")
    end = 0
    for degree in degrees:
        end += degree
        data += struct.pack(">H", end)
    return data + b"".join(struct.pack(">H", random.randrange(states)) for _ in range(end))


def some_rules():
    bits, count, map_byte = random.randrange(1, 6), random.randrange(5), random.randrange(2)
    data = bytes([map_byte, bits, count])
    if map_byte:
        data += struct.pack(">H", random.randrange(1 << bits))
    for _ in range(count):
        masks = [random.randrange(1 << bits) for _ in range(4)]
        masks[3] &= ~masks[2]
        stands = random.randrange(16)
        data += bytes([stands]) + b"".join(struct.pack(">H", masks[k]) for k in range(4) if stands >> k & 1)
    return data


def one():
    by_rules = random.random() < 0.4
    data = damaged(some_rules() if by_rules else some_table())
    layer = (random.randrange(18), random.randrange(65536)) if random.random() < 0.4 else None
    words = ["rules"] * by_rules + (["reading", str(layer[0]), f"{layer[1]:x}"] if layer else [])
    status, out, err = run("describe", *words, stdin=data)
    got = (0, out) if status == 0 and not err else (status, out + ":".join(err.split(":")[:2]))
    return expected(data, by_rules, layer), got, f"{words} {data.hex()}"


compare("sources", one)
