"""`explain` beside a reading of records of its own: which are accepted, and the number of the first refusal."""
import random
import struct

from common import compare, damaged, pair, run


class Refusal(Exception):
    pass


def there(data, end):
    if len(data) < end:
        raise Refusal(31)


def require(ok, number):
    if not ok:
        raise Refusal(number)


def column(data, at, count):
    there(data, at + 2 * count)
    require(all(pair(data, at + 2 * k) <= 1023 for k in range(count)), 33)
    return at + 2 * count


def read(data):
    there(data, 1)
    require(data[0] < 8, 32)
    there(data, 2)
    require(1 <= data[1] <= 6, 33)
    there(data, 3)
    require(data[2] <= 2, 33)
    require(bool(data[0] & 1) == (data[1] >= 3) and bool(data[0] & 4) == (data[2] == 2), 32)
    at = 11 if data[0] & 1 else 7
    there(data, at)
    if data[0] & 2:
        there(data, at + 2)
        require(pair(data, at) > 0, 33)
        at += 2
    if data[0] & 4:
        there(data, at + 2)
        stem = pair(data, at)
        require(stem <= 5120, 33)
        there(data, at + 4)
        loop = pair(data, at + 2)
        require(1 <= loop <= 4096, 33)
        at = column(data, column(data, at + 4, stem), loop)
    require(len(data) == at, 34)


def some_record():
    pattern, verdict, depth = random.randrange(1, 7), random.randrange(3), random.choice([0, 1, 5, 65535])
    map_byte = (pattern >= 3) | (depth > 0) << 1 | (verdict == 2) << 2
    data = bytes([map_byte, pattern, verdict]) + random.randbytes(8 if pattern >= 3 else 4)
    if depth:
        data += struct.pack(">H", depth)
    if verdict == 2:
        stem, loop = random.choice([0, 1, 3, 300, 5120]), random.choice([1, 2, 500, 4096])
        states = (random.randrange(1024) for _ in range(stem + loop))
        data += struct.pack(">HH", stem, loop) + b"".join(struct.pack(">H", s) for s in states)
    return data


def one():
    data = damaged(some_record())
    try:
        read(data)
        expected = (0, f"Written again, the record is the same {len(data)} bytes.", "")
    except Refusal as refusal:
        expected = (1, "", f"explain: {refusal.args[0]}")
    status, out, err = run("explain", stdin=data)
    got = (status, out.splitlines()[-1] if out else "", ":".join(err.split(":")[:2]))
    return expected, got, data.hex()[:200]


compare("records", one)
